/* The verdict on a page of rules, which is read from standard input, on a folder's tables.bin, by one C call. From the
   repository's top folder:

       bin/archive
       cc -I include samples/c/page.c target/staticlib/librcl2000.a -o page
       head -n 6 samples/closing/rules.txt | ./page samples/closing */
#include "rcl2000.h"

#include <inttypes.h>
#include <stdio.h>

static const char *const words[] = {"held", "idle", "broken"};

/* Eight bytes, lowest first. */
static uint64_t number(const uint8_t *bytes) {
    uint64_t sum = 0;
    int i;
    for (i = 7; i >= 0; i--) sum = sum << 8 | bytes[i];
    return sum;
}

static void print_page(const uint8_t *page, size_t length) {
    size_t at, place = 0;
    printf("page %s, %" PRIu64 " choices, %" PRIu64 " breaking, %u walks\n", words[page[RCL2000_PAGE_WORD]],
           number(page + RCL2000_PAGE_FULL), number(page + RCL2000_PAGE_BREAKING), (unsigned)page[RCL2000_PAGE_WALKS]);
    for (at = RCL2000_PAGE_HEAD; at < length; at += RCL2000_VERDICT)
        printf("line %zu %s\n", ++place, words[page[at + RCL2000_VERDICT_WORD]]);
}

int main(int count, char **given) {
    static uint8_t tables[4096], rules[32768];
    uint8_t page[RCL2000_PAGE_LENGTH(RCL2000_MAX_LINES)];
    char path[4096];
    FILE *file = NULL;
    size_t t, r;
    uint32_t returned;
    if (count == 2 && snprintf(path, sizeof path, "%s/tables.bin", given[1]) < (int)sizeof path) file = fopen(path, "rb");
    if (file == NULL) {
        fprintf(stderr, "page FOLDER, which has tables.bin\n");
        return 2;
    }
    t = fread(tables, 1, sizeof tables, file);
    fclose(file);
    r = fread(rules, 1, sizeof rules, stdin);
    returned = judge_page(tables, t, rules, r, page, sizeof page);
    if (RCL2000_REFUSAL(returned) == 0)
        print_page(page, returned);
    else if (RCL2000_POSITION(returned) == 0)
        printf("page refused %" PRIu32 "\n", RCL2000_REFUSAL(returned));
    else
        printf("page refused %" PRIu32 " for line %" PRIu32 "\n", RCL2000_REFUSAL(returned), RCL2000_POSITION(returned));
    return fflush(stdout) == 0 && !ferror(stdout) ? 0 : 1;
}
