/* The day sheet of a folder with tables.bin and rules.txt as a reader sees it who is shown some users, by the C calls. From
   the repository's top folder, for the laboratory, which is users 2 and 3:

       bin/archive
       cc -I include samples/c/reader.c target/staticlib/librcl2000.a -o reader
       ./reader samples/closing 2 3 */
#include "rcl2000.h"

#include <inttypes.h>
#include <stdio.h>
#include <stdlib.h>

/* The bytes of a file, at most `most`; answers whether it could be read. */
static int read_file(const char *folder, const char *name, uint8_t *bytes, size_t most, size_t *length) {
    char path[4096];
    FILE *file;
    int failed;
    if (snprintf(path, sizeof path, "%s/%s", folder, name) >= (int)sizeof path) return 0;
    file = fopen(path, "rb");
    if (file == NULL) return 0;
    *length = fread(bytes, 1, most, file);
    failed = ferror(file);
    fclose(file);
    return !failed;
}

/* Adds a user to a reader's word; answers whether the text is a number for which a word has a bit. */
static int add_user(const char *text, uint64_t *reader) {
    char *end;
    unsigned long user = strtoul(text, &end, 10);
    if (*text < '0' || *text > '9' || *end != '\0' || user > 63) return 0;
    *reader |= (uint64_t)1 << user;
    return 1;
}

/* Prints one line after another, until there is none; answers the refusal, 0 where there was none. No line is longer than
   the room that is lent, so none is refused for that. */
static uint32_t print_sheet(const uint8_t *tables, size_t t, uint64_t reader, const uint8_t *rules, size_t r) {
    uint8_t line[RCL2000_MAX_LINE];
    size_t place;
    for (place = 1;; place++) {
        uint32_t returned = sheet_line(tables, t, reader, rules, r, place, line, sizeof line);
        if (RCL2000_REFUSAL(returned) != 0) return RCL2000_REFUSAL(returned);
        if (returned == 0) return 0;
        printf("%.*s\n", (int)returned, (const char *)line);
    }
}

int main(int count, char **given) {
    /* A byte more than rules may have, by which longer ones are seen to be too long. */
    static uint8_t tables[4096], rules[RCL2000_MAX_RULES + 1];
    size_t t = 0, r = 0;
    uint64_t reader = 0;
    uint32_t refused;
    int i, good = count >= 2;
    for (i = 2; i < count; i++) good = good && add_user(given[i], &reader);
    if (!good || !read_file(given[1], "tables.bin", tables, sizeof tables, &t) ||
        !read_file(given[1], "rules.txt", rules, sizeof rules, &r)) {
        fprintf(stderr, "reader FOLDER USER.., where the folder has tables.bin and rules.txt and users are 0 to 63\n");
        return 2;
    }
    refused = print_sheet(tables, t, reader, rules, r);
    if (refused == RCL2000_READER)
        printf("reader refused %" PRIu32 "\n", refused);
    else if (refused != 0)
        printf("tables refused %" PRIu32 "\n", refused);
    return fflush(stdout) == 0 && !ferror(stdout) ? 0 : 1;
}
