/* The day sheet of a folder with tables.bin and rules.txt, by the C calls: what `bin/day-sheet FOLDER` prints where both
   files can be read and are not too long. From the repository's top folder:

       bin/archive
       cc -I include samples/c/closing.c target/staticlib/librcl2000.a -o closing
       ./closing samples/closing */
#include "rcl2000.h"

#include <inttypes.h>
#include <stdio.h>
#include <string.h>

static const uint8_t in_turn[RCL2000_MAX_VARIABLES] = {1, 2, 3, 4, 5, 6, 7, 8};
/* How many full choices are walked in a second at the least (docs/BENCHMARKS.md). */
enum { CHOICES_A_SECOND = 500000 };
/* The words of a verdict by its number, and then that of a refusal. */
enum { REFUSED = 3, WORDS };
static const char *const words[WORDS] = {"held", "idle", "broken", "refused"};

/* The bytes of a file, at most `most`; answers whether it could be read. */
static int read_file(const char *folder, const char *name, uint8_t *bytes, size_t most, size_t *length) {
    char path[4096];
    FILE *file;
    int failed;
    if (snprintf(path, sizeof path, "%s/%s", folder, name) >= (int)sizeof path) return 0;
    file = fopen(path, "rb");
    if (file == NULL) return 0;
    *length = fread(bytes, 1, most, file);
    failed = ferror(file);
    fclose(file);
    return !failed;
}

/* How many variables a rule has: the quantifiers of its formula; 0 where it is refused. */
static size_t variables(const uint8_t *rule, size_t length) {
    uint8_t formula[RCL2000_MAX_FORMULA];
    uint32_t written = reduce(rule, length, formula, sizeof formula);
    size_t count = 0, i;
    if (RCL2000_REFUSAL(written) != 0) return 0;
    for (i = 0; i < written; i++) count += formula[i] == '[';
    return count;
}

/* Eight bytes, lowest first. */
static uint64_t number(const uint8_t *bytes) {
    uint64_t sum = 0;
    int i;
    for (i = 7; i >= 0; i--) sum = sum << 8 | bytes[i];
    return sum;
}

static void print_verdict(const uint8_t *verdict) {
    const uint8_t *choice = verdict + RCL2000_VERDICT_CHOICE;
    unsigned share = verdict[RCL2000_VERDICT_SHARE];
    int i;
    printf("%s %" PRIu64 " %" PRIu64, words[verdict[RCL2000_VERDICT_WORD]], number(verdict + RCL2000_VERDICT_FULL),
           number(verdict + RCL2000_VERDICT_BREAKING));
    if (share == RCL2000_NONE)
        printf(" -");
    else
        printf(" %u", share);
    for (i = 0; i < RCL2000_MAX_VARIABLES; i++)
        if (choice[i] != RCL2000_NONE) printf(" v%d=%u", i + 1, (unsigned)choice[i]);
    printf("\n");
}

/* Says on standard error where a rule may take more than a second: as long as its ceiling allows, at the slowest full choice
   that was measured. Whoever has somebody to ask, asks here. */
static void tell_wait(const uint8_t *tables, size_t t, const uint8_t *rule, size_t length, size_t place) {
    uint8_t told[RCL2000_FORECAST];
    uint64_t ceiling;
    if (RCL2000_REFUSAL(forecast(tables, t, rule, length, told, sizeof told)) != 0) return;
    ceiling = number(told + RCL2000_FORECAST_CEILING);
    if (ceiling > CHOICES_A_SECOND)
        fprintf(stderr, "line %zu: at most %" PRIu64 " seconds\n", place, ceiling / CHOICES_A_SECOND + 1);
}

/* The line of one rule, which stands at a place; answers which word it carries. */
static size_t print_line(const uint8_t *tables, size_t t, const uint8_t *rule, size_t length, size_t place) {
    uint8_t verdict[RCL2000_VERDICT];
    uint32_t returned;
    tell_wait(tables, t, rule, length, place);
    returned = judge(tables, t, rule, length, in_turn, variables(rule, length), verdict, sizeof verdict);
    printf("%zu ", place);
    if (RCL2000_REFUSAL(returned) != 0) {
        printf("%s %" PRIu32 "\n", words[REFUSED], RCL2000_REFUSAL(returned));
        return REFUSED;
    }
    print_verdict(verdict);
    return verdict[RCL2000_VERDICT_WORD];
}

/* The line of each rule, and how many carry each word. */
static void print_sheet(const uint8_t *tables, size_t t, const uint8_t *rules, size_t r) {
    size_t lines = 0, from = 0, i, carrying[WORDS] = {0};
    while (from < r) {
        const uint8_t *end = (const uint8_t *)memchr(rules + from, '\n', r - from);
        size_t length = end == NULL ? r - from : (size_t)(end - (rules + from));
        carrying[print_line(tables, t, rules + from, length, ++lines)]++;
        from += length + 1;
    }
    printf("total %zu", lines);
    for (i = 0; i < WORDS; i++) printf(" %s %zu", words[i], carrying[i]);
    printf("\n");
}

/* The refusal of the tables, whatever the rule; 0 where they are accepted. */
static uint32_t refused_tables(const uint8_t *tables, size_t t) {
    uint8_t verdict[RCL2000_VERDICT];
    return RCL2000_REFUSAL(judge(tables, t, (const uint8_t *)"U=U", 3, in_turn, 0, verdict, sizeof verdict));
}

/* The sheet of refused tables. It has their number alone; what their roles are not goes to standard error. */
static void print_refused(const uint8_t *tables, size_t t) {
    static const char *const steps[] = {NULL, "reflexive", "transitive", "antisymmetric"};
    uint32_t step = rank_step(tables, t);
    printf("tables refused %" PRIu32 "\n", refused_tables(tables, t));
    if (step != 0) fprintf(stderr, "the roles are not %s\n", steps[step]);
}

int main(int count, char **given) {
    static uint8_t tables[4096], rules[32768];
    size_t t = 0, r = 0;
    if (count != 2 || !read_file(given[1], "tables.bin", tables, sizeof tables, &t) ||
        !read_file(given[1], "rules.txt", rules, sizeof rules, &r)) {
        fprintf(stderr, "closing FOLDER, which has tables.bin and rules.txt\n");
        return 2;
    }
    if (refused_tables(tables, t) != 0)
        print_refused(tables, t);
    else
        print_sheet(tables, t, rules, r);
    return fflush(stdout) == 0 && !ferror(stdout) ? 0 : 1;
}
