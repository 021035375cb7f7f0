/* A rule's verdict while sessions come and go, by the C calls, on a folder's tables.bin. What happens is read from standard
   input, one call to a line: `open USER ROLE..` or `close NUMBER`. From the repository's top folder:

       bin/archive
       cc -I include samples/c/sessions.c target/staticlib/librcl2000.a -o sessions
       printf 'open 4 5 6\nclose 4\n' | ./sessions samples/closing '|(roles*(OE(sessions(OE(U))))&OE(CR))|<=1' */
#include "rcl2000.h"

#include <inttypes.h>
#include <stdio.h>
#include <stdlib.h>
#include <string.h>

static const char *const words[] = {"held", "idle", "broken"};

/* The current state, and room for the next: a call reads the one and writes the other, and where it is accepted the two
   change places. A refused call writes nothing, so that the current state still is. */
static uint8_t rooms[2][RCL2000_MAX_STATE];
static uint8_t *state = rooms[0], *next = rooms[1];
static size_t length;

/* Eight bytes, lowest first. */
static uint64_t number(const uint8_t *bytes) {
    uint64_t sum = 0;
    int i;
    for (i = 7; i >= 0; i--) sum = sum << 8 | bytes[i];
    return sum;
}

static void print_verdict(const uint8_t *verdict) {
    const uint8_t *choice = verdict + RCL2000_VERDICT_CHOICE;
    int i;
    printf("%s %" PRIu64 " %" PRIu64, words[verdict[RCL2000_VERDICT_WORD]], number(verdict + RCL2000_VERDICT_FULL),
           number(verdict + RCL2000_VERDICT_BREAKING));
    for (i = 0; i < RCL2000_MAX_VARIABLES; i++)
        if (choice[i] != RCL2000_NONE) printf(" v%d=%u", i + 1, (unsigned)choice[i]);
    printf("\n");
}

/* What became of a call that was lent the other room. */
static void follow(uint32_t returned) {
    uint8_t *before = state;
    if (RCL2000_REFUSAL(returned) != 0) {
        printf("refused %" PRIu32 "\n", RCL2000_REFUSAL(returned));
        return;
    }
    state = next;
    next = before;
    length = returned;
    print_verdict(state);
}

/* Takes a number from the front of a text; answers whether one stands there. */
static int take(char **text, uint64_t *taken) {
    if (**text < '0' || **text > '9') return 0;
    *taken = strtoull(*text, text, 10);
    return 1;
}

/* A number as the calls take it. One that is too large for that must not become another's: the highest is nobody's. */
static uint32_t narrow(uint64_t wide) { return wide < UINT32_MAX ? (uint32_t)wide : UINT32_MAX; }

/* Opens `USER ROLE..`; answers whether that is written there. A role that no word has a bit for is refused as a user whom
   no tables have. */
static int open_session(char *text) {
    uint64_t user, role, roles = 0;
    if (!take(&text, &user)) return 0;
    while (*text == ' ') {
        text++;
        if (!take(&text, &role)) return 0;
        if (role < 64)
            roles |= (uint64_t)1 << role;
        else
            user = UINT32_MAX;
    }
    if (*text != '\0') return 0;
    follow(session_open(state, length, narrow(user), roles, next, RCL2000_MAX_STATE));
    return 1;
}

/* Closes `NUMBER`; answers whether that is written there. */
static int close_session(char *text) {
    uint64_t session;
    if (!take(&text, &session) || *text != '\0') return 0;
    follow(session_close(state, length, narrow(session), next, RCL2000_MAX_STATE));
    return 1;
}

/* The bytes of the folder's tables; 0 where they cannot be read. */
static size_t read_tables(const char *folder, uint8_t *bytes, size_t most) {
    char path[4096];
    FILE *file = NULL;
    size_t read;
    if (snprintf(path, sizeof path, "%s/tables.bin", folder) < (int)sizeof path) file = fopen(path, "rb");
    if (file == NULL) return 0;
    read = fread(bytes, 1, most, file);
    fclose(file);
    return read;
}

int main(int count, char **given) {
    static uint8_t tables[4096];
    static char line[4096];
    size_t t = count == 3 ? read_tables(given[1], tables, sizeof tables) : 0;
    if (t == 0) {
        fprintf(stderr, "sessions FOLDER RULE, where the folder has tables.bin\n");
        return 2;
    }
    printf("start: ");
    follow(sessions_start(tables, t, (const uint8_t *)given[2], strlen(given[2]), next, RCL2000_MAX_STATE));
    while (length != 0 && fgets(line, sizeof line, stdin) != NULL) {
        line[strcspn(line, "\n")] = '\0';
        printf("%s: ", line);
        if (strncmp(line, "open ", 5) == 0 && open_session(line + 5)) continue;
        if (strncmp(line, "close ", 6) == 0 && close_session(line + 6)) continue;
        printf("?\n");
    }
    return fflush(stdout) == 0 && !ferror(stdout) ? 0 : 1;
}
