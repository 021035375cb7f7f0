/*
 * RCL 2000 duty rules: the calls of the proved library.
 *
 *     bin/archive                         # proves the library and writes target/staticlib/librcl2000.a
 *     cc -I include program.c target/staticlib/librcl2000.a
 *
 * A call takes byte slices, each as a pointer and a length, and returns one number: L, how many bytes it wrote to the
 * first of the lent output, or 65,536 times the number of a refusal, to which judge_page adds the position of the line
 * that it refuses. The other lent bytes keep their contents, and on a refusal all of them do. rank_step writes and
 * refuses nothing, and returns a step. The calls ask nothing of the bytes that they are handed: every input has its
 * answer.
 *
 * What a caller has to know:
 *
 * - Pointers. Each points to as many bytes as its length says, and is not NULL, also where the length is 0.
 * - Aliasing. `out` overlaps no input. Inputs may overlap each other. Nothing else may write to any of them before the
 *   call returns. No pointer is kept after that. So session_open and session_close take one state and write the next
 *   elsewhere: two buffers of RCL2000_MAX_STATE bytes, lent in turn, serve for as many calls as there are.
 * - Time. reduce, rebuild, rank_step and forecast take microseconds, judge a tenth of a millisecond with two
 *   variables and a few milliseconds for most rules with more, whatever the order. A rule with one clause over many
 *   variables, or with sets inside sets, can still take some 20 to 100 ns for each full choice on a present machine, up
 *   to 2 microseconds with many calls inside each other, and there may be as many as 64 to the power of the number of
 *   variables: 16 million with four, 2.8e14 with eight, which takes months. A call cannot be interrupted. Whoever
 *   judges rules that others wrote asks forecast first, for a ceiling on the full choices: a small one is a promise, a
 *   large one says nothing, and where it is 0 the rule is idle, which judge sees at once. It is for the tables that
 *   forecast is handed, and may be higher once a session is opened. judge_page takes about what judge takes for its
 *   lines, and less where many lines choose alike. sessions_start, session_open and session_close take about what judge
 *   does; where the rule mentions neither S nor sessions, opening and closing take microseconds. sheet_line takes about
 *   what judge does for the rule of its line, and for the total what it does for all rules; a ceiling for the whole
 *   tables is one for every reader.
 * - Stack. All memory comes from the stack of the thread that calls, at the most RCL2000_STACK_REDUCE,
 *   RCL2000_STACK_REBUILD, RCL2000_STACK_JUDGE, RCL2000_STACK_JUDGE_PAGE, RCL2000_STACK_RANK_STEP,
 *   RCL2000_STACK_FORECAST, RCL2000_STACK_SESSIONS_START, RCL2000_STACK_SESSION_OPEN, RCL2000_STACK_SESSION_CLOSE and
 *   RCL2000_STACK_SHEET_LINE bytes, whatever the input. (Measured and tested, not proved.)
 * - Threads. Nothing is kept between calls or shared: any number of threads may call at once. A state is bytes that the
 *   caller keeps.
 * - Names. The archive defines the ten names below and no other, and needs memcpy, memmove and memset. A program with a
 *   function of its own called reduce, rebuild, judge, judge_page, rank_step, forecast, sessions_start, session_open,
 *   session_close or sheet_line cannot link it.
 * - Machine. x86-64 Linux.
 *
 * Tables end with section 10, Done, who already did what: a count of at most 64, then rows of three bytes, the numbers
 * of a user, an operation and an object. The function done(u,o) of a rule takes a user or users and one object and is
 * the set of operations that they performed on it; a row that stands there twice counts once, and one of a user who left
 * remains and never counts. Tables that stop after section 9 are cut short.
 *
 * Sessions come and go: sessions_start makes a state of tables and a rule, session_open and session_close each make the
 * next, and the verdict in front of it is what judge writes for the rule on the tables with the sessions that are open. A
 * session is opened behind the last, and closing one moves those after it down by one: the number of a session falls
 * whenever one before it is closed, so no number may be kept across a close. A refused call writes nothing, and the
 * state that it was handed is still the current one.
 *
 * A reader of the day sheet is a word of users, and is shown nothing of the others: sheet_line judges with every other
 * user as left (mark 2, word 0), their sessions and rows of Done taken out, and each word of CU cut to the reader's users.
 * Equal sheets say nothing of other people: on accepted tables in which the reader's users have the same rows, sessions,
 * rows of Done and words of CU, in the same sequence, every call for that reader returns the same number and writes the
 * same bytes, whatever the others hold, have open or did. The roles, operations, objects, permissions, CR, CP and the
 * number of users are seen by every reader, and so is the number for which tables are refused. A user keeps the number on
 * every sheet; sessions are numbered among the reader's own; of words of CU that become equal the earliest stays, so that
 * those behind the others have lower numbers, and of words without any of the reader's users one empty word stays. Who
 * left and is among the reader's users is still one who left. The reader of all users sees the day sheet itself, and the
 * word 0 is a reader, too.
 */
#ifndef RCL2000_H
#define RCL2000_H

#if !defined(__x86_64__) || !defined(__linux__)
#error "librcl2000.a is for x86-64 Linux"
#endif

#include <stddef.h>
#include <stdint.h>

/* The fewest bytes that accepted tables have, which are the counts of their ten sections. */
#define RCL2000_MIN_TABLES 10

/* The most bytes that accepted tables, an accepted rule, and a formula of one have; the most variables of a rule, and
   lines of a page. */
#define RCL2000_MAX_TABLES 3978
#define RCL2000_MAX_RULE 256
#define RCL2000_MAX_FORMULA 4096
#define RCL2000_MAX_VARIABLES 8
#define RCL2000_MAX_LINES 32

/* The most bytes that a state has: 28, and those of the longest rule and the largest tables. */
#define RCL2000_MAX_STATE 4262

/* The most bytes of rules that a sheet is made of; the most bytes that a line of it has. */
#define RCL2000_MAX_RULES 32768
#define RCL2000_MAX_LINE 96

/* The stack that each call takes at the most, in bytes. */
#define RCL2000_STACK_REDUCE (16 * 1024)
#define RCL2000_STACK_REBUILD (48 * 1024)
#define RCL2000_STACK_JUDGE (72 * 1024)
#define RCL2000_STACK_JUDGE_PAGE (248 * 1024)
#define RCL2000_STACK_RANK_STEP (16 * 1024)
#define RCL2000_STACK_FORECAST (24 * 1024)
#define RCL2000_STACK_SESSIONS_START (64 * 1024)
#define RCL2000_STACK_SESSION_OPEN (64 * 1024)
#define RCL2000_STACK_SESSION_CLOSE (64 * 1024)
#define RCL2000_STACK_SHEET_LINE (64 * 1024)

/* A verdict is 26 bytes: the word, full and breaking as numbers of 8 bytes, lowest byte first, the first breaking choice
   by variable, and the share: the nearest whole per cent, for an exact half the even one (1 of 8 is 12, 3 of 8 are 38).
   Unused items of the choice, and the share of an idle rule, are 255. */
#define RCL2000_VERDICT 26
#define RCL2000_VERDICT_WORD 0
#define RCL2000_VERDICT_FULL 1
#define RCL2000_VERDICT_BREAKING 9
#define RCL2000_VERDICT_CHOICE 17
#define RCL2000_VERDICT_SHARE 25
#define RCL2000_NONE 255

/* A verdict on a page is the page's word, full and breaking, as a verdict has them, and the number of walks, one for each
   quantifier part; then the verdict on each line. */
#define RCL2000_PAGE_HEAD 18
#define RCL2000_PAGE_WORD 0
#define RCL2000_PAGE_FULL 1
#define RCL2000_PAGE_BREAKING 9
#define RCL2000_PAGE_WALKS 17
/* The length for so many lines, which is also where the verdict on the line behind them begins. */
#define RCL2000_PAGE_LENGTH(lines) (RCL2000_PAGE_HEAD + RCL2000_VERDICT * (lines))

/* A forecast is 16 bytes: the length of the formula, and a ceiling on the full choices, as numbers of 8 bytes, lowest byte
   first. */
#define RCL2000_FORECAST 16
#define RCL2000_FORECAST_LENGTH 0
#define RCL2000_FORECAST_CEILING 8

/* A state is the verdict on its rule in the order 1, 2, .., RCL2000_VERDICT bytes as judge writes them; the rule's length,
   two bytes, lowest first; the rule; and up to the end the tables, whose section 3 has the sessions that are open. */
#define RCL2000_STATE_RULE_LENGTH 26
#define RCL2000_STATE_RULE 28

/* The word of a verdict. An idle rule met nobody: that is not held. */
enum rcl2000_word { RCL2000_HELD = 0, RCL2000_IDLE = 1, RCL2000_BROKEN = 2 };

/* The refusal's number in what a call returned; 0 where it answered, and returned L. */
#define RCL2000_REFUSAL(returned) ((uint32_t)(returned) >> 16)

/* Where judge_page refused a line, its position, counted from 1; 0 for every other refusal. */
#define RCL2000_POSITION(returned) ((uint32_t)(returned) & 0xffff)

/* The refusals. Later versions add numbers, so one that is not listed is a refusal too. */
enum rcl2000_refusal {
    RCL2000_CUT_SHORT = 1,         /* the tables end inside a row, or where one or a count is due; a state, before its tables */
    RCL2000_OVERFULL = 2,          /* a count of the tables is above its limit */
    RCL2000_NOT_ENTERED = 3,       /* the row of a user or a permission never arrived */
    RCL2000_BAD_MARK = 4,          /* a user has a mark above 2, or a permission one above 1 */
    RCL2000_NO_SUCH_ITEM = 5,      /* a row, or a session to be opened, names an item that the tables do not have */
    RCL2000_MISCOUNTED = 6,        /* the permissions are not operations times objects */
    RCL2000_RANK = 7,              /* role rows are not reflexive, transitive, antisymmetric: see rank_step */
    RCL2000_OVERREACH = 8,         /* a session has a role that is neither assigned to its user nor junior to one that is */
    RCL2000_TWIN = 9,              /* two words of one collection are equal */
    RCL2000_LEFT_OVER = 10,        /* there are bytes after section 10 */
    RCL2000_RULE_LENGTH = 11,      /* the rule has 0 or more than 256 bytes */
    RCL2000_DEEP = 12,             /* more than 32 brackets are open at once */
    RCL2000_NOT_A_RULE = 13,       /* the text is outside the grammar */
    RCL2000_KIND = 14,             /* kinds do not fit */
    RCL2000_CHOICES = 15,          /* there are more than 8 variables */
    RCL2000_NO_RULES_FORMULA = 16, /* no accepted rule has this formula */
    RCL2000_SHORT_SHEET = 17,      /* the lent output is shorter than L */
    RCL2000_ORDER = 18,            /* the order does not list each variable once, after those that its set names */
    RCL2000_PAGE = 19,             /* the page has no line or more than 32 */
    RCL2000_LEFT = 20,             /* a user who left has a role or a session, or is to open one, or is in a word of CU */
    RCL2000_FULL_HOUSE = 21,       /* 64 sessions are open, and no more can be opened */
    RCL2000_NOT_OPEN = 22,         /* no session with this number is open */
    RCL2000_READER = 23            /* the reader is to see a user whom the tables do not have */
};

/* The steps of the rank test, in the order in which they are taken, each over all roles. */
enum rcl2000_rank_step {
    RCL2000_STEP_REFLEXIVE = 1,    /* every role dominates itself */
    RCL2000_STEP_TRANSITIVE = 2,   /* a role dominates what the roles that it dominates do */
    RCL2000_STEP_ANTISYMMETRIC = 3 /* no two roles dominate each other */
};

#ifdef __cplusplus
extern "C" {
#endif

/* The formula of a rule, at most RCL2000_MAX_FORMULA bytes. Refusals: 11 to 15, 17. */
uint32_t reduce(const uint8_t *rule, size_t rule_length, uint8_t *out, size_t out_length);

/* The rule of a formula, at most RCL2000_MAX_RULE bytes. Refusals: 16, 17. */
uint32_t rebuild(const uint8_t *formula, size_t formula_length, uint8_t *out, size_t out_length);

/* The verdict on a rule, RCL2000_VERDICT bytes. The order lists the rule's variables, from 1, one byte each; 1, 2, ..
   always serves. Refusals: 1 to 10, 20, 11 to 15, 18, 17. */
uint32_t judge(const uint8_t *tables, size_t tables_length, const uint8_t *rule, size_t rule_length,
               const uint8_t *order, size_t order_length, uint8_t *out, size_t out_length);

/* The verdict on a page of 1 to 32 lines, RCL2000_PAGE_LENGTH(lines) bytes, each line judged in the order 1, 2, .. A line
   ends at byte 10, the last one also where the page ends. Refusals: 1 to 10, 20, 19, 11 to 15 of the first refused line,
   with its position, 17. */
uint32_t judge_page(const uint8_t *tables, size_t tables_length, const uint8_t *page, size_t page_length, uint8_t *out,
                    size_t out_length);

/* The first step of the rank test that fails, where the tables are refused 7; 0 for all others, accepted or refused by
   another number. It returns no refusal. */
uint32_t rank_step(const uint8_t *tables, size_t tables_length);

/* The forecast for a rule, RCL2000_FORECAST bytes, before it is judged. The length is that of what reduce writes. The
   ceiling is the product over the rule's variables of the words in the whole collection, where the set is a term of
   collection kind, and else of the items of the element's sort in the tables, of users those who have not left; 1 without
   variables. Refusals: 1 to 10, 20, 11 to 15, 17. */
uint32_t forecast(const uint8_t *tables, size_t tables_length, const uint8_t *rule, size_t rule_length, uint8_t *out,
                  size_t out_length);

/* The state from which sessions come and go, at most RCL2000_MAX_STATE bytes: the sessions of the tables are open.
   Refusals: 1 to 10, 20, 11 to 15, 17. */
uint32_t sessions_start(const uint8_t *tables, size_t tables_length, const uint8_t *rule, size_t rule_length, uint8_t *out,
                        size_t out_length);

/* The state after a session of a user was opened, with a word of active roles: bit i stands for role i. The new session
   stands behind those that are open, so that its number, from 0, is how many these were. A role must be assigned to the
   user, or junior to one that is. The number of a user is not cut to a byte: 256 is nobody, too.
   Refusals: 21; 5 for the user, then for a role; 20, also without a role; 8; 17. Before them those of bytes that no call
   gave as a state: 1 where they end before the tables, 1 to 10 and 20 of the tables, 11 to 15 of the rule. The verdict in
   the state is not looked at, and stays as it is where the rule mentions neither S nor sessions. */
uint32_t session_open(const uint8_t *state, size_t state_length, uint32_t user, uint64_t roles, uint8_t *out,
                      size_t out_length);

/* The state after the session with this number, from 0, was closed. The numbers of those behind it fall by one.
   Refusals: 22, 17; before them those of bytes that no call gave as a state, as for session_open. */
uint32_t session_close(const uint8_t *state, size_t state_length, uint32_t number, uint8_t *out, size_t out_length);

/* One line of the day sheet as a reader sees it, without byte 10, at most RCL2000_MAX_LINE bytes. Bit i of the reader's
   word stands for user i. The rules are the bytes of rules.txt, and the place counts from 1; straight behind the line of
   the last rule stands the total. Rules of more than RCL2000_MAX_RULES bytes have the one line `rules too long`. At any
   other place there is no line: 0 is returned, on every sheet and whatever is lent. A rule that is refused has a line.
   Refusals: 1 to 10, 20; 23, before the rules are looked at; 17 where there is a line. */
uint32_t sheet_line(const uint8_t *tables, size_t tables_length, uint64_t reader, const uint8_t *rules,
                    size_t rules_length, size_t place, uint8_t *out, size_t out_length);

#ifdef __cplusplus
}
#endif

#endif
