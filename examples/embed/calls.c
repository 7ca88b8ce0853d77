/* Each call once as it should be, and once as it should not: what is given back, each byte of the answer, and that nothing else that is
 * lent changes. Prints a line for each thing that is not so; ends with 0 where all is. */
#include "foldheron.h"

#include <stdio.h>
#include <string.h>

static int wrong;

#define EXPECT(fact) ((fact) ? (void)0 : (void)(wrong++, printf("calls.c:%d: not so: %s\n", __LINE__, #fact)))

/* suspend, on I: pause; emit O. Version 7. */
static const uint8_t block[] = {14, 0, 1, 0, 1, 0, 7, 0, 1, 0, 1, 0, 0, 0, 6, 0, 20, 0, 0,
                                0,  4, 0, 21, 0, 4, 0, 17, 0, 6, 0, 18, 0, 1, 0};

/* emit A parallel (present O then emit O else nothing), with outputs A, O and B, which is never emitted: refused with 13. */
static const uint8_t cycle[] = {14, 0, 1,  0, 1, 0, 1,  0, 0, 0, 3, 0, 0,  0, 4, 0, 23, 0, 6, 0,
                                18, 0, 0, 0, 6, 0, 19, 0, 1, 0, 6, 0, 18, 0, 1, 0, 4,  0, 16, 0};

/* pause; pause, whose two pauses clash. */
static const uint8_t pauses[] = {14, 0, 1, 0, 1, 0, 7, 0, 0, 0, 0, 0, 0, 0, 4, 0, 21, 0, 4, 0, 17, 0, 4, 0, 17, 0};

/* pause; emit O, with the first block's interface: the same block without its suspend. */
static const uint8_t plain[] = {14, 0, 1, 0, 1, 0, 7, 0, 1, 0, 1, 0, 0, 0, 4, 0, 21, 0, 4, 0, 17, 0, 6, 0, 18, 0, 1, 0};

/* present I then nothing else emit O. */
static const uint8_t unless[] = {14, 0, 1, 0, 1, 0, 7, 0, 1, 0, 1, 0, 0, 0, 6, 0, 19, 0, 0, 0, 4, 0, 16, 0, 6, 0, 18, 0, 1, 0};

/* Lent bytes with a guard on either side. */
struct lent {
    uint8_t before[8];
    uint8_t bytes[120];
};

static struct lent lend(void)
{
    struct lent l;
    memset(&l, 0xA5, sizeof l);
    return l;
}

/* Every byte of l from its bytes' count on, and before them, is still the guard's. */
static int guarded(const struct lent *l, size_t count)
{
    const uint8_t *all = (const uint8_t *)l;
    for (size_t n = 0; n < sizeof *l; n++)
        if ((n < sizeof l->before || n >= sizeof l->before + count) && all[n] != 0xA5)
            return 0;
    return 1;
}

/* The answer is these numbers, as many as its size has room for, and nothing around it changed. */
static int told(const struct lent *l, size_t size, const uint64_t *numbers)
{
    for (size_t byte = 0; byte < size; byte++)
        if (l->bytes[byte] != (uint8_t)(numbers[byte / 8] >> 8 * (byte % 8)))
            return 0;
    return guarded(l, size);
}

/* Where the header says that each number begins, against its place in an answer of numbers that count up. */
static void try_layout(void)
{
    uint8_t bytes[FOLDHERON_LOGGED_SIZE];
    for (size_t byte = 0; byte < sizeof bytes; byte++)
        bytes[byte] = (uint8_t)(byte % 8 == 0 ? byte / 8 : byte == 87 ? 1 : 0);
    static const size_t check[] = {FOLDHERON_AT_NUMBER, FOLDHERON_AT_PLACE, FOLDHERON_AT_VERSION, FOLDHERON_AT_INPUTS, FOLDHERON_AT_OUTPUTS,
                                   FOLDHERON_AT_LOCALS, FOLDHERON_AT_STATEMENTS, FOLDHERON_AT_PAUSES};
    static const size_t instant[] = {FOLDHERON_AT_NUMBER, FOLDHERON_AT_PLACE, FOLDHERON_AT_FIRST, FOLDHERON_AT_SECOND, FOLDHERON_AT_PRESENT,
                                     FOLDHERON_AT_ABSENT, FOLDHERON_AT_UNDECIDED, FOLDHERON_AT_ROUNDS, FOLDHERON_AT_CODE, FOLDHERON_AT_ACTIVE};
    for (size_t n = 0; n < 8; n++)
        EXPECT(foldheron_number(bytes, check[n]) == n);
    for (size_t n = 0; n < 10; n++)
        EXPECT(foldheron_number(bytes, instant[n]) == n);
    EXPECT(foldheron_number(bytes, FOLDHERON_AT_END) == (UINT64_C(1) << 56) + 10);
    EXPECT(foldheron_number(bytes, FOLDHERON_AT_OFFSET) == 2 && foldheron_number(bytes, FOLDHERON_AT_COUNT) == 3);
    EXPECT(FOLDHERON_CHECK_SIZE == 64 && FOLDHERON_FRESH_SIZE == 16 && FOLDHERON_INSTANT_SIZE == 80 && FOLDHERON_EXCERPT_SIZE == 32);
    EXPECT(FOLDHERON_BLOCK_MOST == 3086 && FOLDHERON_STATE_SIZE == 26 && FOLDHERON_RECORD_SIZE == 32);
    EXPECT(FOLDHERON_INSTALL_SIZE == 16 && FOLDHERON_FETCH_SIZE == 24 && FOLDHERON_SHELF_SIZE == 65536 && FOLDHERON_HELD_MOST == 32768);
    EXPECT(FOLDHERON_WITHDRAW_SIZE == 16 && FOLDHERON_REASON_SIZE == 40 && foldheron_number(bytes, FOLDHERON_AT_STATEMENT) == 4);
    EXPECT(FOLDHERON_WHY_REFUSED == 0 && FOLDHERON_WHY_PRESENT == 1 && FOLDHERON_WHY_NOT_EXECUTED == 2);
    EXPECT(FOLDHERON_ALIKE_SIZE == 32 && FOLDHERON_DOUBLE_LOOPS_SIZE == 24 && FOLDHERON_MAZE_SIZE == 40 && FOLDHERON_CORRIDOR_SIZE == 48);
    EXPECT(FOLDHERON_CONVERT_SIZE == 24 && FOLDHERON_RUN_MOST == 1024 && FOLDHERON_WRITE_TEXT_SIZE == 24 && FOLDHERON_READ_TEXT_SIZE == 24 && FOLDHERON_TEXT_MOST == 137305);
}

/* The structs, against an answer whose n-th number is n. */
static void try_structs(void)
{
    uint8_t bytes[FOLDHERON_LOGGED_SIZE] = {0};
    for (size_t n = 0; n < sizeof bytes / 8; n++)
        bytes[8 * n] = (uint8_t)n;
    struct foldheron_check_answer c = foldheron_read_check(bytes);
    EXPECT(c.number == 0 && c.place == 1 && c.version == 2 && c.inputs == 3 && c.outputs == 4 && c.locals == 5);
    EXPECT(c.statements == 6 && c.pauses == 7);
    struct foldheron_instant_answer i = foldheron_read_instant(bytes), l = foldheron_read_logged(bytes);
    EXPECT(i.number == 0 && i.place == 1 && i.first == 2 && i.second == 3 && i.present == 4 && i.absent == 5 && i.undecided == 6);
    EXPECT(i.rounds == 7 && i.code == 8 && i.active == 9 && i.end == 0 && l.end == 10 && l.active == 9);
    struct foldheron_excerpt_answer e = foldheron_read_excerpt(bytes);
    EXPECT(e.number == 0 && e.place == 1 && e.offset == 2 && e.count == 3);
    struct foldheron_reason_answer r = foldheron_read_reason(bytes);
    EXPECT(r.number == 0 && r.place == 1 && r.first == 2 && r.second == 3 && r.statement == 4);
    struct foldheron_fetch_answer f = foldheron_read_fetch(bytes);
    EXPECT(f.number == 0 && f.place == 1 && f.count == 2);
    struct foldheron_alike_answer a = foldheron_read_alike(bytes);
    EXPECT(a.number == 0 && a.place == 1 && a.block == 2 && a.length == 3);
    struct foldheron_double_loops_answer d = foldheron_read_double_loops(bytes);
    EXPECT(d.number == 0 && d.place == 1 && d.count == 2);
    struct foldheron_convert_answer v = foldheron_read_convert(bytes);
    EXPECT(v.number == 0 && v.place == 1 && v.count == 2);
    struct foldheron_text_answer t = foldheron_read_text_answer(bytes);
    EXPECT(t.number == 0 && t.place == 1 && t.count == 2);
    struct foldheron_maze_answer m = foldheron_read_maze(bytes);
    EXPECT(m.number == 0 && m.place == 1 && m.winning == 2 && m.losing == 3 && m.drawn == 4);
    struct foldheron_corridor_answer w = foldheron_read_corridor(bytes);
    EXPECT(w.number == 0 && w.place == 1 && w.way == 2 && w.room == 3 && w.first == 4 && w.second == 5);
}

/* The names, against document 01's table and what later requests add to it. */
static void try_names(void)
{
    static const char *const names[65] = {[1] = "BROKEN", [2] = "KIND", [3] = "EDITION", [4] = "LIMIT", [5] = "SIGNAL", [6] = "EXIT",
                                          [7] = "SHAPE", [8] = "LOOP", [9] = "STATE", [10] = "CLASH", [11] = "INPUT", [12] = "ROOM",
                                          [13] = "NOT CONSTRUCTIVE", [14] = "INDEX", [15] = "TEXT", [16] = "QUESTION",
                                          [17] = "OTHER BLOCK", [18] = "PARTY", [19] = "SHELF", [20] = "TAKEN", [21] = "QUOTA",
                                          [22] = "ABSENT", [23] = "INTERFACE", [24] = "WIDE", [25] = "PAIRS", [26] = "FORM",
                                          [64] = "ANSWER"};
    for (unsigned number = 0; number < 70000; number++) {
        const char *wanted = number < 65 ? names[number] : NULL, *name = foldheron_name(number);
        EXPECT(wanted == NULL ? name == NULL : name != NULL && strcmp(name, wanted) == 0);
    }
    EXPECT(strcmp(FOLDHERON_VERSION, "2.0.0") == 0);
    EXPECT(FOLDHERON_VERSION_MAJOR == 2 && FOLDHERON_VERSION_MINOR == 0 && FOLDHERON_VERSION_PATCH == 0);
}

static void try_check(void)
{
    static const uint64_t good[] = {0, 0, 7, 1, 1, 0, 4, 1}, cut[] = {1, 28, 0, 0, 0, 0, 0, 0};
    struct lent a = lend();
    EXPECT(foldheron_check(block, sizeof block, a.bytes, FOLDHERON_CHECK_SIZE) == 0 && told(&a, 64, good));
    a = lend();
    EXPECT(foldheron_check(block, sizeof block - 1, a.bytes, FOLDHERON_CHECK_SIZE) == FOLDHERON_BROKEN && told(&a, 64, cut));
    a = lend();
    EXPECT(foldheron_check(block, sizeof block, a.bytes, 63) == FOLDHERON_ANSWER && guarded(&a, 0));
    EXPECT(foldheron_check(block, sizeof block, a.bytes, 65) == FOLDHERON_ANSWER && guarded(&a, 0));
    EXPECT(foldheron_check(block, sizeof block, a.bytes, 0) == FOLDHERON_ANSWER && guarded(&a, 0));
}

static void try_fresh(void)
{
    static const uint8_t fresh[26] = {26, 0, 2, 0, 7, 0, 4};
    static const uint64_t written[] = {0, 0}, refused[] = {9, 0};
    struct lent a = lend(), s = lend();
    EXPECT(foldheron_fresh(block, sizeof block, s.bytes, 25, a.bytes, FOLDHERON_FRESH_SIZE) == FOLDHERON_STATE);
    EXPECT(told(&a, 16, refused) && guarded(&s, 0));
    EXPECT(foldheron_fresh(block, sizeof block, s.bytes, 22, a.bytes, FOLDHERON_FRESH_SIZE) == FOLDHERON_STATE);
    EXPECT(told(&a, 16, refused) && guarded(&s, 0));
    a = lend();
    EXPECT(foldheron_fresh(block, sizeof block, s.bytes, 26, a.bytes, 15) == FOLDHERON_ANSWER && guarded(&s, 0) && guarded(&a, 0));
    EXPECT(foldheron_fresh(block, sizeof block, s.bytes, 26, a.bytes, FOLDHERON_FRESH_SIZE) == 0 && told(&a, 16, written));
    EXPECT(memcmp(s.bytes, fresh, 26) == 0 && guarded(&s, 26));
}

static void try_instant(void)
{
    static const uint64_t waits[] = {0, 0, 0, 0, 0, 0, 0, 2, 1, 1}, unknown_input[] = {11, 0, 0, 0, 0, 0, 0, 0, 0, 0};
    static const uint64_t ends[] = {0, 0, 0, 0, 2, 0, 0, 2, 0, 0};
    static const uint8_t running[26] = {26, 0, 2, 0, 7, 0, 4, 0, 1, 0, 1}, finished[26] = {26, 0, 2, 0, 7, 0, 4, 0, 2};
    uint8_t state[26] = {26, 0, 2, 0, 7, 0, 4};
    struct lent a = lend();
    EXPECT(foldheron_instant(block, sizeof block, state, 26, 1, a.bytes, 79) == FOLDHERON_ANSWER && guarded(&a, 0) && state[8] == 0);
    EXPECT(foldheron_instant(block, sizeof block, state, 26, 1, a.bytes, FOLDHERON_INSTANT_SIZE) == 0 && told(&a, 80, waits));
    EXPECT(memcmp(state, running, 26) == 0);
    EXPECT(foldheron_instant(block, sizeof block, state, 26, 2, a.bytes, FOLDHERON_INSTANT_SIZE) == FOLDHERON_INPUT);
    EXPECT(told(&a, 80, unknown_input) && memcmp(state, running, 26) == 0);
    EXPECT(foldheron_instant(block, sizeof block, state, 26, 0, a.bytes, FOLDHERON_INSTANT_SIZE) == 0 && told(&a, 80, ends));
    EXPECT(memcmp(state, finished, 26) == 0);
}

static void try_refusals(void)
{
    static const uint64_t doubt[] = {13, 0, 0, 0, 1, 4, 1, 2, 0, 0}, clash[] = {10, 0, 0, 1, 0, 0, 0, 0, 0, 0};
    uint8_t state[26] = {26, 0, 2, 0, 1, 0, 5}, both[26] = {26, 0, 2, 0, 7, 0, 3, 0, 1, 0, 3}, kept[26];
    struct lent a = lend();
    memcpy(kept, state, 26);
    EXPECT(foldheron_instant(cycle, sizeof cycle, state, 26, 0, a.bytes, FOLDHERON_INSTANT_SIZE) == FOLDHERON_NOT_CONSTRUCTIVE);
    EXPECT(told(&a, 80, doubt) && memcmp(state, kept, 26) == 0);
    memcpy(kept, both, 26);
    EXPECT(foldheron_instant(pauses, sizeof pauses, both, 26, 0, a.bytes, FOLDHERON_INSTANT_SIZE) == FOLDHERON_CLASH);
    EXPECT(told(&a, 80, clash) && memcmp(both, kept, 26) == 0);
}

/* A state that names another version or count: after all of 9, before 10 and 11. */
static void try_other_block(void)
{
    static const uint8_t others[][26] = {
        {26, 0, 2, 0, 8, 0, 3}, {26, 0, 2, 0, 7, 1, 3}, {26, 0, 2, 0, 7, 0, 4, 0, 1, 0, 3}, {26, 0, 2, 0, 7, 0, 3, 1, 2}, {26, 0, 2, 0, 8, 0, 3, 0, 3},
        {26, 0, 2, 0, 8, 0, 3, 0, 1, 0, 4}};
    static const uint64_t named[] = {17, 0, 0, 0, 0, 0, 0, 0, 0, 0}, none[] = {9, 0, 0, 0, 0, 0, 0, 0, 0, 0};
    for (size_t n = 0; n < 6; n++) {
        uint8_t state[26];
        struct lent a = lend();
        memcpy(state, others[n], 26);
        unsigned wanted = n < 4 ? FOLDHERON_OTHER_BLOCK : FOLDHERON_STATE;
        EXPECT(foldheron_instant(pauses, sizeof pauses, state, 26, 1, a.bytes, FOLDHERON_INSTANT_SIZE) == wanted);
        EXPECT(told(&a, 80, n < 4 ? named : none) && memcmp(state, others[n], 26) == 0);
    }
}

static void try_logged(void)
{
    static const uint8_t record[32] = {[0] = 32, [2] = 3, [4] = 1, [28] = 1, [30] = 2};
    static const uint64_t roomless[] = {12, 0, 0, 0, 0, 0, 0, 0, 0, 0, 0}, waits[] = {0, 0, 0, 0, 0, 0, 0, 2, 1, 1, 37};
    uint8_t state[26] = {26, 0, 2, 0, 7, 0, 4};
    struct lent a = lend(), log = lend();
    EXPECT(foldheron_instant_logged(block, sizeof block, state, 26, 1, log.bytes, 36, 5, a.bytes, FOLDHERON_LOGGED_SIZE) == FOLDHERON_ROOM);
    EXPECT(told(&a, 88, roomless) && guarded(&log, 0) && state[8] == 0);
    EXPECT(foldheron_instant_logged(block, sizeof block, state, 26, 1, log.bytes, 36, SIZE_MAX, a.bytes, 88) == FOLDHERON_ROOM);
    EXPECT(told(&a, 88, roomless));
    EXPECT(foldheron_instant_logged(block, sizeof block, state, 26, 1, log.bytes, 37, 5, a.bytes, 87) == FOLDHERON_ANSWER);
    EXPECT(told(&a, 88, roomless) && guarded(&log, 0) && state[8] == 0);
    EXPECT(foldheron_instant_logged(block, sizeof block, state, 26, 1, log.bytes, 37, 5, a.bytes, FOLDHERON_LOGGED_SIZE) == 0);
    EXPECT(told(&a, 88, waits) && state[8] == 1);
    EXPECT(memcmp(log.bytes + 5, record, FOLDHERON_RECORD_SIZE) == 0 && log.bytes[4] == 0xA5 && guarded(&log, 37));
}

/* pause; present I then emit O else nothing: its first instant does not look at I, its second does. Version 0. */
static const uint8_t late[] = {14, 0, 1, 0, 1, 0, 0, 0, 1, 0, 1, 0, 0, 0, 4, 0, 21, 0, 4, 0, 17, 0,
                               6,  0, 19, 0, 0, 0, 6, 0, 18, 0, 1, 0, 4, 0, 16, 0};

static void try_heard(void)
{
    static const uint64_t waits[] = {0, 0, 0, 0, 0, 0, 0, 2, 1, 1}, doubt[] = {13, 0, 0, 0, 0, 0, 1, 1, 0, 0};
    static const uint64_t ends[] = {0, 0, 0, 0, 2, 0, 0, 2, 0, 0}, wrong_sets[] = {11, 0, 0, 0, 0, 0, 0, 0, 0, 0};
    static const uint8_t running[26] = {26, 0, 2, 0, 0, 0, 5, 0, 1, 0, 1}, finished[26] = {26, 0, 2, 0, 0, 0, 5, 0, 2};
    uint8_t state[26] = {26, 0, 2, 0, 0, 0, 5};
    struct lent a = lend();
    EXPECT(foldheron_instant_heard(late, sizeof late, state, 26, 0, 0, a.bytes, 81) == FOLDHERON_ANSWER && guarded(&a, 0) && state[8] == 0);
    EXPECT(foldheron_instant_heard(late, sizeof late, state, 26, 0, 0, a.bytes, FOLDHERON_INSTANT_SIZE) == 0 && told(&a, 80, waits));
    EXPECT(memcmp(state, running, 26) == 0);
    EXPECT(foldheron_instant_heard(late, sizeof late, state, 26, 0, 0, a.bytes, 80) == FOLDHERON_NOT_CONSTRUCTIVE && told(&a, 80, doubt));
    EXPECT(foldheron_instant_heard(late, sizeof late, state, 26, 1, 1, a.bytes, 80) == FOLDHERON_INPUT && told(&a, 80, wrong_sets));
    EXPECT(foldheron_instant_heard(late, sizeof late, state, 26, 2, 0, a.bytes, 80) == FOLDHERON_INPUT && told(&a, 80, wrong_sets));
    EXPECT(foldheron_instant_heard(late, sizeof late, state, 26, 0, 2, a.bytes, 80) == FOLDHERON_INPUT && told(&a, 80, wrong_sets));
    EXPECT(memcmp(state, running, 26) == 0);
    EXPECT(foldheron_instant_heard(late, sizeof late, state, 26, 1, 0, a.bytes, 80) == 0 && told(&a, 80, ends));
    EXPECT(memcmp(state, finished, 26) == 0);
}

static void try_heard_logged(void)
{
    static const uint8_t unheard[32] = {[0] = 32, [2] = 3, [28] = 1, [30] = 2}, absent[32] = {[0] = 32, [2] = 3, [12] = 1, [30] = 2};
    static const uint64_t waits[] = {0, 0, 0, 0, 0, 0, 0, 2, 1, 1, 37}, ends[] = {0, 0, 0, 0, 0, 0, 0, 2, 0, 0, 69};
    static const uint64_t roomless[] = {12, 0, 0, 0, 0, 0, 0, 0, 0, 0, 0};
    uint8_t state[26] = {26, 0, 2, 0, 0, 0, 5};
    struct lent a = lend(), log = lend();
    EXPECT(foldheron_instant_heard_logged(late, sizeof late, state, 26, 0, 0, log.bytes, 36, 5, a.bytes, 88) == FOLDHERON_ROOM);
    EXPECT(told(&a, 88, roomless) && guarded(&log, 0) && state[8] == 0);
    EXPECT(foldheron_instant_heard_logged(late, sizeof late, state, 26, 0, 2, log.bytes, 36, 5, a.bytes, 88) == FOLDHERON_INPUT);
    EXPECT(foldheron_instant_heard_logged(late, sizeof late, state, 26, 0, 0, log.bytes, 69, 5, a.bytes, 80) == FOLDHERON_ANSWER);
    EXPECT(guarded(&log, 0) && state[8] == 0);
    EXPECT(foldheron_instant_heard_logged(late, sizeof late, state, 26, 0, 0, log.bytes, 69, 5, a.bytes, FOLDHERON_LOGGED_SIZE) == 0);
    EXPECT(told(&a, 88, waits) && state[8] == 1 && memcmp(log.bytes + 5, unheard, 32) == 0);
    EXPECT(foldheron_instant_heard_logged(late, sizeof late, state, 26, 0, 1, log.bytes, 69, 37, a.bytes, FOLDHERON_LOGGED_SIZE) == 0);
    EXPECT(told(&a, 88, ends) && state[8] == 2 && memcmp(log.bytes + 37, absent, 32) == 0);
    EXPECT(log.bytes[4] == 0xA5 && guarded(&log, 69));
}

static void try_excerpt(void)
{
    static const uint64_t sequence[] = {0, 0, 20, 14}, none[] = {14, 0, 0, 0};
    struct lent a = lend();
    EXPECT(foldheron_excerpt(block, sizeof block, 1, a.bytes, FOLDHERON_EXCERPT_SIZE) == 0 && told(&a, 32, sequence));
    EXPECT(foldheron_excerpt(block, sizeof block, 4, a.bytes, FOLDHERON_EXCERPT_SIZE) == FOLDHERON_INDEX && told(&a, 32, none));
    EXPECT(foldheron_excerpt(block, sizeof block, SIZE_MAX, a.bytes, FOLDHERON_EXCERPT_SIZE) == FOLDHERON_INDEX && told(&a, 32, none));
    a = lend();
    EXPECT(foldheron_excerpt(block, sizeof block, 1, a.bytes, 33) == FOLDHERON_ANSWER && guarded(&a, 0));
}

/* A question about an instant of the first block, from a state of this phase with this pause active: it is told these numbers, and nothing that is lent
 * changes but the answer. */
static int says_why(uint8_t phase, uint64_t present, uint64_t absent, uint16_t asked, size_t about, uint16_t number, size_t statement)
{
    uint8_t state[26] = {26, 0, 2, 0, 7, 0, 4, 0, phase, 0, phase == 1}, kept[26];
    const uint64_t numbers[] = {number, 0, 0, 0, statement};
    struct lent a = lend();
    memcpy(kept, state, sizeof kept);
    uint16_t back = foldheron_reason(block, sizeof block, state, 26, present, absent, asked, about, a.bytes, FOLDHERON_REASON_SIZE);
    return back == number && told(&a, FOLDHERON_REASON_SIZE, numbers) && memcmp(state, kept, 26) == 0;
}

/* What can be asked of the first block, worked by hand: its statements are the suspend, 0, the sequence, 1, the pause, 2, and the emit, 3. */
static void try_reason(void)
{
    EXPECT(says_why(0, 0, 0, FOLDHERON_WHY_NOT_EXECUTED, 3, 0, 3) && says_why(0, 0, 0, FOLDHERON_WHY_REFUSED, 9, FOLDHERON_QUESTION, 0));
    EXPECT(says_why(1, 0, 0, FOLDHERON_WHY_REFUSED, SIZE_MAX, 0, 0) && says_why(1, 0, 0, FOLDHERON_WHY_NOT_EXECUTED, 3, FOLDHERON_QUESTION, 0));
    EXPECT(says_why(1, 1, 0, FOLDHERON_WHY_NOT_EXECUTED, 3, 0, 1) && says_why(1, 1, 0, FOLDHERON_WHY_PRESENT, 1, FOLDHERON_QUESTION, 0));
    EXPECT(says_why(1, 0, 1, FOLDHERON_WHY_PRESENT, 1, 0, 3) && says_why(1, 0, 1, FOLDHERON_WHY_NOT_EXECUTED, 3, FOLDHERON_QUESTION, 0));
    EXPECT(says_why(2, 0, 0, FOLDHERON_WHY_NOT_EXECUTED, 3, 0, 0) && says_why(2, 0, 0, FOLDHERON_WHY_NOT_EXECUTED, 2, FOLDHERON_QUESTION, 0));
    EXPECT(says_why(1, 0, 1, FOLDHERON_WHY_PRESENT, 65537, FOLDHERON_QUESTION, 0) && says_why(1, 0, 1, 3, 1, FOLDHERON_QUESTION, 0));
    EXPECT(says_why(1, 0, 1, 65535, 3, FOLDHERON_QUESTION, 0) && says_why(0, 0, 0, FOLDHERON_WHY_NOT_EXECUTED, 4, FOLDHERON_QUESTION, 0));
    EXPECT(says_why(1, 1, 1, FOLDHERON_WHY_REFUSED, 0, FOLDHERON_INPUT, 0) && says_why(1, 2, 0, 7, 0, FOLDHERON_INPUT, 0));
    EXPECT(says_why(3, 1, 1, 7, 0, FOLDHERON_STATE, 0));
}

/* The refusals before 16, the undecided test of the cycle, and answers of another size. */
static void try_reason_refusals(void)
{
    static const uint64_t pair[] = {10, 0, 0, 1, 0}, cut[] = {1, 28, 0, 0, 0}, other[] = {17, 0, 0, 0, 0}, test[] = {0, 0, 0, 0, 2};
    uint8_t both[26] = {26, 0, 2, 0, 7, 0, 3, 0, 1, 0, 3}, fresh[26] = {26, 0, 2, 0, 1, 0, 5};
    struct lent a = lend();
    EXPECT(foldheron_reason(block, sizeof block, fresh, 26, 0, 0, 0, 0, a.bytes, 39) == FOLDHERON_ANSWER && guarded(&a, 0));
    EXPECT(foldheron_reason(block, sizeof block, fresh, 26, 0, 0, 0, 0, a.bytes, 41) == FOLDHERON_ANSWER && guarded(&a, 0));
    EXPECT(foldheron_reason(block, sizeof block - 1, fresh, 25, 9, 9, 9, 0, a.bytes, 40) == FOLDHERON_BROKEN && told(&a, 40, cut));
    EXPECT(foldheron_reason(block, sizeof block, fresh, 26, 9, 9, 9, 0, a.bytes, 40) == FOLDHERON_OTHER_BLOCK && told(&a, 40, other));
    EXPECT(foldheron_reason(pauses, sizeof pauses, both, 26, 9, 9, 9, 0, a.bytes, 40) == FOLDHERON_CLASH && told(&a, 40, pair));
    EXPECT(foldheron_reason(cycle, sizeof cycle, fresh, 26, 0, 0, FOLDHERON_WHY_REFUSED, 0, a.bytes, 40) == 0 && told(&a, 40, test));
}

/* A shelf as it is, and as it should be, with a guard of 8 bytes on either side. */
static uint8_t lent_shelf[8 + FOLDHERON_SHELF_SIZE + 8], wanted[sizeof lent_shelf], *const shelf = lent_shelf + 8;

/* The shelf that should be is empty. */
static void want_empty(void)
{
    memset(wanted, 0xA5, sizeof wanted);
    memset(wanted + 8, 0, FOLDHERON_SHELF_SIZE);
}

/* Lends the shelf that should be. */
static void lend_wanted(void) { memcpy(lent_shelf, wanted, sizeof wanted); }

static void empty_shelf(void)
{
    want_empty();
    lend_wanted();
}

/* Puts an entry at a place of the shelf that should be; answers where the next one begins. */
static size_t put_entry(size_t at, unsigned party, unsigned name, const uint8_t *bytes, size_t size)
{
    uint8_t *entry = wanted + 8 + at;
    const unsigned head[] = {(unsigned)size + 8, 5, party, name};
    for (int n = 0; n < 8; n++)
        entry[n] = (uint8_t)(head[n / 2] >> 8 * (n % 2));
    memcpy(entry + 8, bytes, size);
    return at + size + 8;
}

/* Every byte of the shelf, and of those around it, is as it should be. */
static int as_wanted(void) { return memcmp(lent_shelf, wanted, sizeof wanted) == 0; }

/* An install on the lent shelf: it is told this number and place. */
static int installs(unsigned party, unsigned name, const uint8_t *bytes, size_t size, uint16_t number, size_t place)
{
    const uint64_t numbers[] = {number, place};
    struct lent a = lend();
    uint16_t back = foldheron_install(shelf, FOLDHERON_SHELF_SIZE, (uint16_t)party, (uint16_t)name, bytes, size, a.bytes, FOLDHERON_INSTALL_SIZE);
    return back == number && told(&a, FOLDHERON_INSTALL_SIZE, numbers);
}

static void try_install(void)
{
    static const uint64_t no_shelf[] = {19, 0}, no_party[] = {18, 0};
    struct lent a = lend();
    empty_shelf();
    EXPECT(foldheron_install(shelf, FOLDHERON_SHELF_SIZE, 0, 7, block, sizeof block, a.bytes, 15) == FOLDHERON_ANSWER && guarded(&a, 0));
    EXPECT(foldheron_install(shelf, FOLDHERON_SHELF_SIZE - 1, 0, 7, block, sizeof block, a.bytes, 16) == FOLDHERON_SHELF && told(&a, 16, no_shelf));
    EXPECT(foldheron_install(shelf, FOLDHERON_SHELF_SIZE - 1, 2, 7, block, sizeof block, a.bytes, 16) == FOLDHERON_PARTY && told(&a, 16, no_party));
    EXPECT(installs(0, 7, block, sizeof block - 1, FOLDHERON_BROKEN, 28) && as_wanted());
    size_t end = put_entry(0, 0, 7, block, sizeof block);
    EXPECT(installs(0, 7, block, sizeof block, FOLDHERON_GOOD, 0) && as_wanted());
    EXPECT(installs(0, 7, pauses, sizeof pauses, FOLDHERON_TAKEN, 0) && as_wanted());
    end = put_entry(end, 1, 7, pauses, sizeof pauses);
    EXPECT(installs(1, 7, pauses, sizeof pauses, FOLDHERON_GOOD, 0) && as_wanted());
    put_entry(end, 0, 65535, block, sizeof block);
    EXPECT(installs(0, 65535, block, sizeof block, FOLDHERON_GOOD, 0) && as_wanted());
    EXPECT(installs(65535, 7, block, sizeof block, FOLDHERON_PARTY, 0) && as_wanted());
    EXPECT(installs(0, 7, block, sizeof block - 1, FOLDHERON_BROKEN, 28) && as_wanted());
}

/* The shelf that should be has the first count of 2 * 960 entries, by turns of each party, but for one; answers where they end. Of each party 16 have
 * 42 bytes and 944 have 34, which is all that it may hold. */
static size_t want_full(unsigned count, unsigned but)
{
    size_t end = 0;
    want_empty();
    for (unsigned n = 0; n < count; n++) {
        const uint8_t *bytes = n / 2 < 16 ? block : pauses;
        if (n != but)
            end = put_entry(end, n % 2, n / 2, bytes, n / 2 < 16 ? sizeof block : sizeof pauses);
    }
    return end;
}

/* Each party's room to its last byte. */
static void try_quota(void)
{
    size_t end = want_full(2 * 960 - 1, 2 * 960);
    lend_wanted();
    EXPECT(end + 34 == FOLDHERON_SHELF_SIZE);
    EXPECT(installs(0, 960, pauses, sizeof pauses, FOLDHERON_QUOTA, 0) && as_wanted());
    EXPECT(installs(0, 959, pauses, sizeof pauses, FOLDHERON_TAKEN, 0) && as_wanted());
    EXPECT(installs(1, 959, block, sizeof block, FOLDHERON_QUOTA, 0) && as_wanted());
    put_entry(end, 1, 959, pauses, sizeof pauses);
    EXPECT(installs(1, 959, pauses, sizeof pauses, FOLDHERON_GOOD, 0) && as_wanted());
    EXPECT(installs(1, 960, pauses, sizeof pauses, FOLDHERON_QUOTA, 0) && as_wanted());
}

/* Shelves that are none: each has one byte changed that makes it so. */
static void try_no_shelf(void)
{
    static const struct { size_t at; uint8_t byte; } faults[] = {
        {0, 43}, {0, 0}, {2, 4}, {4, 2}, {8, 13}, {8 + 14, 7}, {42, 7}, {42 + 4, 0}, {84, 1}, {FOLDHERON_SHELF_SIZE - 1, 1}};
    empty_shelf();
    put_entry(put_entry(0, 0, 7, block, sizeof block), 1, 7, block, sizeof block);
    for (size_t n = 0; n < sizeof faults / sizeof faults[0]; n++) {
        uint8_t *fault = wanted + 8 + faults[n].at, was = *fault;
        *fault = faults[n].byte;
        lend_wanted();
        EXPECT(installs(0, 8, block, sizeof block, FOLDHERON_SHELF, 0) && as_wanted());
        EXPECT(installs(0, 8, block, sizeof block - 1, FOLDHERON_SHELF, 0) && as_wanted());
        EXPECT(installs(2, 8, block, sizeof block, FOLDHERON_PARTY, 0) && as_wanted());
        *fault = was;
    }
}

/* A fetch from the lent shelf: it is told this number and count, and these bytes; no other byte changes. */
static int fetches(unsigned party, unsigned name, uint16_t number, const uint8_t *bytes, size_t size)
{
    static uint8_t into[FOLDHERON_BLOCK_MOST + 8], filled[sizeof into];
    const uint64_t numbers[] = {number, 0, size};
    struct lent a = lend();
    memset(into, 0xA5, sizeof into);
    memcpy(filled, into, sizeof filled);
    memcpy(filled, bytes, size);
    uint16_t back = foldheron_fetch(shelf, FOLDHERON_SHELF_SIZE, (uint16_t)party, (uint16_t)name, into, FOLDHERON_BLOCK_MOST, a.bytes, FOLDHERON_FETCH_SIZE);
    return back == number && told(&a, FOLDHERON_FETCH_SIZE, numbers) && memcmp(into, filled, sizeof into) == 0 && as_wanted();
}

static void try_fetch(void)
{
    static const uint64_t no_shelf[] = {19, 0, 0};
    static uint8_t into[FOLDHERON_BLOCK_MOST + 1];
    struct lent a = lend();
    empty_shelf();
    EXPECT(fetches(0, 7, FOLDHERON_ABSENT, block, 0) && fetches(2, 7, FOLDHERON_PARTY, block, 0));
    put_entry(put_entry(0, 1, 7, pauses, sizeof pauses), 0, 256, block, sizeof block);
    lend_wanted();
    EXPECT(fetches(1, 7, FOLDHERON_GOOD, pauses, sizeof pauses) && fetches(0, 256, FOLDHERON_GOOD, block, sizeof block));
    EXPECT(fetches(0, 7, FOLDHERON_ABSENT, block, 0) && fetches(1, 256, FOLDHERON_ABSENT, block, 0));
    for (size_t size = FOLDHERON_BLOCK_MOST - 1; size <= FOLDHERON_BLOCK_MOST + 1; size += 2)
        EXPECT(foldheron_fetch(shelf, FOLDHERON_SHELF_SIZE, 1, 7, into, size, a.bytes, FOLDHERON_FETCH_SIZE) == FOLDHERON_ANSWER && guarded(&a, 0));
    EXPECT(foldheron_fetch(shelf, FOLDHERON_SHELF_SIZE, 1, 7, into, FOLDHERON_BLOCK_MOST, a.bytes, 16) == FOLDHERON_ANSWER && guarded(&a, 0));
    EXPECT(foldheron_fetch(shelf, FOLDHERON_SHELF_SIZE - 1, 1, 7, into, FOLDHERON_BLOCK_MOST, a.bytes, FOLDHERON_FETCH_SIZE) == FOLDHERON_SHELF);
    EXPECT(told(&a, FOLDHERON_FETCH_SIZE, no_shelf) && into[0] == 0 && as_wanted());
}

/* A withdrawal from the lent shelf: it is told this number. */
static int withdraws(unsigned party, unsigned name, uint16_t number)
{
    const uint64_t numbers[] = {number, 0};
    struct lent a = lend();
    uint16_t back = foldheron_withdraw(shelf, FOLDHERON_SHELF_SIZE, (uint16_t)party, (uint16_t)name, a.bytes, FOLDHERON_WITHDRAW_SIZE);
    return back == number && told(&a, FOLDHERON_WITHDRAW_SIZE, numbers);
}

/* The shelf that should be has those of three entries whose bits are set, in their order. */
static void want_entries(unsigned which)
{
    size_t end = 0;
    want_empty();
    if (which & 1)
        end = put_entry(end, 0, 7, block, sizeof block);
    if (which & 2)
        end = put_entry(end, 1, 7, cycle, sizeof cycle);
    if (which & 4)
        put_entry(end, 0, 8, pauses, sizeof pauses);
}

/* Each of the three entries, from a shelf with any of them: those that are left keep their content and order, and zeros come behind them. */
static void try_withdraw(void)
{
    static const unsigned parties[] = {0, 1, 0}, names[] = {7, 7, 8};
    static const uint64_t no_shelf[] = {19, 0};
    struct lent a = lend();
    for (unsigned which = 0; which < 8; which++)
        for (unsigned n = 0; n < 3; n++) {
            want_entries(which);
            lend_wanted();
            want_entries(which & ~(1u << n));
            EXPECT(withdraws(parties[n], names[n], which >> n & 1 ? FOLDHERON_GOOD : FOLDHERON_ABSENT) && as_wanted());
        }
    want_entries(7);
    lend_wanted();
    EXPECT(withdraws(2, 7, FOLDHERON_PARTY) && withdraws(1, 8, FOLDHERON_ABSENT) && as_wanted());
    EXPECT(foldheron_withdraw(shelf, FOLDHERON_SHELF_SIZE, 0, 7, a.bytes, 17) == FOLDHERON_ANSWER && guarded(&a, 0) && as_wanted());
    EXPECT(foldheron_withdraw(shelf, FOLDHERON_SHELF_SIZE - 1, 0, 7, a.bytes, 16) == FOLDHERON_SHELF && told(&a, 16, no_shelf) && as_wanted());
}

/* A shelf that is full to its last byte: the room of what a party withdraws serves that party again, and no byte more of it. */
static void try_room(void)
{
    want_full(2 * 960, 2 * 960);
    lend_wanted();
    EXPECT(installs(0, 960, pauses, sizeof pauses, FOLDHERON_QUOTA, 0) && as_wanted());
    size_t end = want_full(2 * 960, 2 * 100);
    EXPECT(withdraws(0, 100, FOLDHERON_GOOD) && as_wanted() && end + 34 == FOLDHERON_SHELF_SIZE);
    EXPECT(installs(1, 960, pauses, sizeof pauses, FOLDHERON_QUOTA, 0) && installs(0, 960, block, sizeof block, FOLDHERON_QUOTA, 0) && as_wanted());
    put_entry(end, 0, 960, pauses, sizeof pauses);
    EXPECT(installs(0, 960, pauses, sizeof pauses, FOLDHERON_GOOD, 0) && as_wanted());
}

/* Two blocks compared with so many bytes lent for a run: these numbers, and a run of this many sets, whose last is 1 and the others 0; no other byte of it changes. */
static int compares(const uint8_t *first, size_t first_size, const uint8_t *second, size_t second_size, size_t room, const uint64_t *numbers)
{
    static uint8_t run[FOLDHERON_RUN_MOST + 8], wanted_run[sizeof run];
    struct lent a = lend();
    memset(run, 0xA5, sizeof run);
    memset(wanted_run, 0xA5, sizeof wanted_run);
    for (size_t n = 0; n < numbers[3]; n++)
        wanted_run[n] = n + 1 == numbers[3];
    uint16_t back = foldheron_alike(first, first_size, second, second_size, run, room, a.bytes, FOLDHERON_ALIKE_SIZE);
    return back == numbers[0] && told(&a, FOLDHERON_ALIKE_SIZE, numbers) && memcmp(run, wanted_run, sizeof run) == 0;
}

/* The first block waits in its second instant where I is present, and the plain one does not: so a shortest run has two sets, and the first of those is 0, 1. */
static void try_alike(void)
{
    static const uint8_t wide[] = {14, 0, 1, 0, 1, 0, 7, 0, 7, 0, 0, 0, 0, 0, 4, 0, 16, 0};
    static const uint64_t same[] = {0, 0, 0, 0}, differ[] = {0, 0, 0, 2}, first[] = {1, 28, 1, 0}, second[] = {1, 28, 2, 0};
    static const uint64_t interface[] = {23, 0, 0, 0}, seven[] = {24, 0, 0, 0}, short_run[] = {12, 0, 0, 0};
    uint8_t run[1] = {0xA5};
    struct lent a = lend();
    EXPECT(compares(block, sizeof block, block, sizeof block, FOLDHERON_RUN_MOST, same) && compares(cycle, sizeof cycle, cycle, sizeof cycle, 1030, same));
    EXPECT(compares(block, sizeof block, plain, sizeof plain, FOLDHERON_RUN_MOST, differ) && compares(plain, sizeof plain, block, sizeof block, 1030, differ));
    EXPECT(compares(block, sizeof block - 1, block, sizeof block - 1, 0, first) && compares(plain, sizeof plain, block, sizeof block - 1, 0, second));
    EXPECT(compares(block, sizeof block, pauses, sizeof pauses, 0, interface) && compares(wide, sizeof wide, wide, sizeof wide, 0, seven));
    EXPECT(compares(block, sizeof block, plain, sizeof plain, FOLDHERON_RUN_MOST - 1, short_run));
    EXPECT(foldheron_alike(block, sizeof block, plain, sizeof plain, run, 1, a.bytes, 31) == FOLDHERON_ANSWER && guarded(&a, 0) && run[0] == 0xA5);
}

/* Six arms in parallel, each a loop of so many pauses that its own input suspends: one state before the first instant, then that many to the sixth power. */
static size_t build_arms(uint8_t *bytes, unsigned pauses_each)
{
    static const uint8_t head[] = {14, 0, 1, 0, 1, 0, 7, 0, 6, 0, 0, 0, 0, 0};
    size_t size = sizeof head;
    memcpy(bytes, head, sizeof head);
    for (uint8_t arm = 0; arm < 6; arm++) {
        const uint8_t above[] = {4, 0, 23, 0, 6, 0, 20, 0, arm, 0, 4, 0, 22, 0}, more[] = {4, 0, 21, 0, 4, 0, 17, 0};
        size_t from = arm == 5 ? 4 : 0;
        memcpy(bytes + size, above + from, sizeof above - from);
        size += sizeof above - from;
        for (unsigned n = 1; n < pauses_each; n++, size += sizeof more)
            memcpy(bytes + size, more, sizeof more);
        memcpy(bytes + size, more + 4, 4);
        size += 4;
    }
    return size;
}

/* 730 pairs of states of a block with itself are compared; 4,097 are too many. */
static void try_pairs(void)
{
    static const uint64_t same[] = {0, 0, 0, 0}, pairs[] = {25, 0, 0, 0};
    uint8_t arms[FOLDHERON_BLOCK_MOST];
    size_t size = build_arms(arms, 3);
    EXPECT(size == 214 && compares(arms, size, arms, size, FOLDHERON_RUN_MOST, same));
    size = build_arms(arms, 4);
    EXPECT(size == 262 && compares(arms, size, arms, size, FOLDHERON_RUN_MOST, pairs));
}

/* The block with its loop bodies doubled: these bytes, or this refusal; no other lent byte changes. */
static int doubles(const uint8_t *bytes, size_t size, size_t room, uint16_t number, size_t place, const uint8_t *doubled, size_t count)
{
    const uint64_t numbers[] = {number, place, count};
    struct lent a = lend(), out = lend();
    uint16_t back = foldheron_double_loops(bytes, size, out.bytes, room, a.bytes, FOLDHERON_DOUBLE_LOOPS_SIZE);
    return back == number && told(&a, FOLDHERON_DOUBLE_LOOPS_SIZE, numbers) && memcmp(out.bytes, doubled, count) == 0 && guarded(&out, count);
}

/* loop: local L: pause, and the same with the body twice, each copy with a local of its own. Ten loops around a pause would have 1,024 of it. */
static void try_double_loops(void)
{
    static const uint8_t loop[] = {14, 0, 1, 0, 1, 0, 7, 0, 0, 0, 0, 0, 1, 0, 4, 0, 22, 0, 6, 0, 26, 0, 0, 0, 4, 0, 17, 0};
    static const uint8_t twice[] = {14, 0, 1, 0, 1, 0, 7, 0, 0, 0, 0, 0, 2, 0, 4, 0, 22, 0, 4, 0, 21, 0,
                                    6, 0, 26, 0, 0, 0, 4, 0, 17, 0, 6, 0, 26, 0, 1, 0, 4, 0, 17, 0};
    static const uint64_t same[] = {0, 0, 0, 0};
    uint8_t nested[14 + 4 * 11] = {14, 0, 1, 0, 1};
    struct lent a = lend();
    for (size_t n = 0; n < 11; n++)
        memcpy(nested + 14 + 4 * n, n < 10 ? "\4\0\26\0" : "\4\0\21\0", 4);
    EXPECT(doubles(loop, sizeof loop, sizeof twice, 0, 0, twice, sizeof twice) && doubles(loop, sizeof loop, 120, 0, 0, twice, sizeof twice));
    EXPECT(doubles(block, sizeof block, 120, 0, 0, block, sizeof block));
    EXPECT(doubles(loop, sizeof loop, sizeof twice - 1, FOLDHERON_ROOM, 0, twice, 0));
    EXPECT(doubles(block, sizeof block - 1, 0, FOLDHERON_BROKEN, 28, twice, 0) && doubles(nested, sizeof nested, 0, FOLDHERON_LIMIT, 0, twice, 0));
    EXPECT(compares(loop, sizeof loop, twice, sizeof twice, FOLDHERON_RUN_MOST, same));
    EXPECT(foldheron_double_loops(loop, sizeof loop, a.bytes, 42, a.bytes + 64, 23) == FOLDHERON_ANSWER && guarded(&a, 0));
}

/* The block of edition 2 in edition 1: these bytes, or this refusal; no other lent byte changes. */
static int converts(const uint8_t *bytes, size_t size, size_t room, uint16_t number, size_t place, const uint8_t *converted, size_t count)
{
    const uint64_t numbers[] = {number, place, count};
    struct lent a = lend(), out = lend();
    uint16_t back = foldheron_convert(bytes, size, out.bytes, room, a.bytes, FOLDHERON_CONVERT_SIZE);
    return back == number && told(&a, FOLDHERON_CONVERT_SIZE, numbers) && memcmp(out.bytes, converted, count) == 0 && guarded(&out, count);
}

/* trap (abort (sustain O; exit 0) when I): inside the form the exit is 1. 16 aborts around a halt would have 66 on the path. */
static void try_convert(void)
{
    static const uint8_t everyday[] = {14, 0, 1, 0, 2, 0, 7, 0, 1, 0, 1, 0, 0, 0, 4, 0, 24, 0, 6, 0, 35, 0, 0, 0, 4, 0, 21, 0, 6, 0, 33, 0, 1, 0, 6, 0, 25, 0, 0, 0};
    static const uint8_t form[] = {14, 0, 1, 0, 1, 0, 7, 0, 1, 0, 1, 0, 0, 0, 4, 0, 24, 0, 4, 0, 24, 0, 4, 0, 23, 0, 4, 0, 21, 0, 6, 0, 20, 0, 0, 0,
                                   4, 0, 21, 0, 4, 0, 22, 0, 4, 0, 21, 0, 6, 0, 18, 0, 1, 0, 4, 0, 17, 0, 6, 0, 25, 0, 1, 0,
                                   6, 0, 25, 0, 0, 0, 4, 0, 22, 0, 4, 0, 21, 0, 4, 0, 17, 0, 6, 0, 19, 0, 0, 0, 6, 0, 25, 0, 0, 0, 4, 0, 16, 0};
    static const uint8_t input[] = {14, 0, 1, 0, 2, 0, 7, 0, 1, 0, 0, 0, 0, 0, 6, 0, 33, 0, 0, 0};
    uint8_t nested[14 + 6 * 16 + 4] = {14, 0, 1, 0, 2, 0, 7, 0, 1};
    struct lent a = lend();
    for (size_t n = 0; n < 16; n++)
        memcpy(nested + 14 + 6 * n, "\6\0\43\0\0\0", 6);
    memcpy(nested + sizeof nested - 4, "\4\0\40\0", 4);
    EXPECT(converts(everyday, sizeof everyday, sizeof form, 0, 0, form, sizeof form) && converts(everyday, sizeof everyday, 120, 0, 0, form, sizeof form));
    EXPECT(converts(everyday, sizeof everyday, sizeof form - 1, FOLDHERON_ROOM, 0, form, 0) && converts(everyday, sizeof everyday, 0, FOLDHERON_ROOM, 0, form, 0));
    EXPECT(converts(block, sizeof block, 0, FOLDHERON_EDITION, 0, form, 0) && converts(input, sizeof input, 0, FOLDHERON_SIGNAL, 14, form, 0));
    EXPECT(converts(everyday, sizeof everyday - 1, 0, FOLDHERON_BROKEN, 34, form, 0) && converts(nested, sizeof nested, 0, FOLDHERON_LIMIT, 0, form, 0));
    EXPECT(foldheron_check(everyday, sizeof everyday, a.bytes, FOLDHERON_CHECK_SIZE) == FOLDHERON_EDITION);
    a = lend();
    EXPECT(foldheron_convert(everyday, sizeof everyday, a.bytes, 80, a.bytes + 80, 25) == FOLDHERON_ANSWER && guarded(&a, 0));
}

/* The block as text: these bytes, or this refusal; no other lent byte changes. */
static int shows(const uint8_t *bytes, size_t size, size_t room, uint16_t number, size_t place, const char *text)
{
    const uint64_t numbers[] = {number, place, strlen(text)};
    struct lent a = lend(), out = lend();
    uint16_t back = foldheron_write_text(bytes, size, out.bytes, room, a.bytes, FOLDHERON_WRITE_TEXT_SIZE);
    return back == number && told(&a, FOLDHERON_WRITE_TEXT_SIZE, numbers) && memcmp(out.bytes, text, strlen(text)) == 0 && guarded(&out, strlen(text));
}

static void try_write_text(void)
{
    static const char text[] = "version 7;\ninput I0;\noutput O1;\nsuspend\n  pause;\n  emit O1\nwhen I0\n";
    static const uint8_t looping[] = {14, 0, 1, 0, 1, 0, 7, 0, 0, 0, 0, 0, 0, 0, 4, 0, 22, 0, 4, 0, 16, 0};
    struct lent a = lend();
    EXPECT(shows(block, sizeof block, sizeof text - 1, 0, 0, text) && shows(block, sizeof block, 120, 0, 0, text));
    EXPECT(shows(pauses, sizeof pauses, 120, 0, 0, "version 7;\npause;\npause\n"));
    EXPECT(shows(block, sizeof block, sizeof text - 2, FOLDHERON_ROOM, 0, "") && shows(block, sizeof block, 0, FOLDHERON_ROOM, 0, ""));
    EXPECT(shows(block, sizeof block - 1, 0, FOLDHERON_BROKEN, 28, "") && shows(looping, sizeof looping, 0, FOLDHERON_LOOP, 14, ""));
    EXPECT(foldheron_write_text(block, sizeof block, a.bytes, 80, a.bytes + 80, 25) == FOLDHERON_ANSWER && guarded(&a, 0));
}

/* The block that a text stands for: these bytes, or this refusal; no other lent byte changes. */
static int reads(const char *text, size_t room, uint16_t number, size_t place, const uint8_t *bytes, size_t count)
{
    const uint64_t numbers[] = {number, place, count};
    struct lent a = lend(), out = lend();
    uint16_t back = foldheron_read_text((const uint8_t *)text, strlen(text), out.bytes, room, a.bytes, FOLDHERON_READ_TEXT_SIZE);
    return back == number && told(&a, FOLDHERON_READ_TEXT_SIZE, numbers) && memcmp(out.bytes, bytes, count) == 0 && guarded(&out, count);
}

static void try_read_text(void)
{
    static const char written[] = "version 7;\ninput I0;\noutput O1;\nsuspend\n  pause;\n  emit O1\nwhen I0\n";
    static const char other[] = "version 7;input DEMAND;output RUN;[suspend pause;[emit RUN]when DEMAND]";
    struct lent a = lend();
    EXPECT(reads(written, sizeof block, 0, 0, block, sizeof block) && reads(other, 120, 0, 0, block, sizeof block));
    EXPECT(reads(written, sizeof block - 1, FOLDHERON_ROOM, 0, block, 0) && reads("version 7;pause;pause", 120, 0, 0, pauses, sizeof pauses));
    EXPECT(reads("", 0, FOLDHERON_TEXT, 0, block, 0) && reads("version 7;pause;", 0, FOLDHERON_TEXT, 16, block, 0));
    EXPECT(reads("version 7;output O;emit P", 120, FOLDHERON_TEXT, 24, block, 0) && reads("version 7;pause || pause | pause", 120, FOLDHERON_TEXT, 25, block, 0));
    EXPECT(reads("version 7;loop nothing end", 0, FOLDHERON_LOOP, 14, block, 0) && reads("version 7;input I;emit I", 0, FOLDHERON_SIGNAL, 14, block, 0));
    EXPECT(foldheron_read_text((const uint8_t *)written, sizeof written - 1, a.bytes, 80, a.bytes + 80, 16) == FOLDHERON_ANSWER && guarded(&a, 0));
}

/* A emits itself, nobody emits B, and whether O is emitted rests on O: A wins, B loses, O draws. Unless I is there, O is emitted. */
static void try_maze(void)
{
    static const uint64_t rooms[] = {0, 0, 1, 4, 2}, without[] = {0, 0, 2, 1, 0}, with[] = {0, 0, 1, 2, 0};
    static const uint64_t cut[] = {1, 28, 0, 0, 0}, input[] = {11, 0, 0, 0, 0}, form[] = {26, 0, 0, 0, 0};
    struct lent a = lend();
    EXPECT(foldheron_maze(cycle, sizeof cycle, 0, a.bytes, FOLDHERON_MAZE_SIZE) == 0 && told(&a, 40, rooms));
    EXPECT(foldheron_maze(unless, sizeof unless, 0, a.bytes, FOLDHERON_MAZE_SIZE) == 0 && told(&a, 40, without));
    EXPECT(foldheron_maze(unless, sizeof unless, 1, a.bytes, FOLDHERON_MAZE_SIZE) == 0 && told(&a, 40, with));
    EXPECT(foldheron_maze(block, sizeof block - 1, 2, a.bytes, FOLDHERON_MAZE_SIZE) == FOLDHERON_BROKEN && told(&a, 40, cut));
    EXPECT(foldheron_maze(block, sizeof block, 2, a.bytes, FOLDHERON_MAZE_SIZE) == FOLDHERON_INPUT && told(&a, 40, input));
    EXPECT(foldheron_maze(block, sizeof block, 1, a.bytes, FOLDHERON_MAZE_SIZE) == FOLDHERON_FORM && told(&a, 40, form));
    a = lend();
    EXPECT(foldheron_maze(cycle, sizeof cycle, 0, a.bytes, 48) == FOLDHERON_ANSWER && guarded(&a, 0));
}

/* Corridor n of a room of a block with I present or not: the way that it is, and the room that it leads to. */
static int leads(const uint8_t *bytes, size_t size, uint64_t inputs, const size_t *room, size_t n, const uint64_t *way)
{
    const uint64_t numbers[] = {0, 0, way[0], way[1], way[2], way[3]};
    struct lent a = lend();
    uint16_t back = foldheron_corridor(bytes, size, inputs, (uint16_t)room[0], room[1], room[2], n, a.bytes, FOLDHERON_CORRIDOR_SIZE);
    return back == 0 && told(&a, FOLDHERON_CORRIDOR_SIZE, numbers);
}

/* The rooms of the cycle, whose statements are the parallel, 0, emit A, 1, present O, 2, emit O, 3, and nothing, 4; and those of the other block. */
static void try_corridor(void)
{
    static const struct { size_t room[3], n; uint64_t way[4]; } in_cycle[] = {
        {{0, 0, 9}, 0, {1, 3, 0, 0}}, {{0, 0, 9}, 1, {1, 2, 2, 0}}, {{0, 0, 9}, 2, {0, 0, 0, 0}}, {{0, 1, 0}, 0, {1, 2, 2, 1}}, {{0, 1, 0}, 1, {0, 0, 0, 0}},
        {{2, 2, 1}, 0, {1, 0, 1, 0}}, {{2, 2, 1}, 1, {1, 1, 3, 1}}, {{2, 2, 1}, 2, {0, 0, 0, 0}}, {{1, 3, 1}, 0, {1, 3, 0, 0}}, {{1, 3, 0}, 0, {0, 0, 0, 0}},
        {{1, 4, 1}, 0, {0, 0, 0, 0}}, {{3, 9, 9}, 0, {0, 0, 0, 0}}, {{0, 3, 0}, 0, {3, 0, 0, 0}}, {{2, 1, 0}, 0, {3, 0, 0, 0}}, {{1, 5, 0}, 0, {3, 0, 0, 0}},
        {{1, 3, 3}, 0, {3, 0, 0, 0}}, {{4, 0, 0}, 0, {3, 0, 0, 0}}, {{65535, 0, 0}, 0, {3, 0, 0, 0}}};
    static const uint64_t secret[] = {2, 0, 0, 0}, part[] = {1, 1, 2, 1}, given[] = {1, 3, 0, 0}, none[] = {0, 0, 0, 0};
    static const size_t gate[] = {FOLDHERON_ROOM_GATE, 0, 1}, input[] = {FOLDHERON_ROOM_SIGNAL, 0, 0};
    static const uint64_t cut[] = {1, 28, 0, 0, 0, 0}, bad[] = {11, 0, 0, 0, 0, 0}, form[] = {26, 0, 0, 0, 0, 0};
    struct lent a = lend();
    for (size_t row = 0; row < sizeof in_cycle / sizeof in_cycle[0]; row++)
        EXPECT(leads(cycle, sizeof cycle, 0, in_cycle[row].room, in_cycle[row].n, in_cycle[row].way));
    EXPECT(leads(unless, sizeof unless, 0, gate, 0, secret) && leads(unless, sizeof unless, 0, gate, 1, part));
    EXPECT(leads(unless, sizeof unless, 1, input, 0, given) && leads(unless, sizeof unless, 0, input, 0, none));
    EXPECT(foldheron_corridor(block, sizeof block - 1, 2, 4, 0, 0, 0, a.bytes, FOLDHERON_CORRIDOR_SIZE) == FOLDHERON_BROKEN && told(&a, 48, cut));
    EXPECT(foldheron_corridor(block, sizeof block, 2, 4, 0, 0, 0, a.bytes, FOLDHERON_CORRIDOR_SIZE) == FOLDHERON_INPUT && told(&a, 48, bad));
    EXPECT(foldheron_corridor(block, sizeof block, 1, 4, 0, 0, 0, a.bytes, FOLDHERON_CORRIDOR_SIZE) == FOLDHERON_FORM && told(&a, 48, form));
    a = lend();
    EXPECT(foldheron_corridor(cycle, sizeof cycle, 0, 0, 0, 0, 0, a.bytes, 40) == FOLDHERON_ANSWER && guarded(&a, 0));
}

int main(void)
{
    try_layout();
    try_structs();
    try_names();
    try_check();
    try_fresh();
    try_instant();
    try_refusals();
    try_other_block();
    try_logged();
    try_heard();
    try_heard_logged();
    try_excerpt();
    try_reason();
    try_reason_refusals();
    try_install();
    try_quota();
    try_no_shelf();
    try_fetch();
    try_withdraw();
    try_room();
    try_alike();
    try_pairs();
    try_double_loops();
    try_convert();
    try_write_text();
    try_read_text();
    try_maze();
    try_corridor();
    printf("calls: %d wrong\n", wrong);
    return wrong != 0;
}
