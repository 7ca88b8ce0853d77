/* How much stack the calls take. Each is run on a stack of its own that was painted before, on blocks as deep as a block may be: 64
 * statements on a path, with up to 6 locals, 16 traps and any loops on it, from fresh and from the states that follow; the maze on such blocks of its form,
 * and what converts edition 2 on such paths of that edition, of aborts too.
 * Prints how many calls took more than FOLDHERON_STACK_MOST, and of two blocks compared FOLDHERON_ALIKE_STACK_MOST; with a word, also the most that each call took. Ends with 0 where none took more. */
#define _XOPEN_SOURCE 600
#include "foldheron.h"

#include <stdio.h>
#include <string.h>
#include <ucontext.h>

enum { DEEPEST = 64, ROOM = 1 << 18, PAINT = 0xA5, SPINES = 1500 };
enum { PRESENT = 19, SUSPEND, SEQUENCE, LOOP, PARALLEL, TRAP, EXIT, LOCAL, ABORT = 35 };

enum { CHECK, FRESH, INSTANT, LOGGED, HEARD, HEARD_LOGGED, EXCERPT, REASON, INSTALL, FETCH, WITHDRAW, ALIKE, DOUBLE_LOOPS, CONVERT, WRITE_TEXT, READ_TEXT, MAZE, CORRIDOR, CALLS };
static const char *const names[CALLS] = {"check",  "fresh",   "instant", "instant_logged", "instant_heard", "instant_heard_logged", "excerpt", "reason",
                                         "install", "fetch", "withdraw", "alike", "double_loops", "convert", "write_text", "read_text", "maze", "corridor"};
static uint8_t block[FOLDHERON_BLOCK_MOST], state[FOLDHERON_STATE_SIZE], record[FOLDHERON_RECORD_SIZE], painted[ROOM];
static size_t block_size, most[CALLS];
static unsigned mazes;
static uint64_t inputs, absent;
static int call, over;
static uint16_t asked;
static size_t about;
static uint16_t number;
static const uint8_t *top;
static ucontext_t outside, inside;
static uint32_t chance = 1;

static uint8_t shelf[FOLDHERON_SHELF_SIZE], fetched[FOLDHERON_BLOCK_MOST], shown[FOLDHERON_RUN_MOST], text[FOLDHERON_TEXT_MOST];
static uint16_t room;
static size_t text_size;

/* A number below this one. */
static unsigned any(unsigned below)
{
    chance = chance * 1664525u + 1013904223u;
    return (unsigned)((uint64_t)(chance >> 8) * below >> 24);
}

static void put(unsigned kind, unsigned operand)
{
    uint8_t size = kind == 1 ? 14 : kind < 18 || (kind > 20 && kind < 25) ? 4 : 6;
    uint8_t bytes[6] = {size, 0, (uint8_t)kind, 0, (uint8_t)operand, 0};
    memcpy(block + block_size, bytes, size < 6 ? 4 : 6);
    block_size += size;
}

/* The header (edition 1, inputs 0 and 1, output 2, then the locals), and the statements on the path, each with a leaf beside the path where
 * it has two children: a pause, in a sequence nothing. The leaf comes before the path's next statement or after all of them. */
static void build(const unsigned char *kinds, unsigned locals)
{
    unsigned after[DEEPEST], waiting = 0, next = 3, traps = 0;
    memset(block, 0, sizeof block);
    block_size = 0;
    put(1, 1);
    block[8] = 2;
    block[10] = 1;
    block[12] = (uint8_t)locals;
    for (int at = 0; at < DEEPEST - 1; at++) {
        unsigned kind = kinds[at], leaf = kind == SEQUENCE ? 16 : 17;
        unsigned tested = any(4) != 0 || next == 3 ? (kind == SUSPEND ? 0 : any(8) == 0 ? 2 : 1) : next - 1;
        put(kind, kind == LOCAL ? next++ : tested);
        traps += kind == TRAP;
        if (kind == PRESENT || kind == SEQUENCE || kind == PARALLEL) {
            if (kind != PRESENT && any(2) == 0)
                put(leaf, 0);
            else
                after[waiting++] = leaf;
        }
    }
    unsigned last = any(8);
    put(last == 0 && traps > 0 ? EXIT : last == 1 ? 18 : 17, last == 0 ? any(traps) : 2);
    while (waiting > 0)
        put(after[--waiting], 0);
}

/* The call, on the painted stack. */
static void run(void)
{
    uint8_t a[FOLDHERON_LOGGED_SIZE];
    top = a + sizeof a;
    switch (call) {
    case CHECK: number = foldheron_check(block, block_size, a, FOLDHERON_CHECK_SIZE); break;
    case FRESH: number = foldheron_fresh(block, block_size, state, sizeof state, a, FOLDHERON_FRESH_SIZE); break;
    case INSTANT: number = foldheron_instant(block, block_size, state, sizeof state, inputs, a, FOLDHERON_INSTANT_SIZE); break;
    case LOGGED:
        number = foldheron_instant_logged(block, block_size, state, sizeof state, inputs, record, sizeof record, 0, a, sizeof a);
        break;
    case HEARD: number = foldheron_instant_heard(block, block_size, state, sizeof state, inputs, absent, a, FOLDHERON_INSTANT_SIZE); break;
    case HEARD_LOGGED:
        number = foldheron_instant_heard_logged(block, block_size, state, sizeof state, inputs, absent, record, sizeof record, 0, a, sizeof a);
        break;
    case EXCERPT: number = foldheron_excerpt(block, block_size, DEEPEST - 1, a, FOLDHERON_EXCERPT_SIZE); break;
    case REASON: number = foldheron_reason(block, block_size, state, sizeof state, inputs, absent, asked, about, a, FOLDHERON_REASON_SIZE); break;
    case INSTALL: number = foldheron_install(shelf, sizeof shelf, 0, 0, block, block_size, a, FOLDHERON_INSTALL_SIZE); break;
    case FETCH: number = foldheron_fetch(shelf, sizeof shelf, 0, 0, fetched, sizeof fetched, a, FOLDHERON_FETCH_SIZE); break;
    case WITHDRAW: number = foldheron_withdraw(shelf, sizeof shelf, 0, 0, a, FOLDHERON_WITHDRAW_SIZE); break;
    case ALIKE: number = foldheron_alike(block, block_size, block, block_size, shown, sizeof shown, a, FOLDHERON_ALIKE_SIZE); break;
    case DOUBLE_LOOPS: number = foldheron_double_loops(block, block_size, fetched, sizeof fetched, a, FOLDHERON_DOUBLE_LOOPS_SIZE); break;
    case CONVERT: number = foldheron_convert(block, block_size, fetched, sizeof fetched, a, FOLDHERON_CONVERT_SIZE); break;
    case WRITE_TEXT:
        number = foldheron_write_text(block, block_size, text, sizeof text, a, FOLDHERON_WRITE_TEXT_SIZE);
        text_size = foldheron_read_text_answer(a).count;
        break;
    case READ_TEXT: number = foldheron_read_text(text, text_size, fetched, sizeof fetched, a, FOLDHERON_READ_TEXT_SIZE); break;
    case MAZE: number = foldheron_maze(block, block_size, inputs, a, FOLDHERON_MAZE_SIZE); break;
    default: number = foldheron_corridor(block, block_size, inputs, room, about, 2, 0, a, FOLDHERON_CORRIDOR_SIZE);
    }
}

/* Runs a call and counts the bytes from its caller's answer down to the lowest that is no longer painted. */
static uint16_t measure(int which)
{
    size_t low = 0, limit = which == ALIKE ? FOLDHERON_ALIKE_STACK_MOST : FOLDHERON_STACK_MOST;
    call = which;
    memset(painted, PAINT, sizeof painted);
    getcontext(&inside);
    inside.uc_stack.ss_sp = painted;
    inside.uc_stack.ss_size = sizeof painted;
    inside.uc_link = &outside;
    makecontext(&inside, run, 0);
    swapcontext(&outside, &inside);
    while (low < sizeof painted && painted[low] == PAINT)
        low++;
    size_t took = (size_t)(top - (painted + low));
    over += took > limit;
    if (took > most[which])
        most[which] = took;
    return number;
}

/* The three questions about the instant that comes next: of the output, and of any statement. */
static void ask(void)
{
    for (asked = 0; asked < 3; asked++) {
        about = asked == 1 ? 2 : any(2 * DEEPEST);
        measure(REASON);
    }
}

/* Every call on the block: four instants from fresh, with or without a log and with every input heard or not by chance, each asked about before it is run.
 * Answers how many were answered. */
static unsigned try_block(void)
{
    unsigned answered = 0;
    if (measure(CHECK) != 0)
        return 0;
    measure(EXCERPT);
    measure(DOUBLE_LOOPS);
    measure(WRITE_TEXT);
    measure(READ_TEXT);
    if (any(8) == 0)
        measure(ALIKE);
    measure(FRESH);
    for (int n = 0; n < 4; n++) {
        inputs = n == 0 ? 2 : any(4);
        absent = any(4) & ~inputs;
        ask();
        answered += measure(INSTANT + (int)any(4)) == 0;
    }
    return answered;
}

/* The shelf's calls: the block on an empty shelf, and once more, for it is read where it lies then. */
static void try_shelf(void)
{
    memset(shelf, 0, sizeof shelf);
    measure(INSTALL);
    measure(INSTALL);
    measure(FETCH);
    measure(WITHDRAW);
}

/* The maze's calls on a block of its form: tests, mostly of the output, which is not decided at first, and parallels on the path, with nothing in a test's other
 * branch and an emit beside a parallel's arm. */
static void try_maze(void)
{
    unsigned after[DEEPEST], waiting = 0;
    memset(block, 0, sizeof block);
    block_size = 0;
    put(1, 1);
    block[8] = 2;
    block[10] = 1;
    for (int at = 0; at < DEEPEST - 1; at++) {
        unsigned kind = any(3) == 0 ? PARALLEL : PRESENT, leaf = kind == PRESENT ? 16 : 18;
        put(kind, any(32) == 0 ? any(2) : 2);
        if (any(2) == 0)
            put(leaf, 2);
        else
            after[waiting++] = leaf;
    }
    put(18, 2);
    while (waiting > 0)
        put(after[--waiting], 2);
    inputs = any(4);
    mazes += measure(MAZE) == 0;
    for (room = 0; room < 4; room++) {
        about = room == 0 ? 2 : any(2 * DEEPEST);
        measure(CORRIDOR);
    }
}

/* A path of one kind, or of any: locals and traps as far as they may nest. */
static unsigned try_path(unsigned only)
{
    unsigned char kinds[DEEPEST];
    unsigned locals = 0, traps = 0;
    for (int at = 0; at < DEEPEST - 1; at++) {
        unsigned kind = only != 0 ? only : PRESENT + any(8);
        while (kind == EXIT || (kind == LOCAL && locals == 6) || (kind == TRAP && traps == 16))
            kind = only != 0 ? SUSPEND : PRESENT + any(8);
        locals += kind == LOCAL;
        traps += kind == TRAP;
        kinds[at] = (unsigned char)kind;
    }
    build(kinds, locals);
    block[4] = 2;
    measure(CONVERT);
    block[4] = 1;
    try_shelf();
    return try_block();
}

int main(int count, char **words)
{
    unsigned answered = 0;
    (void)words;
    for (unsigned kind = PRESENT; kind <= LOCAL; kind++)
        for (int n = 0; n < 20; n++)
            answered += try_path(kind);
    try_path(ABORT);
    for (int n = 0; n < SPINES; n++) {
        answered += try_path(0);
        try_maze();
    }
    for (int n = 0; count > 1 && n < CALLS; n++)
        printf("%s: %lu bytes\n", names[n], (unsigned long)most[n]);
    if (count > 1)
        printf("%u instants answered, %u mazes\n", answered, mazes);
    printf("stack: %d calls over %d bytes, or %d where two blocks are compared\n", over, FOLDHERON_STACK_MOST, FOLDHERON_ALIKE_STACK_MOST);
    return over != 0;
}
