/* Answers calls that stand in a file, a line each: answer FILE. The file is what `tools/reference calls` writes, and the lines are what the program
 * `compare` and `tools/reference answers` print of it, so that the C names are held to the reference evaluator. Ends with 1 where the file
 * cannot be read whole, and with 2 where not one file is named. */
#include "foldheron.h"

#include <errno.h>
#include <inttypes.h>
#include <stdio.h>
#include <string.h>

/* A case: which call, the bytes that are lent to it, and its numbers; other is a log's end, the number of an excerpt, or what a question is about,
 * and asked which question it is. Of a call on a shelf inputs is the party, other the name, absent the shelf's size, and shelf_size how many of its bytes stand
 * in the file: the rest are 0. Of two blocks the shelf is the second. Of a call that writes an output other is how many bytes are lent for it. */
struct call {
    unsigned kind;
    size_t block_size, state_size, log_size, shelf_size;
    uint64_t inputs, other, absent, asked;
};

static uint8_t block[1 << 20], state[256], log_bytes[1 << 16], shelf[1 << 17], fetched[FOLDHERON_BLOCK_MOST], answer[FOLDHERON_LOGGED_SIZE],
    out[1 << 16];

/* What is lent for an output holds this byte, with which none ends. */
enum { LENT = 0xA5 };

static uint64_t number(const uint8_t *bytes, size_t count)
{
    uint64_t sum = 0;
    while (count-- > 0)
        sum = sum << 8 | bytes[count];
    return sum;
}

/* The next case: 1 where there is one, 0 at the file's end, -1 where it ends within one. */
static int next_call(FILE *file, struct call *call)
{
    uint8_t head[40] = {0};
    size_t count = fread(head, 1, 24, file);
    if (count == 0 && !ferror(file))
        return 0;
    if (count != 24 || (head[0] >= 6 && fread(head + 24, 1, 16, file) != 16))
        return -1;
    call->kind = head[0];
    call->state_size = head[1];
    call->log_size = (size_t)number(head + 2, 2);
    call->block_size = (size_t)number(head + 4, 4);
    call->inputs = number(head + 8, 8);
    call->other = number(head + 16, 8);
    call->absent = number(head + 24, 8);
    call->asked = number(head + 32, 8);
    call->shelf_size = call->kind >= 9 ? (size_t)call->asked : 0;
    if (call->block_size > sizeof block || call->shelf_size > sizeof shelf || (call->kind >= 9 && call->absent > sizeof shelf))
        return -1;
    if (call->kind >= 12 && call->other > sizeof out)
        return -1;
    memset(shelf, 0, sizeof shelf);
    memset(out, LENT, sizeof out);
    if (fread(block, 1, call->block_size, file) != call->block_size || fread(state, 1, call->state_size, file) != call->state_size)
        return -1;
    if (fread(log_bytes, 1, call->log_size, file) != call->log_size)
        return -1;
    return fread(shelf, 1, call->shelf_size, file) == call->shelf_size ? 1 : -1;
}

/* The number that was given back, and those of the answer that begin at these bytes, in base 16. */
static void put_numbers(unsigned given, const size_t *at, size_t count)
{
    printf(" %x", given);
    for (size_t n = 1; n < count; n++)
        printf(" %" PRIx64, foldheron_number(answer, at[n]));
}

static void put_bytes(const uint8_t *bytes, size_t count)
{
    putchar(' ');
    for (size_t n = 0; n < count; n++)
        printf("%02x", bytes[n]);
    if (count == 0)
        putchar('-');
}

/* Bytes up to the last that is not the rest's, and how many of the rest come after it. */
static void put_until(const uint8_t *bytes, size_t size, uint8_t rest)
{
    size_t count = size;
    while (count > 0 && bytes[count - 1] == rest)
        count--;
    put_bytes(bytes, count);
    printf("+%zx", size - count);
}

static const size_t at_check[] = {FOLDHERON_AT_NUMBER, FOLDHERON_AT_PLACE, FOLDHERON_AT_VERSION, FOLDHERON_AT_INPUTS, FOLDHERON_AT_OUTPUTS,
                                  FOLDHERON_AT_LOCALS, FOLDHERON_AT_STATEMENTS, FOLDHERON_AT_PAUSES};
static const size_t at_instant[] = {FOLDHERON_AT_NUMBER, FOLDHERON_AT_PLACE, FOLDHERON_AT_FIRST, FOLDHERON_AT_SECOND, FOLDHERON_AT_PRESENT,
                                    FOLDHERON_AT_ABSENT, FOLDHERON_AT_UNDECIDED, FOLDHERON_AT_CODE, FOLDHERON_AT_ROUNDS, FOLDHERON_AT_ACTIVE,
                                    FOLDHERON_AT_END};

static void answer_check(const struct call *call)
{
    unsigned given = foldheron_check(block, call->block_size, answer, FOLDHERON_CHECK_SIZE);
    printf("check");
    put_numbers(given, at_check, 8);
}

static void answer_fresh(const struct call *call)
{
    unsigned given = foldheron_fresh(block, call->block_size, state, call->state_size, answer, FOLDHERON_FRESH_SIZE);
    printf("fresh");
    put_numbers(given, at_instant, 2);
    put_bytes(state, call->state_size);
}

static void answer_instant(const struct call *call)
{
    unsigned given = foldheron_instant(block, call->block_size, state, call->state_size, call->inputs, answer, FOLDHERON_INSTANT_SIZE);
    printf("instant");
    put_numbers(given, at_instant, 10);
    put_bytes(state, call->state_size);
}

static void answer_logged(const struct call *call)
{
    unsigned given = foldheron_instant_logged(block, call->block_size, state, call->state_size, call->inputs, log_bytes, call->log_size,
                                              (size_t)call->other, answer, FOLDHERON_LOGGED_SIZE);
    printf("logged");
    put_numbers(given, at_instant, 11);
    put_bytes(state, call->state_size);
    put_bytes(log_bytes, call->log_size);
}

static void answer_excerpt(const struct call *call)
{
    unsigned given = foldheron_excerpt(block, call->block_size, (size_t)call->other, answer, FOLDHERON_EXCERPT_SIZE);
    printf("excerpt");
    put_numbers(given, at_instant, 2);
    put_bytes(block + foldheron_number(answer, FOLDHERON_AT_OFFSET), (size_t)foldheron_number(answer, FOLDHERON_AT_COUNT));
}

static void answer_heard(const struct call *call)
{
    unsigned given = foldheron_instant_heard(block, call->block_size, state, call->state_size, call->inputs, call->absent, answer,
                                             FOLDHERON_INSTANT_SIZE);
    printf("heard");
    put_numbers(given, at_instant, 10);
    put_bytes(state, call->state_size);
}

static void answer_heard_logged(const struct call *call)
{
    unsigned given = foldheron_instant_heard_logged(block, call->block_size, state, call->state_size, call->inputs, call->absent, log_bytes,
                                                    call->log_size, (size_t)call->other, answer, FOLDHERON_LOGGED_SIZE);
    printf("heardlogged");
    put_numbers(given, at_instant, 11);
    put_bytes(state, call->state_size);
    put_bytes(log_bytes, call->log_size);
}

static void answer_reason(const struct call *call)
{
    static const size_t at_reason[] = {FOLDHERON_AT_NUMBER, FOLDHERON_AT_PLACE, FOLDHERON_AT_FIRST, FOLDHERON_AT_SECOND, FOLDHERON_AT_STATEMENT};
    unsigned given = foldheron_reason(block, call->block_size, state, call->state_size, call->inputs, call->absent, (uint16_t)call->asked,
                                      (size_t)call->other, answer, FOLDHERON_REASON_SIZE);
    printf("reason");
    put_numbers(given, at_reason, 5);
}

static void answer_install(const struct call *call)
{
    unsigned given = foldheron_install(shelf, (size_t)call->absent, (uint16_t)call->inputs, (uint16_t)call->other, block, call->block_size, answer,
                                       FOLDHERON_INSTALL_SIZE);
    printf("install");
    put_numbers(given, at_instant, 2);
    put_until(shelf, (size_t)call->absent, 0);
}

static void answer_fetch(const struct call *call)
{
    unsigned given = foldheron_fetch(shelf, (size_t)call->absent, (uint16_t)call->inputs, (uint16_t)call->other, fetched, sizeof fetched, answer,
                                     FOLDHERON_FETCH_SIZE);
    printf("fetch");
    put_numbers(given, at_instant, 2);
    put_bytes(fetched, foldheron_read_fetch(answer).count);
}

static void answer_withdraw(const struct call *call)
{
    unsigned given = foldheron_withdraw(shelf, (size_t)call->absent, (uint16_t)call->inputs, (uint16_t)call->other, answer, FOLDHERON_WITHDRAW_SIZE);
    printf("withdraw");
    put_numbers(given, at_instant, 2);
    put_until(shelf, (size_t)call->absent, 0);
}

static void answer_maze(const struct call *call)
{
    static const size_t at_maze[] = {FOLDHERON_AT_NUMBER, FOLDHERON_AT_PLACE, FOLDHERON_AT_WINNING, FOLDHERON_AT_LOSING, FOLDHERON_AT_DRAWN};
    unsigned given = foldheron_maze(block, call->block_size, call->inputs, answer, FOLDHERON_MAZE_SIZE);
    printf("maze");
    put_numbers(given, at_maze, 5);
}

/* A call that writes so many bytes, after the name of its line. */
static void put_written(const char *name, unsigned given, const struct call *call)
{
    static const size_t at_written[] = {FOLDHERON_AT_NUMBER, FOLDHERON_AT_PLACE, FOLDHERON_AT_WRITTEN};
    printf("%s", name);
    put_numbers(given, at_written, 3);
    put_until(out, (size_t)call->other, LENT);
}

/* The line says whether a refusal is of the second block; the answer, which block it is of. */
static void answer_alike(const struct call *call)
{
    unsigned given = foldheron_alike(block, call->block_size, shelf, call->shelf_size, out, (size_t)call->other, answer, FOLDHERON_ALIKE_SIZE);
    printf("alike");
    put_numbers(given, at_instant, 2);
    printf(" %d %" PRIx64, foldheron_number(answer, FOLDHERON_AT_BLOCK) == 2, foldheron_number(answer, FOLDHERON_AT_LENGTH));
    put_until(out, (size_t)call->other, LENT);
}

static void answer_copies(const struct call *call)
{
    put_written("copies", foldheron_double_loops(block, call->block_size, out, (size_t)call->other, answer, FOLDHERON_DOUBLE_LOOPS_SIZE), call);
}

static void answer_convert(const struct call *call)
{
    put_written("convert", foldheron_convert(block, call->block_size, out, (size_t)call->other, answer, FOLDHERON_CONVERT_SIZE), call);
}

static void answer_read_text(const struct call *call)
{
    put_written("readtext", foldheron_read_text(block, call->block_size, out, (size_t)call->other, answer, FOLDHERON_READ_TEXT_SIZE), call);
}

static void answer_write_text(const struct call *call)
{
    put_written("writetext", foldheron_write_text(block, call->block_size, out, (size_t)call->other, answer, FOLDHERON_WRITE_TEXT_SIZE), call);
}

int main(int argc, char **argv)
{
    static void (*const answers[18])(const struct call *) = {NULL, answer_check, answer_fresh, answer_instant, answer_logged, answer_excerpt,
                                                             answer_heard, answer_heard_logged, answer_reason, answer_install, answer_fetch,
                                                             answer_withdraw, answer_maze, answer_alike, answer_copies, answer_read_text, answer_write_text, answer_convert};
    struct call call;
    int more = -1;
    if (argc != 2) {
        fprintf(stderr, "answer: name one file of calls\n");
        return 2;
    }
    FILE *file = fopen(argv[1], "rb");
    if (file == NULL) {
        fprintf(stderr, "answer: %s: %s\n", argv[1], strerror(errno));
        return 1;
    }
    while ((more = next_call(file, &call)) == 1 && call.kind <= 17 && answers[call.kind] != NULL) {
        memset(answer, LENT, sizeof answer);
        answers[call.kind](&call);
        putchar('\n');
    }
    fclose(file);
    if (more != 0)
        fprintf(stderr, "answer: %s is no file of calls\n", argv[1]);
    return more != 0;
}
