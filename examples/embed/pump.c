/* Runs a block on sets of inputs, as the run program does: pump FOLDER reads FOLDER/block.bin and FOLDER/inputs.bin and prints a line
 * an instant: its number, the refusal or 0, the code, the present outputs, the active pauses (of a 13, the undecided outputs), the
 * rounds. A file that is missing or cannot be read ends it with 1, after a line on standard error. */
#include "foldheron.h"

#include <errno.h>
#include <inttypes.h>
#include <stdio.h>
#include <string.h>

/* Says what could not be read or written, and the system's reason. */
static int fail(const char *what)
{
    fprintf(stderr, "pump: %s: %s\n", what, strerror(errno));
    return 1;
}

/* Opens a file of the folder, and writes its path. */
static FILE *open_file(const char *folder, const char *name, char *path, size_t room)
{
    int length = snprintf(path, room, "%s/%s", folder, name);
    if (length < 0 || (size_t)length >= room) {
        errno = ENAMETOOLONG;
        return NULL;
    }
    return fopen(path, "rb");
}

/* One instant, and its line. Refused, the state is as it was, and the next instant goes on from there. */
static void run_instant(const uint8_t *block, size_t block_size, uint8_t *state, uint64_t inputs, uint64_t number)
{
    uint8_t bytes[FOLDHERON_INSTANT_SIZE];
    foldheron_instant(block, block_size, state, FOLDHERON_STATE_SIZE, inputs, bytes, sizeof bytes);
    struct foldheron_instant_answer answer = foldheron_read_instant(bytes);
    unsigned count = answer.number == FOLDHERON_NOT_CONSTRUCTIVE ? answer.undecided : answer.active;
    printf("%" PRIu64 " %u %u %" PRIu64 " %u %u\n", number, answer.number, answer.code, answer.present, count, answer.rounds);
}

/* Every set of inputs in the file, 8 bytes each, from fresh. */
static int run_inputs(const uint8_t *block, size_t block_size, uint8_t *state, const char *folder)
{
    char path[4096];
    uint8_t inputs[8];
    size_t count;
    uint64_t number = 1;
    FILE *file = open_file(folder, "inputs.bin", path, sizeof path);
    if (file == NULL)
        return fail(path);
    while ((count = fread(inputs, 1, sizeof inputs, file)) == sizeof inputs)
        run_instant(block, block_size, state, foldheron_number(inputs, 0), number++);
    int status = ferror(file) ? fail(path) : 0;
    fclose(file);
    if (status == 0 && count != 0)
        printf("short\n");
    return status;
}

/* The block's bytes: one more than a block may have is enough to refuse it for its size. */
static int read_block(const char *folder, uint8_t *block, size_t room, size_t *count)
{
    char path[4096];
    FILE *file = open_file(folder, "block.bin", path, sizeof path);
    if (file == NULL)
        return fail(path);
    *count = fread(block, 1, room, file);
    int status = ferror(file) ? fail(path) : 0;
    fclose(file);
    return status;
}

int main(int argc, char **argv)
{
    static uint8_t block[FOLDHERON_BLOCK_MOST + 1];
    uint8_t state[FOLDHERON_STATE_SIZE], answer[FOLDHERON_FRESH_SIZE];
    size_t block_size = 0;
    int status = 0;
    if (argc != 2) {
        fprintf(stderr, "pump: name one folder that holds block.bin and inputs.bin\n");
        return 2;
    }
    if (read_block(argv[1], block, sizeof block, &block_size) != 0)
        return 1;
    unsigned refusal = foldheron_fresh(block, block_size, state, sizeof state, answer, sizeof answer);
    if (refusal == FOLDHERON_GOOD)
        status = run_inputs(block, block_size, state, argv[1]);
    else
        printf("block %u %" PRIu64 "\n", refusal, foldheron_number(answer, FOLDHERON_AT_PLACE));
    if (fflush(stdout) != 0 || ferror(stdout))
        return fail("standard output");
    return status;
}
