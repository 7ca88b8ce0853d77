/* Foldheron: kernel Esterel logic blocks, checked and run one instant at a time.
 *
 * The calls are those of a proved library for x86-64 Linux. `tools/archive` proves it and writes
 * target/staticlib/libfoldheron.a; `tools/install PREFIX` puts it, this header and a pkg-config file in place:
 *
 *     gcc -I include program.c target/staticlib/libfoldheron.a
 *     gcc program.c $(pkg-config --cflags --libs foldheron)
 *
 * What is proved of a call: for every block, state, log, number and answer length it ends, gives back the number and writes the
 * bytes that the definitions say, and reads and writes nothing beyond the lengths it is given. What the caller must see to, since
 * nothing checks a caller in C:
 *
 *   - each pointer is to as many bytes as the length beside it says, and is not NULL, not even beside a length of 0;
 *   - the bytes that a call may write (state, log, run, output, answer; the text of foldheron_write_text, the block of foldheron_read_text)
 *     overlap neither each other nor anything else that is lent;
 *   - no other thread touches these, or writes what the call reads (block, text), during the call.
 *
 * The library keeps nothing between calls and allocates nothing. Calls on different states and answers may run at the same time. Of the
 * C library it needs memcpy and memset, and nothing else. A call takes less stack than FOLDHERON_STACK_MOST below, and foldheron_alike less than
 * FOLDHERON_ALIKE_STACK_MOST: that is measured, by examples/embed/stack.c on blocks as deep as they may be, and not proved.
 *
 * Each call gives back the number of its refusal, 0 where it was not turned down, and writes its whole answer into lent bytes whose
 * count is fixed for the call: with any other count it gives back FOLDHERON_ANSWER and changes no byte of anything. An answer is a row of
 * numbers, 8 bytes each, little-endian; FOLDHERON_AT_ says at which byte each begins, and foldheron_number reads it, or one of the
 * foldheron_read_ functions at the end reads all of them into a struct. Every answer begins
 * with the refusal's number and its place: of 1 to 8 an offset in the block, of 15 one in the text, else 0. Numbers that an answer does not name are 0.
 *
 * Statements and pauses are numbered each from 0, in the order in which they stand in the block.
 */
#ifndef FOLDHERON_H
#define FOLDHERON_H

#include <stddef.h>
#include <stdint.h>

#ifdef __cplusplus
extern "C" {
#endif

/* The version of the calls, the records and this header: the first number rises where a program has to change, the second where some answers are
 * others than before. */
#define FOLDHERON_VERSION_MAJOR 2
#define FOLDHERON_VERSION_MINOR 0
#define FOLDHERON_VERSION_PATCH 0
#define FOLDHERON_VERSION "2.0.0"

/* The numbers of refusals, the first that applies in this order. 1 to 8, the block: every call that takes one (an install after 18 and 19); 9, the state: fresh and the instants; 17, then 10,
 * 11 and 13: the instants; 12: those with a log, before 13; 14: an excerpt; 16: a reason, after an instant's 1 to 11. The calls on a shelf, on two blocks and on a block as a whole
 * have an order of their own: it stands at each. 64, the answer's bytes, comes before all of them. */
#define FOLDHERON_GOOD 0
#define FOLDHERON_BROKEN 1           /* a record is cut off, or has a length below 4 */
#define FOLDHERON_KIND 2             /* a kind that is not allowed here, or not that kind's length */
#define FOLDHERON_EDITION 3          /* the header's edition is not 1; of a block to be converted, not 2 */
#define FOLDHERON_LIMIT 4            /* more of something than there may be */
#define FOLDHERON_SIGNAL 5           /* a signal that may not stand here */
#define FOLDHERON_EXIT 6             /* an exit without its trap */
#define FOLDHERON_SHAPE 7            /* the tree ends too early or too late */
#define FOLDHERON_LOOP 8             /* a loop that may go round without a pause */
#define FOLDHERON_STATE 9            /* not a state of this block */
#define FOLDHERON_OTHER_BLOCK 17     /* a state that names another version or another statement count than the block has */
#define FOLDHERON_CLASH 10           /* two active pauses that cannot be active together */
#define FOLDHERON_INPUT 11           /* an input that the block does not have, or one that is in both sets */
#define FOLDHERON_ROOM 12            /* fewer than 32 bytes after the log's end, or no such end; fewer lent bytes than a run or an output has to have */
#define FOLDHERON_NOT_CONSTRUCTIVE 13 /* the instant does not settle its code */
#define FOLDHERON_INDEX 14           /* no statement of that number */
/* Those of the shelf's calls. */
#define FOLDHERON_PARTY 18           /* a party above 1 */
#define FOLDHERON_SHELF 19           /* not the bytes of a shelf */
#define FOLDHERON_TAKEN 20           /* the party has a block of that name there */
#define FOLDHERON_QUOTA 21           /* the party would hold more than it may */
#define FOLDHERON_ABSENT 22          /* the party has no block of that name there */
#define FOLDHERON_QUESTION 16        /* what is asked about is not so: a reason's */
/* Those of two blocks compared and of the maze. */
#define FOLDHERON_INTERFACE 23       /* not as many inputs, or not as many outputs */
#define FOLDHERON_WIDE 24            /* more than 6 inputs */
#define FOLDHERON_PAIRS 25           /* more than 1,024 pairs of states */
#define FOLDHERON_FORM 26            /* not a block that has a maze */
/* That of a text that is read. */
#define FOLDHERON_TEXT 15            /* text outside the grammar, or a name that may not stand there */
#define FOLDHERON_ANSWER 64          /* not as many bytes as this call's answer has */

/* A block has at most so many bytes, a state exactly so many, a log record exactly so many. */
#define FOLDHERON_BLOCK_MOST 3086
#define FOLDHERON_STATE_SIZE 26
#define FOLDHERON_RECORD_SIZE 32

/* A call takes less stack than this, from its caller's frame down; 106,360 bytes were the most that was seen,
 * where a block has 64 statements on a path. */
#define FOLDHERON_STACK_MOST 114688

/* foldheron_alike takes less than this: it keeps the pairs of states that it has found there. 144,824 bytes were the most that was seen. */
#define FOLDHERON_ALIKE_STACK_MOST 163840

/* Where every answer has its number and its place. */
#define FOLDHERON_AT_NUMBER 0
#define FOLDHERON_AT_PLACE 8

/* Checks a block. The answer, 64 bytes: of a good block its version and its counts. Refusals: 1 to 8. */
#define FOLDHERON_CHECK_SIZE 64
#define FOLDHERON_AT_VERSION 16
#define FOLDHERON_AT_INPUTS 24
#define FOLDHERON_AT_OUTPUTS 32
#define FOLDHERON_AT_LOCALS 40
#define FOLDHERON_AT_STATEMENTS 48
#define FOLDHERON_AT_PAUSES 56
uint16_t foldheron_check(const uint8_t *block, size_t block_size, uint8_t *answer, size_t answer_size);

/* Writes the block's fresh state, with the block's version and statement count, into the lent state, which has 26 bytes; another size is
 * refused with 9. Refused, no byte of the state changes. The answer, 16 bytes: number and place. Refusals: 1 to 8, then 9. */
#define FOLDHERON_FRESH_SIZE 16
uint16_t foldheron_fresh(const uint8_t *block, size_t block_size, uint8_t *state, size_t state_size, uint8_t *answer,
                         size_t answer_size);

/* Runs one instant. Bit n of inputs is set where input n is present; the other inputs are absent. Answered, the lent state is the
 * next state; refused, no byte of it changes. Refusals: 1 to 8, then 9, 17, 10, 11, 13. The answer, 80 bytes:
 *   first, second   of a CLASH: the numbers of the two pauses;
 *   present         the present outputs, bit n for signal n; of a 13, those known to be present;
 *   absent          of a 13: the outputs known to be absent;
 *   undecided       of a 13: how many outputs are undecided;
 *   rounds          answered, or a 13: the rounds it took;
 *   code            answered: 1 where the block goes on, 0 where it has finished;
 *   active          answered: how many pauses are active in the next state. */
#define FOLDHERON_INSTANT_SIZE 80
#define FOLDHERON_AT_FIRST 16
#define FOLDHERON_AT_SECOND 24
#define FOLDHERON_AT_PRESENT 32
#define FOLDHERON_AT_ABSENT 40
#define FOLDHERON_AT_UNDECIDED 48
#define FOLDHERON_AT_ROUNDS 56
#define FOLDHERON_AT_CODE 64
#define FOLDHERON_AT_ACTIVE 72
uint16_t foldheron_instant(const uint8_t *block, size_t block_size, uint8_t *state, size_t state_size, uint64_t inputs,
                           uint8_t *answer, size_t answer_size);

/* Runs one instant and, where it is answered, writes its record of 32 bytes into the log from its end on: length 32, kind 3 (2 bytes
 * each), the inputs present, the inputs absent, the present outputs (8 each), code, rounds (2 each). Nothing before or after the record
 * changes. The answer, 88 bytes: that of an instant, and the log's new end, which the caller lends with the next call. A refused instant
 * writes no record and changes no byte of log or state; the new end is 0 then, so the caller keeps the end it had. Refusals: 1 to 8, then 9,
 * 17, 10 to 13. */
#define FOLDHERON_LOGGED_SIZE 88
#define FOLDHERON_AT_END 80
uint16_t foldheron_instant_logged(const uint8_t *block, size_t block_size, uint8_t *state, size_t state_size, uint64_t inputs,
                                  uint8_t *log, size_t log_size, size_t end, uint8_t *answer, size_t answer_size);

/* Runs one instant of which not every input is heard: bit n of present is set where input n is present, bit n of absent where it is absent, and
 * an input in neither set is unknown. It is answered where the code is known even so, and then the outputs, the code and the next state are those that
 * come with any statuses for the unknown inputs; the rounds may differ. Of a 13 undecided counts outputs alone. foldheron_instant is this call
 * with every declared input that is not present in the absent set. State, answer and refusals are as there; 11 is also given for an input in both. */
uint16_t foldheron_instant_heard(const uint8_t *block, size_t block_size, uint8_t *state, size_t state_size, uint64_t present,
                                 uint64_t absent, uint8_t *answer, size_t answer_size);

/* The same with a log, as foldheron_instant_logged: the record has both sets as they were given. */
uint16_t foldheron_instant_heard_logged(const uint8_t *block, size_t block_size, uint8_t *state, size_t state_size, uint64_t present,
                                        uint64_t absent, uint8_t *log, size_t log_size, size_t end, uint8_t *answer,
                                        size_t answer_size);

/* Finds statement n and all below it in the block, to show that part to its maker, to keep it or to compare it with the part of another
 * block: the answer, 32 bytes, has the offset and the count of these bytes, both 0 where it was refused. The part has no header, so it is no
 * block by itself. Refusals: 1 to 8, then 14. */
#define FOLDHERON_EXCERPT_SIZE 32
#define FOLDHERON_AT_OFFSET 16
#define FOLDHERON_AT_COUNT 24
uint16_t foldheron_excerpt(const uint8_t *block, size_t block_size, size_t n, uint8_t *answer, size_t answer_size);

/* Says why: names a statement that accounts for an instant. Nothing is run and no lent byte but the answer's is written: state, present and absent are those of
 * the instant that is asked about, as foldheron_instant_heard takes them; of one that foldheron_instant ran, absent is every other declared input. What is asked, and what about is:
 *   WHY_REFUSED        why the instant is refused with 13; about is not looked at. Named is the lowest present started, or suspend resumed, that must be
 *                      reached in the final round with its signal undecided there, an input not heard being undecided;
 *   WHY_PRESENT        why this output, a signal number, is present in the answered instant. Named is its lowest emit that was executed;
 *   WHY_NOT_EXECUTED   why this emit, a statement number, was not executed in the answered instant. Named is the topmost statement on its path that was not, in a
 *                      finished block the root.
 * The answer, 40 bytes: number, place, the pair of a CLASH (AT_FIRST, AT_SECOND), and the statement's number, which foldheron_excerpt finds. Refusals: 1 to 8,
 * then 9, 17, 10, 11, and 16 where the thing asked about is not so, or asked is none of the three; never 13. */
#define FOLDHERON_REASON_SIZE 40
#define FOLDHERON_AT_STATEMENT 32
#define FOLDHERON_WHY_REFUSED 0
#define FOLDHERON_WHY_PRESENT 1
#define FOLDHERON_WHY_NOT_EXECUTED 2
uint16_t foldheron_reason(const uint8_t *block, size_t block_size, const uint8_t *state, size_t state_size, uint64_t present,
                          uint64_t absent, uint16_t asked, size_t about, uint8_t *answer, size_t answer_size);

/* A shelf: exactly so many lent bytes, on which two parties, 0 and 1, keep blocks under names of their own, which are numbers. An empty shelf is
 * that many zeros; there is no call that makes one. Each party may hold so many bytes of entries: an entry is 8 bytes and its block. For both
 * parties together that is the whole shelf, so what either may still install always finds its room.
 *
 * On a shelf that began empty and that only these calls changed, what one party is told (number, place, and the bytes that it fetches)
 * depends on its own calls alone. So no call tells where in the shelf a block lies. The shelf's bytes are both parties' bytes: who may read them
 * reads all. What is said above of the lent bytes holds here too: the shelf, the block and the answer do not overlap, so a block is not installed
 * from the shelf itself but fetched first; and no other thread touches the shelf during a call that may write it, or writes it during a fetch. */
#define FOLDHERON_SHELF_SIZE 65536
#define FOLDHERON_HELD_MOST 32768

/* Puts a block on the shelf as the party's block of that name, after the last entry. Refused, no byte of the shelf changes; nothing is ever
 * replaced. The answer, 16 bytes: number and place. Refusals: 18, 19, then 1 to 8 for the block, 20, 21. */
#define FOLDHERON_INSTALL_SIZE 16
uint16_t foldheron_install(uint8_t *shelf, size_t shelf_size, uint16_t party, uint16_t name, const uint8_t *block, size_t block_size,
                           uint8_t *answer, size_t answer_size);

/* Hands back the party's block of that name: it is copied to the front of the lent block, which belongs to the answer and has exactly
 * FOLDHERON_BLOCK_MOST bytes. With another count of it the call gives back FOLDHERON_ANSWER and changes no byte of anything. Bytes behind the
 * block stay as they were; refused, all of them do. The answer, 24 bytes: number, place, and how many bytes the block has, 0 where it was
 * refused. Refusals: 18, 19, then 22. */
#define FOLDHERON_FETCH_SIZE 24
#define FOLDHERON_AT_FETCHED 16
uint16_t foldheron_fetch(const uint8_t *shelf, size_t shelf_size, uint16_t party, uint16_t name, uint8_t *block, size_t block_size,
                         uint8_t *answer, size_t answer_size);

/* Takes the party's block of that name off the shelf. The entries behind it lie further to the front then, in their order and with their
 * content, and zeros come behind them, so the room serves again. Refused, no byte of the shelf changes. The answer, 16 bytes: number and
 * place. Refusals: 18, 19, then 22. */
#define FOLDHERON_WITHDRAW_SIZE 16
uint16_t foldheron_withdraw(uint8_t *shelf, size_t shelf_size, uint16_t party, uint16_t name, uint8_t *answer, size_t answer_size);

/* Tells whether two blocks with as many inputs and outputs are alike: whether from fresh, in every instant under every input run, they have the same outputs
 * present and the same code, or both have a 13. Rounds are not compared. Where they are not alike, a shortest run of input sets that shows it, the first in
 * numeric order among those, is written to the front of the lent run, one byte a set, bit n for input n; the bytes behind it stay, and where the blocks are alike or the call is
 * refused, all of them do. The run has FOLDHERON_RUN_MOST bytes or more.
 * The call gives back 0 for blocks that are different too: alike is number 0 and length 0; 0 alone does not mean alike. The answer, 32 bytes:
 *   block           of 1 to 8: which block is turned down, 1 the first or 2 the second; else 0. The place is an offset in that block;
 *   length          how many sets the run has; 0 where the blocks are alike, for a run of no sets shows nothing, and where it was refused.
 * Refusals: 1 to 8 for the first block, then for the second, 23, 24 for more than 6 inputs, 12 for a shorter run, and 25 exactly where runs shorter than a shortest
 * showing one (all runs, if none shows) reach over 1,024 different pairs of states. Numeric order is set by set from the front. A call runs up to 131,072 instants and cannot be
 * stopped: docs/PERFORMANCE.md says how long that may take. */
#define FOLDHERON_ALIKE_SIZE 32
#define FOLDHERON_AT_BLOCK 16
#define FOLDHERON_AT_LENGTH 24
#define FOLDHERON_RUN_MOST 1024
uint16_t foldheron_alike(const uint8_t *first, size_t first_size, const uint8_t *second, size_t second_size, uint8_t *run, size_t run_size,
                         uint8_t *answer, size_t answer_size);

/* Writes the block with each loop body in sequence with itself, from the inside out, its locals numbered anew and the header else kept, to the front of the
 * lent output; the bytes behind it stay, and refused, all of them do. From fresh, any input run gives the same outputs, codes and 13 on both blocks; where
 * there is a loop, a state of the one is no state of the other. FOLDHERON_BLOCK_MOST bytes are enough for any. The answer, 24 bytes: number, place, and how many bytes were
 * written, 0 where it was refused. Refusals: 1 to 8, then 4 with place 0 where the doubled block passes a limit, then 12. */
#define FOLDHERON_DOUBLE_LOOPS_SIZE 24
#define FOLDHERON_AT_WRITTEN 16
uint16_t foldheron_double_loops(const uint8_t *block, size_t block_size, uint8_t *out, size_t out_size, uint8_t *answer, size_t answer_size);

/* Writes a block of edition 2, whose statements may also be halt, sustain, await and abort (kinds 32 to 35, docs/FORMAT.md), in edition 1, the header else kept, to the front of the lent
 * output; the bytes behind it stay, and refused, all of them do. What is written passes foldheron_check, and from fresh any input run gives on it the outputs, codes and 13 that the
 * four statements mean. No other call takes edition 2, and this one takes no other. FOLDHERON_BLOCK_MOST bytes are enough for any. The answer, 24 bytes: number, place, and how many bytes
 * were written (AT_WRITTEN), 0 where it was refused. Refusals: 1 to 8 of the block lent, then 4 with place 0 where what would be written passes a limit, then 12. */
#define FOLDHERON_CONVERT_SIZE 24
uint16_t foldheron_convert(const uint8_t *block, size_t block_size, uint8_t *out, size_t out_size, uint8_t *answer, size_t answer_size);

/* Writes the block as text, in the grammar of docs/FORMAT.md, to the front of the lent text; the bytes behind it stay, and refused, all of them do. A block has one text: signals are
 * named I0, O1 or S2 by their numbers, as they are inputs, outputs or locals, and traps T0, T1 .. by how many stand around them. It ends with a newline; no byte 0 comes after it.
 * FOLDHERON_TEXT_MOST bytes are enough for any. The answer, 24 bytes: number, place, and how many bytes were written (AT_WRITTEN), 0 where it was refused. Refusals: 1 to 8,
 * then 12. */
#define FOLDHERON_WRITE_TEXT_SIZE 24
#define FOLDHERON_TEXT_MOST 137305
uint16_t foldheron_write_text(const uint8_t *block, size_t block_size, uint8_t *text, size_t text_size, uint8_t *answer, size_t answer_size);

/* Reads a text of that grammar, in any layout, with any names and of any length, and writes the block that it stands for to the front of the lent block; the bytes behind it stay, and
 * refused, all of them do. What is written passes foldheron_check. The bytes that foldheron_write_text wrote of a block, as many as it says, give the same block back. FOLDHERON_BLOCK_MOST bytes are
 * enough for any. The answer, 24 bytes: number, place, and how many bytes were written (AT_WRITTEN), 0 where it was refused. Refusals: 15 for a text outside the grammar, or with a name
 * that is not declared there or declared again; its place is the first byte of the token at fault, or the text's length where it ends too early. Then, of the block that the text stands
 * for, 4 with place 0 for over 64 signals; 1 to 8, with the offset in that block as the place; then 12. A text with over 1,024 places open at once besides the outermost gets 4 with place 0 there and then.
 * The time is at most some steps for each name of the text times the bytes of its header, spaces among them, and so with the square of the text's length at worst: who reads
 * texts of others sees to their length. */
#define FOLDHERON_READ_TEXT_SIZE 24
uint16_t foldheron_read_text(const uint8_t *text, size_t text_size, uint8_t *block, size_t block_size, uint8_t *answer, size_t answer_size);

/* The two-player maze of a block's first instant with these inputs present and the others absent, for blocks made of emit, parallel, and present with 'nothing'
 * in exactly one branch, the statement 'nothing' standing nowhere else: whose rooms win, lose and draw. Those are the inputs and outputs that are present, absent and
 * undecided in the final round. The answer, 40 bytes: number, place, and three sets, bit n for signal n, an input or an output. Refusals: 1 to 8, then 11, 26. */
#define FOLDHERON_MAZE_SIZE 40
#define FOLDHERON_AT_WINNING 16
#define FOLDHERON_AT_LOSING 24
#define FOLDHERON_AT_DRAWN 32
uint16_t foldheron_maze(const uint8_t *block, size_t block_size, uint64_t inputs, uint8_t *answer, size_t answer_size);

/* Corridor n, from 0 on, of a room of that maze. A room is named by its kind and two numbers, and so is the one that a corridor leads to:
 *   ROOM_SIGNAL     a signal's room; first is the signal, second is not looked at, and 0 in an answer;
 *   ROOM_PART       the room of statement first, as the room of signal second sees it;
 *   ROOM_GATE       the room between present number first and its part, as the room of signal second sees it;
 *   ROOM_DUNGEON    the dungeon, which has no corridors; the two numbers are not looked at, and 0 in an answer.
 * No other kind names a room. There is a room of every statement, and a gate of every present, as any declared signal would see it; the maze itself are those that a walk from the
 * signals' rooms comes to. The answer, 48 bytes: number, place, and
 *   way             WAY_NONE where the room has no corridor n, and where it was refused; WAY_VISIBLE or WAY_SECRET, a corridor; WAY_NO_ROOM, there is no such room;
 *   room, first, second   of a corridor: the room that it leads to.
 * Refusals: 1 to 8, then 11, 26. */
#define FOLDHERON_CORRIDOR_SIZE 48
#define FOLDHERON_AT_WAY 16
#define FOLDHERON_AT_ROOM 24
#define FOLDHERON_AT_ROOM_FIRST 32
#define FOLDHERON_AT_ROOM_SECOND 40
#define FOLDHERON_ROOM_SIGNAL 0
#define FOLDHERON_ROOM_PART 1
#define FOLDHERON_ROOM_GATE 2
#define FOLDHERON_ROOM_DUNGEON 3
#define FOLDHERON_WAY_NONE 0
#define FOLDHERON_WAY_VISIBLE 1
#define FOLDHERON_WAY_SECRET 2
#define FOLDHERON_WAY_NO_ROOM 3
uint16_t foldheron_corridor(const uint8_t *block, size_t block_size, uint64_t inputs, uint16_t room, size_t first, size_t second, size_t n,
                            uint8_t *answer, size_t answer_size);

/* The number of 8 bytes that begins at a byte of an answer. */
static inline uint64_t foldheron_number(const uint8_t *answer, size_t at)
{
    uint64_t number = 0;
    for (size_t byte = 8; byte > 0; byte--)
        number = number << 8 | answer[at + byte - 1];
    return number;
}

/* The name of a refusal's number, as the guide has it; NULL of a number that has none, and of 0. */
static inline const char *foldheron_name(unsigned number)
{
    switch (number) {
    case FOLDHERON_BROKEN: return "BROKEN";
    case FOLDHERON_KIND: return "KIND";
    case FOLDHERON_EDITION: return "EDITION";
    case FOLDHERON_LIMIT: return "LIMIT";
    case FOLDHERON_SIGNAL: return "SIGNAL";
    case FOLDHERON_EXIT: return "EXIT";
    case FOLDHERON_SHAPE: return "SHAPE";
    case FOLDHERON_LOOP: return "LOOP";
    case FOLDHERON_STATE: return "STATE";
    case FOLDHERON_CLASH: return "CLASH";
    case FOLDHERON_INPUT: return "INPUT";
    case FOLDHERON_ROOM: return "ROOM";
    case FOLDHERON_NOT_CONSTRUCTIVE: return "NOT CONSTRUCTIVE";
    case FOLDHERON_INDEX: return "INDEX";
    case FOLDHERON_TEXT: return "TEXT";
    case FOLDHERON_QUESTION: return "QUESTION";
    case FOLDHERON_OTHER_BLOCK: return "OTHER BLOCK";
    case FOLDHERON_PARTY: return "PARTY";
    case FOLDHERON_SHELF: return "SHELF";
    case FOLDHERON_TAKEN: return "TAKEN";
    case FOLDHERON_QUOTA: return "QUOTA";
    case FOLDHERON_ABSENT: return "ABSENT";
    case FOLDHERON_INTERFACE: return "INTERFACE";
    case FOLDHERON_WIDE: return "WIDE";
    case FOLDHERON_PAIRS: return "PAIRS";
    case FOLDHERON_FORM: return "FORM";
    case FOLDHERON_ANSWER: return "ANSWER";
    default: return NULL;
    }
}

/* The answers as structs, with the names that stand at the calls above. Each is read from the bytes that a call wrote; after FOLDHERON_ANSWER
 * it wrote none. */
struct foldheron_check_answer {
    uint16_t number;
    size_t place;
    uint16_t version, inputs, outputs, locals, statements, pauses;
};

struct foldheron_instant_answer {
    uint16_t number;
    size_t place;
    uint16_t first, second;
    uint64_t present, absent;
    uint16_t undecided, rounds, code, active;
    size_t end; /* of an instant with a log; else 0 */
};

struct foldheron_excerpt_answer {
    uint16_t number;
    size_t place, offset, count;
};

struct foldheron_reason_answer {
    uint16_t number;
    size_t place;
    uint16_t first, second;
    size_t statement;
};

struct foldheron_fetch_answer {
    uint16_t number;
    size_t place, count;
};

struct foldheron_alike_answer {
    uint16_t number;
    size_t place;
    uint16_t block;
    size_t length;
};

struct foldheron_double_loops_answer {
    uint16_t number;
    size_t place, count;
};

struct foldheron_convert_answer {
    uint16_t number;
    size_t place, count;
};

/* Of foldheron_write_text and foldheron_read_text. */
struct foldheron_text_answer {
    uint16_t number;
    size_t place, count;
};

struct foldheron_maze_answer {
    uint16_t number;
    size_t place;
    uint64_t winning, losing, drawn;
};

struct foldheron_corridor_answer {
    uint16_t number;
    size_t place;
    uint16_t way, room;
    size_t first, second;
};

static inline struct foldheron_check_answer foldheron_read_check(const uint8_t *answer)
{
    struct foldheron_check_answer a;
    a.number = (uint16_t)foldheron_number(answer, FOLDHERON_AT_NUMBER);
    a.place = (size_t)foldheron_number(answer, FOLDHERON_AT_PLACE);
    a.version = (uint16_t)foldheron_number(answer, FOLDHERON_AT_VERSION);
    a.inputs = (uint16_t)foldheron_number(answer, FOLDHERON_AT_INPUTS);
    a.outputs = (uint16_t)foldheron_number(answer, FOLDHERON_AT_OUTPUTS);
    a.locals = (uint16_t)foldheron_number(answer, FOLDHERON_AT_LOCALS);
    a.statements = (uint16_t)foldheron_number(answer, FOLDHERON_AT_STATEMENTS);
    a.pauses = (uint16_t)foldheron_number(answer, FOLDHERON_AT_PAUSES);
    return a;
}

static inline struct foldheron_instant_answer foldheron_read_instant(const uint8_t *answer)
{
    struct foldheron_instant_answer a;
    a.number = (uint16_t)foldheron_number(answer, FOLDHERON_AT_NUMBER);
    a.place = (size_t)foldheron_number(answer, FOLDHERON_AT_PLACE);
    a.first = (uint16_t)foldheron_number(answer, FOLDHERON_AT_FIRST);
    a.second = (uint16_t)foldheron_number(answer, FOLDHERON_AT_SECOND);
    a.present = foldheron_number(answer, FOLDHERON_AT_PRESENT);
    a.absent = foldheron_number(answer, FOLDHERON_AT_ABSENT);
    a.undecided = (uint16_t)foldheron_number(answer, FOLDHERON_AT_UNDECIDED);
    a.rounds = (uint16_t)foldheron_number(answer, FOLDHERON_AT_ROUNDS);
    a.code = (uint16_t)foldheron_number(answer, FOLDHERON_AT_CODE);
    a.active = (uint16_t)foldheron_number(answer, FOLDHERON_AT_ACTIVE);
    a.end = 0;
    return a;
}

/* The 88 bytes of an instant with a log. */
static inline struct foldheron_instant_answer foldheron_read_logged(const uint8_t *answer)
{
    struct foldheron_instant_answer a = foldheron_read_instant(answer);
    a.end = (size_t)foldheron_number(answer, FOLDHERON_AT_END);
    return a;
}

static inline struct foldheron_excerpt_answer foldheron_read_excerpt(const uint8_t *answer)
{
    struct foldheron_excerpt_answer a;
    a.number = (uint16_t)foldheron_number(answer, FOLDHERON_AT_NUMBER);
    a.place = (size_t)foldheron_number(answer, FOLDHERON_AT_PLACE);
    a.offset = (size_t)foldheron_number(answer, FOLDHERON_AT_OFFSET);
    a.count = (size_t)foldheron_number(answer, FOLDHERON_AT_COUNT);
    return a;
}

static inline struct foldheron_reason_answer foldheron_read_reason(const uint8_t *answer)
{
    struct foldheron_reason_answer a;
    a.number = (uint16_t)foldheron_number(answer, FOLDHERON_AT_NUMBER);
    a.place = (size_t)foldheron_number(answer, FOLDHERON_AT_PLACE);
    a.first = (uint16_t)foldheron_number(answer, FOLDHERON_AT_FIRST);
    a.second = (uint16_t)foldheron_number(answer, FOLDHERON_AT_SECOND);
    a.statement = (size_t)foldheron_number(answer, FOLDHERON_AT_STATEMENT);
    return a;
}

static inline struct foldheron_fetch_answer foldheron_read_fetch(const uint8_t *answer)
{
    struct foldheron_fetch_answer a;
    a.number = (uint16_t)foldheron_number(answer, FOLDHERON_AT_NUMBER);
    a.place = (size_t)foldheron_number(answer, FOLDHERON_AT_PLACE);
    a.count = (size_t)foldheron_number(answer, FOLDHERON_AT_FETCHED);
    return a;
}

static inline struct foldheron_alike_answer foldheron_read_alike(const uint8_t *answer)
{
    struct foldheron_alike_answer a;
    a.number = (uint16_t)foldheron_number(answer, FOLDHERON_AT_NUMBER);
    a.place = (size_t)foldheron_number(answer, FOLDHERON_AT_PLACE);
    a.block = (uint16_t)foldheron_number(answer, FOLDHERON_AT_BLOCK);
    a.length = (size_t)foldheron_number(answer, FOLDHERON_AT_LENGTH);
    return a;
}

static inline struct foldheron_double_loops_answer foldheron_read_double_loops(const uint8_t *answer)
{
    struct foldheron_double_loops_answer a;
    a.number = (uint16_t)foldheron_number(answer, FOLDHERON_AT_NUMBER);
    a.place = (size_t)foldheron_number(answer, FOLDHERON_AT_PLACE);
    a.count = (size_t)foldheron_number(answer, FOLDHERON_AT_WRITTEN);
    return a;
}

static inline struct foldheron_convert_answer foldheron_read_convert(const uint8_t *answer)
{
    struct foldheron_convert_answer a;
    a.number = (uint16_t)foldheron_number(answer, FOLDHERON_AT_NUMBER);
    a.place = (size_t)foldheron_number(answer, FOLDHERON_AT_PLACE);
    a.count = (size_t)foldheron_number(answer, FOLDHERON_AT_WRITTEN);
    return a;
}

static inline struct foldheron_text_answer foldheron_read_text_answer(const uint8_t *answer)
{
    struct foldheron_text_answer a;
    a.number = (uint16_t)foldheron_number(answer, FOLDHERON_AT_NUMBER);
    a.place = (size_t)foldheron_number(answer, FOLDHERON_AT_PLACE);
    a.count = (size_t)foldheron_number(answer, FOLDHERON_AT_WRITTEN);
    return a;
}

static inline struct foldheron_maze_answer foldheron_read_maze(const uint8_t *answer)
{
    struct foldheron_maze_answer a;
    a.number = (uint16_t)foldheron_number(answer, FOLDHERON_AT_NUMBER);
    a.place = (size_t)foldheron_number(answer, FOLDHERON_AT_PLACE);
    a.winning = foldheron_number(answer, FOLDHERON_AT_WINNING);
    a.losing = foldheron_number(answer, FOLDHERON_AT_LOSING);
    a.drawn = foldheron_number(answer, FOLDHERON_AT_DRAWN);
    return a;
}

static inline struct foldheron_corridor_answer foldheron_read_corridor(const uint8_t *answer)
{
    struct foldheron_corridor_answer a;
    a.number = (uint16_t)foldheron_number(answer, FOLDHERON_AT_NUMBER);
    a.place = (size_t)foldheron_number(answer, FOLDHERON_AT_PLACE);
    a.way = (uint16_t)foldheron_number(answer, FOLDHERON_AT_WAY);
    a.room = (uint16_t)foldheron_number(answer, FOLDHERON_AT_ROOM);
    a.first = (size_t)foldheron_number(answer, FOLDHERON_AT_ROOM_FIRST);
    a.second = (size_t)foldheron_number(answer, FOLDHERON_AT_ROOM_SECOND);
    return a;
}

#ifdef __cplusplus
}
#endif

#endif
