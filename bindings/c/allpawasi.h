/* Allpawasi for C: the circuit bench, the builder, the distance query, hints and the reader of equation files, as the proved static library has them.
 *
 * Link target/staticlib/liblent.a (`.ci/link lent`). A `const uint8_t *` and the length after it name bytes that may be read; a `uint8_t *` and a length name a room
 * that may be written. Where a length is 0 the pointer is not followed, but it must not be null: pass any valid address.
 *
 * A bench is lent to each call and changed where it stands. A bench of zeros has nothing open:
 *     allpawasi_bench bench = {0};
 * Change it by these calls alone. A refused call leaves it, and each lent byte, exactly as it was. An open takes a bench whatever it holds, as long as its two bools are 0 or 1:
 * accepted, it leaves the right one; refused, the one it was given.
 *
 * Refusals are the definition's numbers: 1 shape, 2 length, 3 mark, 4 kind, 5 operand, 6 no such line, 7 nonlinear under a
 * matrix (not XOR, XNOR or NOT), 8 target, 9 depth above 15, 10 too shallow, 11 room too short, 12 not there, 13 nothing
 * open, 15 bad text, 16 name unknown, set twice or an input set, 17 no input, no output or an output gap, 18 no gate more:
 * 248 are there. */
#ifndef ALLPAWASI_H
#define ALLPAWASI_H

#include <stdbool.h>
#include <stddef.h>
#include <stdint.h>

/* How many outputs, gates and lines a circuit may have, how many input values, and how many lines a smallest set. */
enum { ALLPAWASI_OUTPUTS = 32, ALLPAWASI_GATES = 248, ALLPAWASI_LINES = 256, ALLPAWASI_VALUES = 256, ALLPAWASI_SET = 8 };

typedef struct {
    uint64_t w0, w1, w2, w3; /* input value x at bit x % 64 of word x / 64 */
} allpawasi_words;

/* What stands on the bench, to look at: gate k is kinds[k], left[k], right[k]; depths, and_depths and values have an entry
 * for each of the n + g lines. target has the bytes as they were brought: of a table its entries, of a matrix row j's mask at
 * target[j] and its constant at target[m + j]. */
typedef struct {
    bool is_open, is_matrix;
    size_t n, m, g;
    uint16_t max_gates, max_depth, max_and_depth;
    uint8_t kinds[ALLPAWASI_GATES];
    uint16_t left[ALLPAWASI_GATES], right[ALLPAWASI_GATES], outputs[ALLPAWASI_OUTPUTS];
    uint8_t target[ALLPAWASI_VALUES];
    allpawasi_words wanted[ALLPAWASI_OUTPUTS];
    uint8_t depths[ALLPAWASI_LINES], and_depths[ALLPAWASI_LINES];
    allpawasi_words values[ALLPAWASI_LINES];
} allpawasi_bench;

/* refusal: 0, or why. lines[0] to lines[count - 1] were examined again, in ascending order. */
typedef struct {
    size_t refusal, count;
    uint16_t lines[ALLPAWASI_LINES];
} allpawasi_edit;

/* refusal: 0, or why. depth and and_depth: the greatest over the lines that outputs name. verdict: 0 pass, 1 wrong (at input
 * and output), 2 over the gate limit, 3 over the depth limit, 4 over the AND depth limit. */
typedef struct {
    size_t refusal, gates, xors, nonlinear, nots, depth, and_depth, verdict, input, output;
} allpawasi_figures;

/* refusal: 0, or why. count: how many bytes stand first in the room. place, of 15 and 16: the number of bytes before it; 0 otherwise. */
typedef struct {
    size_t refusal, count, place;
} allpawasi_reading;

/* A distance: the fewest gates, 99 where no program makes the target, or 100 and the refusal's number; and the lines of the smallest
 * set that comes first, ascending: `code` + 1 of them where there is a distance, else none. The rest of lines is 0. */
typedef struct {
    uint64_t code;
    size_t count;
    uint16_t lines[ALLPAWASI_SET];
} allpawasi_found;

/* 0, or why it was refused. rows are the masks of all m outputs and then their constants, 2m bytes: output j is to be the sum of the
 * inputs in rows[j] and of the bit rows[m + j]. A mask of 0 is an output that is constant. */
size_t allpawasi_open_matrix(allpawasi_bench *bench, const uint8_t *bytes, size_t length, const uint8_t *rows, size_t row_bytes,
                             uint8_t max_gates, uint8_t max_depth, uint8_t max_and_depth);
size_t allpawasi_open_table(allpawasi_bench *bench, const uint8_t *bytes, size_t length, const uint8_t *entries, size_t entry_count,
                            uint8_t max_gates, uint8_t max_depth, uint8_t max_and_depth);

allpawasi_edit allpawasi_replace_gate(allpawasi_bench *bench, size_t k, size_t kind, size_t a, size_t b);
/* The new gate is number g; its own line is listed. */
allpawasi_edit allpawasi_append_gate(allpawasi_bench *bench, size_t kind, size_t a, size_t b);
/* Drops the gates that no output reaches, then merges those of one kind with the same operands in either order, and closes up the
 * numbers. The line of each gate that is kept is listed, by its new number, whether or not anything changed. */
allpawasi_edit allpawasi_sweep(allpawasi_bench *bench);
/* No line is examined again; the circuit's depths may be others. */
allpawasi_edit allpawasi_point_output(allpawasi_bench *bench, size_t j, size_t line);
/* Row i of a matrix gets this mask and this constant, 0 or 1. Entry i of a table gets this value; its constant is 0. */
allpawasi_edit allpawasi_change_entry(allpawasi_bench *bench, size_t i, size_t value, size_t constant);
allpawasi_edit allpawasi_set_limits(allpawasi_bench *bench, uint8_t max_gates, uint8_t max_depth, uint8_t max_and_depth);

allpawasi_figures allpawasi_report(const allpawasi_bench *bench);

/* How many bytes stand first in the room, or 65,536 times the refusal's number. The same for restore and both builds. */
size_t allpawasi_store(const allpawasi_bench *bench, uint8_t *room, size_t room_length);

/* Reads a stored circuit and stores it again. only: no gate but XOR, XNOR and NOT is allowed. */
size_t allpawasi_restore(const uint8_t *bytes, size_t length, bool only, uint8_t *room, size_t room_length);

/* Builds an XOR program from a matrix and a depth limit. A row is a mask, which is not 0; there are no constants here. */
size_t allpawasi_build(size_t n, const uint8_t *rows, size_t row_count, size_t depth, uint8_t *room, size_t room_length);

/* The same with late signals: input i has depth arrivals[i], and row j is made within limits[j]. There is an arrival for each input
 * and a limit for each row. Arrivals 0 and equal limits give what allpawasi_build gives. */
size_t allpawasi_build_late(size_t n, const uint8_t *arrivals, size_t arrival_count, const uint8_t *rows, size_t row_count,
                            const uint8_t *limits, size_t limit_count, uint8_t *room, size_t room_length);

/* The fewest XOR gates that make a target within a depth over a base, and of which lines: line i has masks[i] and depths[i]. */
allpawasi_found allpawasi_distance(size_t n, const uint8_t *masks, size_t mask_count, const uint8_t *depths, size_t depth_count,
                                   size_t target, size_t depth);

/* The same for row j of the matrix that is open, over the lines of the circuit that are at most 15 deep, by their numbers in the circuit.
 * The row and the lines count by their masks; constants are not looked at. Refused 12: the target is a table, or has no such row; 8: the
 * row's mask is 0. */
allpawasi_found allpawasi_hint(const allpawasi_bench *bench, size_t j, size_t depth);

/* Reads an equation file, one assignment a line: its stored circuit first in the room. */
allpawasi_reading allpawasi_equations(const uint8_t *text, size_t length, uint8_t *room, size_t room_length);

#endif
