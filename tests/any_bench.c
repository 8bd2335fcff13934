/* An open takes a bench whatever it holds: refused, it leaves every field as it was; accepted, it leaves what it leaves on a bench of zeros.
 * A sweep, an append, an entry and a hint on such a bench end and write nothing beside it; more is not promised of them there. */
#include "../bindings/c/allpawasi.h"
#include <string.h>

#define SAME(field) (memcmp(&a->field, &b->field, sizeof a->field) == 0)

static bool same(const allpawasi_bench *a, const allpawasi_bench *b) {
    return SAME(is_open) && SAME(is_matrix) && SAME(n) && SAME(m) && SAME(g) && SAME(max_gates) && SAME(max_depth) &&
           SAME(max_and_depth) && SAME(kinds) && SAME(left) && SAME(right) && SAME(outputs) && SAME(target) && SAME(wanted) &&
           SAME(depths) && SAME(and_depths) && SAME(values);
}

/* one AND of two inputs, and the same with a mark that is wrong */
static const uint8_t sound[] = {'S', 'H', 2, 1, 1, 'G', 'T', 2, 0, 1, 'O', 'P', 2};
static const uint8_t marred[] = {'S', 'H', 2, 1, 1, 'G', 'T', 2, 0, 1, 'O', 'Q', 2};
static const uint8_t table[] = {0, 0, 0, 1};

/* a bench of one byte over and over, but for its bools */
static void fill(allpawasi_bench *bench, int byte) {
    memset(bench, byte, sizeof *bench);
    bench->is_open = byte & 1;
    bench->is_matrix = byte & 2;
}

static size_t refusal(allpawasi_bench *bench, const uint8_t *bytes, size_t entries) {
    return allpawasi_open_table(bench, bytes, sizeof sound, table, entries, 1, 1, 1);
}

/* a bench between bytes that no call may write */
static struct {
    uint8_t before[64];
    allpawasi_bench bench;
    uint8_t after[64];
} lent, as_lent;

static bool is_alone_written(void) {
    return memcmp(lent.before, as_lent.before, sizeof lent.before) == 0 && memcmp(lent.after, as_lent.after, sizeof lent.after) == 0;
}

/* something is open, of this shape, with kinds, operands, outputs and all that is held as they come: each byte is so much more than the one before it */
static void muddle(size_t n, size_t m, size_t g, int byte, int step) {
    uint8_t *bytes = (uint8_t *)&lent.bench;
    for (size_t i = 0; i < sizeof lent.bench; i++) bytes[i] = (uint8_t)(byte + step * (int)i);
    lent.bench.is_open = true;
    lent.bench.is_matrix = byte & 1;
    lent.bench.n = n;
    lent.bench.m = m;
    lent.bench.g = g;
}

/* the first, the last and some other entry: of a matrix the constant stands m places after the mask */
static bool is_bounded_entry(void) {
    static const size_t entries[] = {0, 31, 32, 223, 224, 255, 256, SIZE_MAX};
    for (size_t i = 0; i < sizeof entries / sizeof entries[0]; i++) {
        if (allpawasi_change_entry(&lent.bench, entries[i], 1, 1).count > ALLPAWASI_LINES) return false;
        if (allpawasi_change_entry(&lent.bench, entries[i], 0, 0).count > ALLPAWASI_LINES) return false;
    }
    return is_alone_written();
}

/* an append, hints, entries, a sweep and an append, of the largest shapes, the smallest and some that are out of range */
static bool is_bounded(int byte, int step) {
    static const size_t shapes[][3] = {{8, 32, 248}, {8, 32, 247}, {1, 1, 1}, {9, 32, 248}, {8, 33, 248}, {8, 32, 249}, {0, 0, SIZE_MAX}};
    memset(&as_lent, 0xA5, sizeof as_lent);
    lent = as_lent;
    for (size_t i = 0; i < sizeof shapes / sizeof shapes[0]; i++) {
        muddle(shapes[i][0], shapes[i][1], shapes[i][2], byte, step);
        if (allpawasi_append_gate(&lent.bench, 0, 0, 0).count > ALLPAWASI_LINES) return false;
        if (allpawasi_hint(&lent.bench, 0, 15).count > ALLPAWASI_SET || allpawasi_hint(&lent.bench, 31, 1).count > ALLPAWASI_SET) return false;
        if (!is_bounded_entry()) return false;
        if (allpawasi_sweep(&lent.bench).count > ALLPAWASI_GATES) return false;
        if (allpawasi_append_gate(&lent.bench, 0, 0, 0).count > ALLPAWASI_LINES || !is_alone_written()) return false;
    }
    return true;
}

int main(void) {
    static allpawasi_bench bench, kept, fresh;
    if (refusal(&fresh, sound, 4) != 0) return 1;
    for (int byte = 0; byte < 256; byte++) {
        fill(&bench, byte);
        fill(&kept, byte);
        if (refusal(&bench, marred, 4) != 3 || !same(&bench, &kept)) return 2;
        if (refusal(&bench, sound, 3) != 8 || !same(&bench, &kept)) return 3;
        if (allpawasi_open_matrix(&bench, sound, sizeof sound, table, 2, 1, 1, 1) != 7 || !same(&bench, &kept)) return 4;
        if (refusal(&bench, sound, 4) != 0 || !same(&bench, &fresh)) return 5;
        if (!is_bounded(byte, 0) || !is_bounded(byte, 37)) return 6;
        if (refusal(&lent.bench, sound, 4) != 0 || !same(&lent.bench, &fresh)) return 7;
    }
    return 0;
}
