/* A designer's morning in C: build an XOR program, open it, break a gate, look, ask which lines make its row, mend it; give a row a
 * constant and make its gate an XNOR; store; build it for an input that comes late; read an equation file with a slip, mend it, open it
 * with its table; append a gate in another's place, point an output at it, sweep the other out. */
#include "allpawasi.h"
#include <stdio.h>
#include <string.h>

static void tell(const allpawasi_bench *bench) {
    allpawasi_figures f = allpawasi_report(bench);
    if (f.refusal) {
        printf("refused %zu\n", f.refusal);
    } else if (f.verdict == 1) {
        printf("wrong at input %zu, output %zu\n", f.input, f.output);
    } else {
        printf("%s, %zu gates, depth %zu\n", f.verdict == 0 ? "pass" : "over a limit", f.gates, f.depth);
    }
}

static void tell_lines(const allpawasi_edit *edit) {
    printf("reworked");
    for (size_t i = 0; i < edit->count; i++) printf(" %d", edit->lines[i]);
    printf("\n");
}

static void tell_found(allpawasi_found found) {
    if (found.code > 99) {
        printf("refused %d\n", (int)found.code - 100);
    } else if (found.code == 99) {
        printf("distance none\n");
    } else {
        printf("distance %d, lines", (int)found.code);
        for (size_t i = 0; i < found.count; i++) printf(" %d", found.lines[i]);
        printf("\n");
    }
}

static size_t read_equations(const char *text, uint8_t *room, size_t room_length) {
    allpawasi_reading r = allpawasi_equations((const uint8_t *)text, strlen(text), room, room_length);
    if (r.refusal) {
        printf("refused %zu at %zu\n", r.refusal, r.place);
    } else {
        printf("read %zu bytes\n", r.count);
    }
    return r.count;
}

int main(void) {
    static allpawasi_bench bench; /* zeros: nothing is open */
    const uint8_t rows[] = {3, 7, 6, 0, 0, 0}; /* three masks, and their constants */
    uint8_t room[1341];

    tell(&bench);
    size_t built = allpawasi_build(3, rows, 3, 2, room, sizeof room);
    printf("built %zu bytes\n", built);
    printf("open %zu\n", allpawasi_open_matrix(&bench, room, built, rows, sizeof rows, 3, 2, 0));
    tell(&bench);

    allpawasi_edit edit = allpawasi_replace_gate(&bench, 0, 0, 0, 2);
    tell_lines(&edit);
    tell(&bench);
    tell_found(allpawasi_hint(&bench, 0, 2)); /* row 0 is lines 0 and 1 */
    tell_found(allpawasi_hint(&bench, 0, 0));
    tell_found(allpawasi_hint(&bench, 3, 2));

    printf("refused %zu\n", allpawasi_replace_gate(&bench, 0, 2, 0, 1).refusal);
    allpawasi_replace_gate(&bench, 0, 0, 0, 1);
    tell(&bench);

    allpawasi_change_entry(&bench, 2, 6, 1); /* row 2 is to be the opposite */
    tell(&bench);
    edit = allpawasi_replace_gate(&bench, 2, 1, 1, 2);
    tell_lines(&edit);
    tell(&bench);
    printf("stored %zu bytes\n", allpawasi_store(&bench, room, sizeof room));
    tell_found(allpawasi_distance(3, rows, 3, (const uint8_t[]){0, 0, 0}, 3, 5, 4));

    const uint8_t arrivals[] = {2, 0, 0}; /* the first input goes in last */
    uint8_t limits[] = {3, 3, 1};
    built = allpawasi_build_late(3, arrivals, 3, rows, 3, limits, 3, room, sizeof room);
    printf("built %zu bytes, last gate %d ^ %d, outputs %d %d %d\n", built, room[18], room[19], room[22], room[25], room[28]);
    limits[1] = 2; /* 4 + 1 + 1 is more than 2^2 */
    printf("refused %zu\n", allpawasi_build_late(3, arrivals, 3, rows, 3, limits, 3, room, sizeof room) / 65536);

    const uint8_t table[] = {0, 1, 1, 2, 1, 2, 2, 3}; /* how many of three inputs are 1 */
    read_equations("half = x0 ^ x1\ny0 = hall ^ x2\n", room, sizeof room);
    size_t count = read_equations("half = x0 ^ x1\ny0 = half ^ x2\ny1 = x0 & x1 | half & x2\n", room, sizeof room);
    printf("open %zu\n", allpawasi_open_table(&bench, room, count, table, 8, 5, 3, 2));
    tell(&bench);

    edit = allpawasi_append_gate(&bench, 0, 5, 6); /* an XOR, which does as well as the OR on line 7 */
    tell_lines(&edit);
    tell(&bench);
    allpawasi_point_output(&bench, 1, 8);
    edit = allpawasi_sweep(&bench);
    tell_lines(&edit);
    tell(&bench);
    return 0;
}
