/* Histories of N remaining steps, for bench/history: one step, one undo, one withdrawal, one rebuild on each.
   argv: N, and the call to run (step, undo, withdraw, rebuild, fold, joined). The steps stand on blocks side by side, so that all are
   free; for a fold they blink on one block, each pair summing to zero; joined is a fold of steps on one block of which none cancels. */
#include "panel.h"
#include <stdio.h>
#include <stdlib.h>
#include <string.h>

enum { WIDTH = 256, ROWS = 1024 };
static int32_t plane[WIDTH * ROWS], levels[PANEL_HISTORY_LEVELS], level[16];
static uint32_t steps[PANEL_HISTORY_STEPS], index_[PANEL_HISTORY_INDEX(WIDTH, ROWS)];

static panel_answer step(size_t row, size_t column, int32_t sign) {
    int32_t residual[16];
    for (int i = 0; i < 16; i++) residual[i] = sign * (i % 5);
    panel_fwht4x4(residual, 16, level, 16);
    return panel_history_step(8, plane, WIDTH * ROWS, WIDTH, WIDTH, ROWS, row, column, level, 16, steps, PANEL_HISTORY_STEPS, levels,
                              PANEL_HISTORY_LEVELS, index_, sizeof index_ / sizeof *index_);
}

int main(int argc, char **argv) {
    size_t n = argc > 1 ? strtoul(argv[1], 0, 10) : 16, k;
    const char *what = argc > 2 ? argv[2] : "step";
    panel_answer a = {0, 0, 0};
    for (k = 0; k < WIDTH * ROWS; k++) plane[k] = 100;
    for (k = 0; k < n; k++) {
        int fold = !strcmp(what, "fold"), joined = !strcmp(what, "joined");
        a = fold ? step(0, 0, k % 2 ? -1 : 1) : joined ? step(0, 0, k == 0 || k % 2 ? 1 : -1) : step(k / 64 * 4, k % 64 * 4, 1);
        if (a.number) return 2;
    }
    if (!strcmp(what, "step") && n < 4096)
        a = step(n / 64 * 4, n % 64 * 4, 1);
    else if (!strcmp(what, "undo"))
        a = panel_history_undo(plane, WIDTH * ROWS, WIDTH, WIDTH, ROWS, steps, PANEL_HISTORY_STEPS, levels, PANEL_HISTORY_LEVELS, index_,
                               sizeof index_ / sizeof *index_);
    else if (!strcmp(what, "withdraw"))
        a = panel_history_withdraw(plane, WIDTH * ROWS, WIDTH, WIDTH, ROWS, (uint32_t)(n / 2), steps, PANEL_HISTORY_STEPS, levels,
                                   PANEL_HISTORY_LEVELS, index_, sizeof index_ / sizeof *index_);
    else if (!strcmp(what, "rebuild"))
        a = panel_history_rebuild(plane, WIDTH * ROWS, WIDTH, WIDTH, ROWS, steps, PANEL_HISTORY_STEPS, levels, PANEL_HISTORY_LEVELS, index_,
                                  sizeof index_ / sizeof *index_);
#ifdef FOLD
    else if (!strcmp(what, "fold") || !strcmp(what, "joined"))
        a = panel_history_fold(plane, WIDTH * ROWS, WIDTH, WIDTH, ROWS, steps, PANEL_HISTORY_STEPS, levels, PANEL_HISTORY_LEVELS, index_,
                               sizeof index_ / sizeof *index_);
#endif
    printf("%u %u\n", a.number, steps[0]);
    return a.number != 0;
}
