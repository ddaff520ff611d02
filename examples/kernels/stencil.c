// A stencil: each point of a grid becomes the mean of its four neighbours, ten times over.
//
// A thread has every fourth row, so both neighbours of each row are another thread's. With -DCHANGED its rows lie side
// by side, and it shares only the edges of its part.
#include "kernel.h"

enum { ROWS = 64, COLUMNS = 64, ROUNDS = 10 };
static float grids[2][ROWS][COLUMNS];

// Whether the row is this thread's.
static int is_own(int self, int row) {
#ifdef CHANGED
    return part(self, ROWS) <= row && row < part(self + 1, ROWS);
#else
    return row % THREADS == self;
#endif
}

static void sweep_row(float to[COLUMNS], const float above[COLUMNS], const float row[COLUMNS], const float below[COLUMNS]) {
    for (int column = 1; column < COLUMNS - 1; column++)
        to[column] = (above[column] + below[column] + row[column - 1] + row[column + 1]) / 4;
}

static void work(int self) {
    for (int round = 0; round < ROUNDS; round++) {
        float(*from)[COLUMNS] = grids[round % 2], (*to)[COLUMNS] = grids[1 - round % 2];
        for (int row = 1; row < ROWS - 1; row++)
            if (is_own(self, row)) sweep_row(to[row], from[row - 1], from[row], from[row + 1]);
        meet();
    }
}

int main(void) {
    for (int grid = 0; grid < 2; grid++)
        for (int row = 0; row < ROWS; row++)
            for (int column = 0; column < COLUMNS; column++) grids[grid][row][column] = row ? 0 : 100;
    run_threads(work);
    double sum = 0;
    for (int row = 0; row < ROWS; row++)
        for (int column = 0; column < COLUMNS; column++) sum += grids[ROUNDS % 2][row][column];
    printf("%.3f\n", sum);
    return 0;
}
