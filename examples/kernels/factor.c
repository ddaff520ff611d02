// A factorization: a matrix becomes a lower and an upper triangle, block by block (no pivots: the diagonal is large).
//
// A block's rows lie wherever the matrix has them, side by side with other blocks' rows. With -DCHANGED each block
// lies in one piece.
#include "kernel.h"

enum { SIZE = 64, BLOCK = 16, BLOCKS = SIZE / BLOCK };
static float matrix[SIZE * SIZE];

// The number at this row and column.
static float *at(int row, int column) {
#ifdef CHANGED
    int block = row / BLOCK * BLOCKS + column / BLOCK;
    return &matrix[(block * BLOCK + row % BLOCK) * BLOCK + column % BLOCK];
#else
    return &matrix[row * SIZE + column];
#endif
}

// Which thread has the block: blocks are dealt out in two directions.
static int owner(int row, int column) { return (row % 2 * 2 + column % 2) % THREADS; }

static void factor_diagonal(int block) {
    int first = block * BLOCK, end = first + BLOCK;
    for (int k = first; k < end; k++)
        for (int row = k + 1; row < end; row++) {
            float by = *at(row, k) /= *at(k, k);
            for (int column = k + 1; column < end; column++) *at(row, column) -= by * *at(k, column);
        }
}

// Takes the diagonal block into one to its right.
static void solve_right(int block, int other) {
    int first = block * BLOCK, end = first + BLOCK;
    for (int k = first; k < end; k++)
        for (int row = k + 1; row < end; row++)
            for (int column = other * BLOCK; column < (other + 1) * BLOCK; column++)
                *at(row, column) -= *at(row, k) * *at(k, column);
}

// Takes it into one below.
static void solve_below(int block, int other) {
    int first = block * BLOCK, end = first + BLOCK;
    for (int row = other * BLOCK; row < (other + 1) * BLOCK; row++)
        for (int k = first; k < end; k++) {
            float by = *at(row, k) /= *at(k, k);
            for (int column = k + 1; column < end; column++) *at(row, column) -= by * *at(k, column);
        }
}

static void update(int block, int down, int right) {
    for (int row = down * BLOCK; row < (down + 1) * BLOCK; row++)
        for (int column = right * BLOCK; column < (right + 1) * BLOCK; column++) {
            float sum = *at(row, column);
            for (int k = block * BLOCK; k < (block + 1) * BLOCK; k++) sum -= *at(row, k) * *at(k, column);
            *at(row, column) = sum;
        }
}

static void work(int self) {
    for (int block = 0; block < BLOCKS; block++) {
        if (owner(block, block) == self) factor_diagonal(block);
        meet();
        for (int other = block + 1; other < BLOCKS; other++) {
            if (owner(block, other) == self) solve_right(block, other);
            if (owner(other, block) == self) solve_below(block, other);
        }
        meet();
        for (int down = block + 1; down < BLOCKS; down++)
            for (int right = block + 1; right < BLOCKS; right++)
                if (owner(down, right) == self) update(block, down, right);
        meet();
    }
}

int main(void) {
    for (int place = 0; place < SIZE * SIZE; place++) matrix[place] = 0;
    for (int row = 0; row < SIZE; row++)
        for (int column = 0; column < SIZE; column++) *at(row, column) = row == column ? SIZE : 1.0f / (1 + row + column);
    run_threads(work);
    double product = 1;
    for (int row = 0; row < SIZE; row++) product *= *at(row, row) / SIZE;
    printf("%.4f\n", product);
    return 0;
}
