/* The least area of a lattice for each function of three inputs, by trying all lattices of at most seven cells: a line for
   each function, its number (bit x is its value at assignment x) and the area, or 0 where there is none so small. */
#include <stdint.h>
#include <stdio.h>

enum { INPUTS = 3, ASSIGNMENTS = 8, FUNCTIONS = 256, CONTROLS = 8, MOST = 7 };

static uint8_t control[CONTROLS];
static int best[FUNCTIONS];

/* The function of a lattice: bit x of a mark says that the cell is joined to the top plate at assignment x. */
static uint8_t function_of(const uint8_t *value, int rows, int cols) {
    uint8_t mark[MOST] = {0}, bottom = 0;
    int changed = 1;
    while (changed) {
        changed = 0;
        for (int cell = 0; cell < rows * cols; cell++) {
            int row = cell / cols, col = cell % cols;
            uint8_t joined = row == 0 ? 0xff : 0;
            if (row > 0) joined |= mark[cell - cols];
            if (row < rows - 1) joined |= mark[cell + cols];
            if (col > 0) joined |= mark[cell - 1];
            if (col < cols - 1) joined |= mark[cell + 1];
            joined &= value[cell];
            if (joined & ~mark[cell]) {
                mark[cell] |= joined;
                changed = 1;
            }
        }
    }
    for (int col = 0; col < cols; col++) bottom |= mark[(rows - 1) * cols + col];
    return bottom;
}

int main(void) {
    control[1] = 0xff;
    for (int input = 0; input < INPUTS; input++)
        for (int x = 0; x < ASSIGNMENTS; x++)
            control[2 + 2 * input + !(x >> input & 1)] |= 1 << x;
    for (int area = 1; area <= MOST; area++)
        for (int rows = 1; rows <= area; rows++) {
            if (area % rows) continue;
            long lattices = 1;
            for (int cell = 0; cell < area; cell++) lattices *= CONTROLS;
            for (long number = 0; number < lattices; number++) {
                uint8_t value[MOST];
                long left = number;
                for (int cell = 0; cell < area; cell++, left /= CONTROLS) value[cell] = control[left % CONTROLS];
                uint8_t f = function_of(value, rows, area / rows);
                if (!best[f]) best[f] = area;
            }
        }
    for (int f = 0; f < FUNCTIONS; f++) printf("%d %d\n", f, best[f]);
    return 0;
}
