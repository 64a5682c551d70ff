// The game of life on a field of 64 by 64 cells, of which a few patterns are alive at first.
#define SIDE 64
typedef unsigned char Field[SIDE][SIDE];
Field field = {
    [3] = {[4] = 1}, [4] = {[5] = 1}, [5] = {[3] = 1, [4] = 1, [5] = 1},             // a glider
    [40] = {[20] = 1, [21] = 1, [22] = 1},                                             // a blinker
    [60] = {[60] = 1, [61] = 1}, [61] = {[60] = 1, [61] = 1},                         // a block
};
static Field after;
int generation = 1;

static int neighbours(int row, int column) {
    int count = -field[row][column];
    for (int i = -1; i < 2; i++)
        for (int j = -1; j < 2; j++) count += field[(row + i) & (SIDE - 1)][(column + j) & (SIDE - 1)];
    return count;
}

__attribute__((visibility("default"))) int step(void) {
    for (int i = 0; i < SIDE; i++)
        for (int j = 0; j < SIDE; j++) {
            int count = neighbours(i, j);
            after[i][j] = count == 3 || (count == 2 && field[i][j]);
        }
    for (int i = 0; i < SIDE * SIDE; i++) field[0][i] = after[0][i];
    return ++generation;
}
