/* Conway's game of life on a torus of 32 by 32 cells: how many live after 24 turns of an R-pentomino. */
unsigned char now[1024];
unsigned char next[1024];

int neighbours(int row, int column) {
    int up = (row + 31) % 32 * 32;
    int here = row * 32;
    int down = (row + 1) % 32 * 32;
    int left = (column + 31) % 32;
    int right = (column + 1) % 32;
    return now[up + left] + now[up + column] + now[up + right] + now[here + left]
        + now[here + right] + now[down + left] + now[down + column] + now[down + right];
}

void turn(void) {
    int row;
    int column;
    int i;
    for (row = 0; row < 32; row = row + 1) {
        for (column = 0; column < 32; column = column + 1) {
            int count = neighbours(row, column);
            next[row * 32 + column] = count == 3 || count == 2 && now[row * 32 + column];
        }
    }
    for (i = 0; i < 1024; i = i + 1)
        now[i] = next[i];
}

int main(void) {
    int i;
    int alive = 0;
    now[496] = 1;
    now[497] = 1;
    now[527] = 1;
    now[528] = 1;
    now[560] = 1;
    for (i = 0; i < 24; i = i + 1)
        turn();
    for (i = 0; i < 1024; i = i + 1)
        alive = alive + now[i];
    out(alive);
}
