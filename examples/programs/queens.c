/* In how many ways eight queens stand on a board so that none attacks another. */
int count;

void place(unsigned columns, unsigned rising, unsigned falling) {
    unsigned free = ~(columns | rising | falling) & 255;
    if (columns == 255)
        count = count + 1;
    while (free) {
        unsigned queen = free & -free;
        free = free ^ queen;
        place(columns | queen, (rising | queen) << 1, (falling | queen) >> 1);
    }
}

int main(void) {
    place(0, 0, 0);
    out(count);
}
