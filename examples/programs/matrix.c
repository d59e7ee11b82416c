/* The product of two matrices of 24 rows and columns: its trace and the sum of its words. */
int left[576];
int right[576];
int product[576];

void fill(void) {
    int i;
    for (i = 0; i < 576; i = i + 1) {
        left[i] = i % 7 - 3;
        right[i] = i % 5 - 2;
    }
}

void multiply(void) {
    int row;
    int column;
    int k;
    for (row = 0; row < 24; row = row + 1) {
        for (column = 0; column < 24; column = column + 1) {
            int sum = 0;
            for (k = 0; k < 24; k = k + 1)
                sum = sum + left[row * 24 + k] * right[k * 24 + column];
            product[row * 24 + column] = sum;
        }
    }
}

int main(void) {
    int i;
    int trace = 0;
    int sum = 0;
    fill();
    multiply();
    for (i = 0; i < 24; i = i + 1)
        trace = trace + product[i * 25];
    for (i = 0; i < 576; i = i + 1)
        sum = sum + product[i];
    out(trace);
    out(sum);
}
