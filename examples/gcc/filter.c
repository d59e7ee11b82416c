/* A filter in fixed point, and a matrix: products and their results in HI and LO. */
int taps[16], line[16];

int filter(int sample)
{
    int result = 0;
    for (int k = 15; k > 0; k--)
        line[k] = line[k - 1];
    line[0] = sample;
    for (int k = 0; k < 16; k++)
        result += taps[k] * line[k] >> 14;
    return result;
}

void multiply(int n, const int *a, const int *b, int *c)
{
    for (int i = 0; i < n; i++)
        for (int j = 0; j < n; j++) {
            int entry = 0;
            for (int k = 0; k < n; k++)
                entry += a[i * n + k] * b[k * n + j];
            c[i * n + j] = entry;
        }
}

unsigned divide(unsigned a, unsigned b, unsigned *rest)
{
    *rest = a % b;
    return a / b;
}
