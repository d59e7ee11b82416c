/* An array, which stands outside the functions and begins with zeros: the primes below 30. */
int composite[30];

int main(void) {
    int i = 2;
    while (i < 30) {
        int k = i + i;
        if (!composite[i])
            out(i);
        while (k < 30) {
            composite[k] = 1;
            k = k + i;
        }
        i = i + 1;
    }
}
