/* The sieve of Eratosthenes: how many primes are below 8,192, and the last of them. */
unsigned char composite[8192];

int main(void) {
    int n = 2;
    int count = 0;
    int last = 0;
    while (n < 8192) {
        if (!composite[n]) {
            int multiple = n + n;
            count = count + 1;
            last = n;
            while (multiple < 8192) {
                composite[multiple] = 1;
                multiple = multiple + n;
            }
        }
        n = n + 1;
    }
    out(count);
    out(last);
}
