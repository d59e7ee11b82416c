/* A table of open addresses, of words by Fibonacci hashing: how many of 4,096 numbers are found, in how many probes. */
unsigned keys[2048];
unsigned probes;

unsigned slot(unsigned key) {
    unsigned at = key * 2654435769u >> 21;
    probes = probes + 1;
    while (keys[at] && keys[at] != key) {
        at = (at + 1) % 2048;
        probes = probes + 1;
    }
    return at;
}

int main(void) {
    unsigned n;
    unsigned at;
    unsigned found = 0;
    for (n = 1; n <= 1536; n = n + 1) {
        at = slot(n * n);
        keys[at] = n * n;
    }
    for (n = 1; n <= 4096; n = n + 1) {
        at = slot(n);
        found = found + (keys[at] == n);
    }
    out(found);
    out(probes);
}
