/* Recursion: a call stands alone, or gives its result to a variable. */
int factorial(int n) {
    int r;
    if (n < 2)
        return 1;
    r = factorial(n - 1);
    return n * r;
}

int main(void) {
    int r = factorial(10);
    out(r);
}
