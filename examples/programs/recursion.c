/* Ackermann's function of 2 and 9, and the 18th Fibonacci number, by calls alone. */
int ackermann(int m, int n) {
    int inner;
    if (m == 0)
        return n + 1;
    if (n == 0) {
        inner = ackermann(m - 1, 1);
        return inner;
    }
    inner = ackermann(m, n - 1);
    inner = ackermann(m - 1, inner);
    return inner;
}

int fibonacci(int n) {
    int before;
    int last;
    if (n < 2)
        return n;
    before = fibonacci(n - 2);
    last = fibonacci(n - 1);
    return before + last;
}

int main(void) {
    int value = ackermann(2, 9);
    out(value);
    value = fibonacci(18);
    out(value);
}
