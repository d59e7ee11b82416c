/* A signed sum that doesn't fit has no meaning: the run ends there with `wrong`. */
int main(void) {
    int n = 2147483646;
    n = n + 1;
    out(n);
    n = n + 1;
    out(n);
}
