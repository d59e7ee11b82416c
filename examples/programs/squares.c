/* A loop: the squares of 0 to 4. */
int main(void) {
    int i;
    for (i = 0; i < 5; i = i + 1)
        out(i * i);
}
