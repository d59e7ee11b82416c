/* Unsigned arithmetic is modulo 2 to the 32nd; a signed word is printed as the unsigned one. */
int main(void) {
    unsigned u = 4294967295u;
    int s = -1;
    u = u + 2;
    out(u);
    out(s);
    out(s < u);
    return s;
}
