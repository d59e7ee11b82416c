/* CRC-32 by a table, and Adler-32: one array at a time. */
unsigned table[256];

void fill(void)
{
    for (unsigned n = 0; n < 256; n++) {
        unsigned c = n;
        for (int k = 0; k < 8; k++)
            c = c & 1 ? 0xedb88320u ^ (c >> 1) : c >> 1;
        table[n] = c;
    }
}

unsigned crc(unsigned before, const unsigned char *bytes, int length)
{
    unsigned c = ~before;
    for (int k = 0; k < length; k++)
        c = table[(c ^ bytes[k]) & 255] ^ (c >> 8);
    return ~c;
}

unsigned adler(const unsigned char *bytes, int length)
{
    unsigned a = 1, b = 0;
    for (int k = 0; k < length; k++) {
        a = (a + bytes[k]) % 65521;
        b = (b + a) % 65521;
    }
    return b << 16 | a;
}
