/* The check value of ISO HDLC, CRC-32, and Adler-32, of 2,048 bytes. */
unsigned char data[2048];

void fill(void) {
    unsigned seed = 1;
    int i;
    for (i = 0; i < 2048; i = i + 1) {
        seed = seed * 1103515245 + 12345;
        data[i] = seed >> 16;
    }
}

unsigned crc32(void) {
    unsigned sum = 0xffffffff;
    int i;
    int bit;
    for (i = 0; i < 2048; i = i + 1) {
        sum = sum ^ data[i];
        for (bit = 0; bit < 8; bit = bit + 1)
            sum = sum & 1 ? sum >> 1 ^ 0xedb88320 : sum >> 1;
    }
    return ~sum;
}

unsigned adler32(void) {
    unsigned low = 1;
    unsigned high = 0;
    int i;
    for (i = 0; i < 2048; i = i + 1) {
        low = (low + data[i]) % 65521;
        high = (high + low) % 65521;
    }
    return high << 16 | low;
}

int main(void) {
    unsigned sum;
    fill();
    sum = crc32();
    out(sum);
    sum = adler32();
    out(sum);
}
