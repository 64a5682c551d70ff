// CRC-32 and Adler-32, with a table that the compiler computes.
#define STEP(c) ((c) & 1 ? 0xEDB88320u ^ ((c) >> 1) : (c) >> 1)
#define STEP2(c) STEP(STEP(c))
#define STEP8(c) STEP2(STEP2(STEP2(STEP2(c))))
#define ROW1(n) STEP8((n) + 0u), STEP8((n) + 1u), STEP8((n) + 2u), STEP8((n) + 3u)
#define ROW2(n) ROW1(n), ROW1((n) + 4u), ROW1((n) + 8u), ROW1((n) + 12u)
static const unsigned table[64] = {ROW2(0u), ROW2(16u), ROW2(32u), ROW2(48u)};
static unsigned last[16];

static unsigned crc(unsigned sum, const unsigned char *at, unsigned len) {
    sum = ~sum;
    for (; len; len--) sum = table[(sum ^ *at++) & 63] ^ (sum >> 6);
    return ~sum;
}

static unsigned adler(unsigned sum, const unsigned char *at, unsigned len) {
    unsigned a = sum & 0xFFFF, b = sum >> 16;
    for (; len; len--) a = (a + *at++) % 65521, b = (b + a) % 65521;
    return b << 16 | a;
}

unsigned (*checksums[2])(unsigned, const unsigned char *, unsigned) = {crc, adler};

__attribute__((visibility("default"))) unsigned checksum(unsigned kind, const unsigned char *at, unsigned len) {
    return last[kind & 15] = checksums[kind & 1](kind & 1, at, len);
}
