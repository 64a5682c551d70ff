// Base64, both ways.
static const char letters[] = "ABCDEFGHIJKLMNOPQRSTUVWXYZabcdefghijklmnopqrstuvwxyz0123456789+/";
static const signed char values[128] = {
    ['+'] = 63, ['/'] = 64, ['0'] = 53, 54, 55, 56, 57, 58, 59, 60, 61, 62, ['='] = -1, ['A'] = 1, 2, 3, 4, 5, 6, 7, 8, 9, 10, 11, 12, 13, 14,
    15, 16, 17, 18, 19, 20, 21, 22, 23, 24, 25, 26, ['a'] = 27, 28, 29, 30, 31, 32, 33, 34, 35, 36, 37, 38, 39, 40, 41, 42, 43, 44, 45, 46, 47,
    48, 49, 50, 51, 52,
};
static char buffer[4096];

__attribute__((visibility("default"))) int encode(const unsigned char *from, int len) {
    char *to = buffer;
    for (int i = 0; i + 2 < len && to - buffer < 4092; i += 3) {
        unsigned all = from[i] << 16 | from[i + 1] << 8 | from[i + 2];
        for (int j = 18; j >= 0; j -= 6) *to++ = letters[all >> j & 63];
    }
    return to - buffer;
}

__attribute__((visibility("default"))) int decode(const char *from, int len) {
    int bits = 0, count = 0;
    for (int i = 0; i < len && values[from[i] & 127] > 0; i++) {
        bits = bits << 6 | (values[from[i] & 127] - 1);
        if (i % 4) buffer[count++ & 4095] = bits >> (6 - 2 * (i % 4));
    }
    return count;
}
