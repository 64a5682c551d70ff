// Counts the characters of a text in UTF-8 by a machine of states.
enum { LETTER, REST, TWO, THREE, FOUR, WRONG, KINDS };
#define SIXTEEN(k) k, k, k, k, k, k, k, k, k, k, k, k, k, k, k, k
static const unsigned char kinds[256] = {
    SIXTEEN(LETTER), SIXTEEN(LETTER), SIXTEEN(LETTER), SIXTEEN(LETTER), SIXTEEN(LETTER), SIXTEEN(LETTER), SIXTEEN(LETTER), SIXTEEN(LETTER),
    SIXTEEN(REST), SIXTEEN(REST), SIXTEEN(REST), SIXTEEN(REST), SIXTEEN(TWO), SIXTEEN(TWO), SIXTEEN(THREE),
    FOUR, FOUR, FOUR, FOUR, FOUR, WRONG, WRONG, WRONG, WRONG, WRONG, WRONG, WRONG, WRONG, WRONG, WRONG, WRONG,
};
static const signed char next[4][KINDS] = {{0, -1, 1, 2, 3, -1}, {-1, 0, -1, -1, -1, -1}, {-1, 1, -1, -1, -1, -1}, {-1, 2, -1, -1, -1, -1}};
const char *const greetings[] = {"hello", "gr\xC3\xBC\xC3\x9F dich", "\xE4\xBD\xA0\xE5\xA5\xBD", "\xF0\x9F\x91\x8B", "\xFF"};
long long counted = -1;
float last = 0.5f;

__attribute__((visibility("default"))) int characters(int which) {
    int state = 0, count = 0;
    for (const char *at = greetings[which % 5]; *at; at++) {
        if ((state = next[state][kinds[(unsigned char)*at]]) < 0) return -1;
        if (state == 0) count++;
    }
    counted += count;
    last = count / 2.0f;
    return count;
}
