/* Lines of text: values, and what is malformed. */
#include "expect.h"

/* A line of exactly this length, and the values that it must have, or none. */
static void parse(const char *name, const char *text, size_t length, uint32_t expected, const uint32_t *values)
{
    uint8_t *line = SHAFTGLIMMER_AS(uint8_t *, malloc(length == 0 ? 1 : length));
    uint32_t *lent = lend_all(77, SHAFTGLIMMER_LINE_VALUES);
    memcpy(line, text, length);
    uint32_t answer = shaftglimmer_parse_line(line, length, lent);
    size_t count = shaftglimmer_refusal_of(answer) != 0 ? 0 : answer;
    size_t stored = count < SHAFTGLIMMER_LINE_VALUES ? count : SHAFTGLIMMER_LINE_VALUES;
    int left = memcmp(line, text, length) == 0 && (stored == 0 || memcmp(lent, values, 4 * stored) == 0);
    for (size_t i = stored; i < SHAFTGLIMMER_LINE_VALUES; i++) {
        left = left && lent[i] == 77;
    }
    expect(name, answer == expected && left);
    free(line);
    free(lent);
}

static void malformed(const char *text)
{
    parse(text, text, strlen(text), refused(SHAFTGLIMMER_REFUSAL_TEXT), NULL);
}

/* So many values, all 7; of more than 1024 the first 1024 come. */
static void many(size_t count)
{
    size_t length = 2 * count - 1;
    char *text = SHAFTGLIMMER_AS(char *, malloc(length));
    uint32_t *values = lend_all(7, count);
    for (size_t i = 0; i < length; i++) {
        text[i] = i % 2 == 0 ? '7' : ' ';
    }
    uint32_t expected = length > 16383 ? refused(SHAFTGLIMMER_REFUSAL_TEXT) : SHAFTGLIMMER_AS(uint32_t, count);
    parse("many values", text, length, expected, values);
    free(text);
    free(values);
}

void lines(void)
{
    const uint32_t word[] = {12, 2, 7, 3, 1, 2, 6, 3, 5}, most[] = {0, 4294967295u};
    const char *const wrong[] = {"", " ", " 1", "1 ", "1  2", "01", "00", "1 02", "-1", "+1", "1,2", "1\t2", "1\r", "1\n",
                                 "a", "1a", "q n b", "word", "0x1", "1.0", "4294967296", "10000000000", "1 4294967296",
                                 "\357\273\2771"};
    parse("a word", "12 2 7 3 1 2 6 3 5", 18, 9, word);
    parse("the smallest and the largest value", "0 4294967295", 12, 2, most);
    parse("a part of a line", "12 2 7", 4, 2, word);
    parse("a zero byte", "1\0", 2, refused(SHAFTGLIMMER_REFUSAL_TEXT), NULL);
    for (size_t i = 0; i < sizeof wrong / sizeof *wrong; i++) {
        malformed(wrong[i]);
    }
    many(1);
    many(1023);
    many(1024);
    many(1025);
    many(3000);
    many(8192);
    many(8193);
}
