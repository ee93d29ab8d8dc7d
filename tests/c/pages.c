/* Pages: reading, marks, writing. Four data digits, of shape (3, 2, b). */
#include "expect.h"

enum { K = 4 };

static void parse(const char *name, uint32_t b, const uint32_t *data, size_t count, uint32_t expected)
{
    shaftglimmer_shape shape = standard(3, 2, b);
    uint32_t *lent = lend(data, count);
    uint32_t answer = shaftglimmer_parse_page(&shape, lent, count);
    expect(name, holds(lent, data, count) && answer == expected);
}

static void parsing(void)
{
    const uint32_t two_marks[] = {1, 2, 3, 5}, three_marks[] = {1, 3, 0, 0}, tail[] = {0, 1, 4, 9};
    const uint32_t last_page[] = {1023, 0, 0, 0}, no_page[] = {1024, 0, 0, 0};
    const uint32_t last_function[] = {1, 1, 255, 0}, no_function[] = {1, 1, 256, 0};
    parse("P7's page", 8, two_marks, K, 1026);
    parse("P8", 8, three_marks, K, refused(SHAFTGLIMMER_REFUSAL_COUNT));
    parse("P9", 8, tail, K, refused(SHAFTGLIMMER_REFUSAL_TAIL));
    parse("P10", 11, last_page, K, 1023 * 1024);
    parse("P10, one more", 11, no_page, K, refused(SHAFTGLIMMER_REFUSAL_PAGE));
    parse("mark 255", 9, last_function, K, 1025);
    parse("mark 256", 9, no_function, K, refused(SHAFTGLIMMER_REFUSAL_FUNCTION));
    parse("pages: width", 8, last_page, K, refused(SHAFTGLIMMER_REFUSAL_WIDTH));
    parse("pages: length", 8, two_marks, 3, refused(SHAFTGLIMMER_REFUSAL_LENGTH));
    parse("pages: shape", 0, two_marks, K, refused(SHAFTGLIMMER_REFUSAL_SHAPE));
}

static void mark(const char *name, uint32_t b, const uint32_t *data, size_t room, uint32_t expected, const uint32_t *left)
{
    shaftglimmer_shape shape = standard(3, 2, b);
    uint32_t *lent = lend(data, K), *marks = lend_all(77, room);
    uint32_t answer = shaftglimmer_marks(&shape, lent, K, marks, room);
    expect(name, (holds(lent, data, K) & holds(marks, left, room)) && answer == expected);
}

static void marking(void)
{
    const uint32_t two_marks[] = {1, 2, 3, 5}, one_mark[] = {0, 1, 4, 0}, tail[] = {0, 1, 4, 9};
    const uint32_t two[] = {3, 5, 77, 77}, one[] = {4, 77, 77, 77}, none[] = {77, 77, 77, 77};
    mark("two marks", 8, two_marks, K, 2, two);
    mark("one mark", 8, one_mark, K, 1, one);
    mark("no marks where the page is refused", 8, tail, K, 0, none);
    mark("no marks where the shape is refused", 0, two_marks, K, 0, none);
    mark("marks: length", 8, two_marks, 3, refused(SHAFTGLIMMER_REFUSAL_LENGTH), none);
}

static void put(const char *name, uint32_t b, uint32_t page, const uint32_t *marks, size_t count, size_t room,
                uint32_t expected, const uint32_t *data)
{
    shaftglimmer_shape shape = standard(3, 2, b);
    uint32_t *lent = lend(marks, count), *written = lend_all(77, room);
    uint32_t answer = shaftglimmer_write_page(&shape, page, lent, count, written, room);
    expect(name, (holds(lent, marks, count) & holds(written, data, room)) && answer == expected);
}

static void writing(void)
{
    const uint32_t marks[] = {3, 5, 7}, none[] = {77, 77, 77, 77}, above[] = {256, 512};
    const uint32_t page_1[] = {1, 2, 3, 5}, page_1023[] = {1023, 0, 0, 0};
    put("page 1 is written", 8, 1, marks, 2, K, 0, page_1);
    put("a page without marks is written", 10, 1023, marks, 0, K, 0, page_1023);
    put("writing pages: page", 8, 1024, above, 2, K, refused(SHAFTGLIMMER_REFUSAL_PAGE), none);
    put("writing pages: count", 8, 1, marks, 3, K, refused(SHAFTGLIMMER_REFUSAL_COUNT), none);
    put("writing pages: function", 8, 1, above, 1, K, refused(SHAFTGLIMMER_REFUSAL_FUNCTION), none);
    put("writing pages: width", 8, 256, marks, 2, K, refused(SHAFTGLIMMER_REFUSAL_WIDTH), none);
    put("writing pages: length", 8, 1024, marks, 2, 3, refused(SHAFTGLIMMER_REFUSAL_LENGTH), none);
    put("writing pages: shape", 33, 1, marks, 2, K, refused(SHAFTGLIMMER_REFUSAL_SHAPE), none);
}

void pages(void)
{
    parsing();
    marking();
    writing();
}
