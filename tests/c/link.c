/*
 * Links the library from C or C++ and calls every function on the rules' values. From the repository's root:
 *
 * cc -std=c99 -Wall -Wextra -pedantic -Iinclude tests/c/link.c tests/c/lines.c tests/c/words.c tests/c/pages.c \
 *     tests/c/sessions.c target/libshaftglimmer.a -o target/link
 * target/link
 *
 * This file has the functions over bytes, the lengths, the texts and the version.
 */
#include "expect.h"

#include <stdio.h>

enum { MOST = 4 * 16 };

static int passed, failed;

void expect(const char *name, int holds)
{
    if (holds) {
        passed++;
    } else {
        failed++;
        printf("FAILED: C: %s\n", name);
    }
}

uint32_t *lend_unset(size_t count)
{
    uint32_t *lent = SHAFTGLIMMER_AS(uint32_t *, malloc(count == 0 ? 1 : 4 * count));
    if (lent == NULL) {
        puts("C: out of memory");
        exit(2);
    }
    return lent;
}

uint32_t *lend(const uint32_t *values, size_t count)
{
    uint32_t *lent = lend_unset(count);
    memcpy(lent, values, 4 * count);
    return lent;
}

uint32_t *lend_all(uint32_t value, size_t count)
{
    uint32_t *lent = lend_unset(count);
    for (size_t i = 0; i < count; i++) {
        lent[i] = value;
    }
    return lent;
}

int holds(uint32_t *lent, const uint32_t *values, size_t count)
{
    int same = memcmp(lent, values, 4 * count) == 0;
    free(lent);
    return same;
}

int holds_all(uint32_t *lent, uint32_t value, size_t count)
{
    int same = 1;
    for (size_t i = 0; i < count; i++) {
        same = same && lent[i] == value;
    }
    free(lent);
    return same;
}

uint32_t refused(uint32_t number)
{
    return SHAFTGLIMMER_REFUSED + number;
}

shaftglimmer_shape standard(uint32_t q, uint32_t n, uint32_t b)
{
    shaftglimmer_shape shape = {q, n, b, SHAFTGLIMMER_STANDARD};
    return shape;
}

/* Four bytes a digit, low byte first; gives the number of bytes. */
static size_t to_bytes(const uint32_t *digits, size_t count, uint8_t *bytes)
{
    for (size_t i = 0; i < 4 * count; i++) {
        bytes[i] = SHAFTGLIMMER_AS(uint8_t, digits[i / 4] >> (8 * (i % 4)));
    }
    return 4 * count;
}

/* Reads a word of nine digits and compares the answer and the digits that are left. */
static void read_word(const char *name, uint32_t n, uint32_t b, const uint32_t *received, uint32_t answer,
                      const uint32_t *left)
{
    uint8_t bytes[MOST], expected[MOST];
    size_t length = to_bytes(received, 9, bytes);
    to_bytes(left, 9, expected);
    expect(name, shaftglimmer_read_word(3, n, b, bytes, length) == answer && memcmp(bytes, expected, length) == 0);
}

static void read_page(const char *name, uint32_t b, const uint32_t *data, uint32_t answer)
{
    uint8_t bytes[MOST];
    size_t length = to_bytes(data, 4, bytes);
    expect(name, shaftglimmer_read_page(3, 2, b, bytes, length) == answer);
}

static void byte_words(void)
{
    const uint32_t stored[] = {3, 6, 5, 5, 3, 6, 6, 5, 3};
    const uint32_t clean[] = {3, 6, 5, 2, 2, 6, 6, 5, 3};
    const uint32_t masked[] = {3, 6, 5, 2, 4, 6, 6, 5, 3};
    const uint32_t wide[] = {3, 6, 5, 5, 3, 6, 6, 5, 8};
    const uint32_t page[] = {5, 2, 7, 3, 1, 2, 6, 3, 5};
    const uint32_t page_damaged[] = {12, 2, 7, 3, 1, 2, 6, 3, 5};
    read_word("a stored word", 3, 3, stored, 0, stored);
    read_word("clean damage to two digits", 3, 3, clean, 2, stored);
    read_word("two equal damages on one check", 3, 3, masked, refused(SHAFTGLIMMER_REFUSAL_DAMAGE), masked);
    read_word("a digit that is too wide", 3, 3, wide, refused(SHAFTGLIMMER_REFUSAL_WIDTH), wide);
    read_word("a damaged page", 2, 8, page_damaged, 1, page);
    read_word("directions above the order", 4, 8, page_damaged, refused(SHAFTGLIMMER_REFUSAL_SHAPE), page_damaged);
    read_word("no width", 2, 0, page_damaged, refused(SHAFTGLIMMER_REFUSAL_SHAPE), page_damaged);
    read_word("too large a width", 2, 33, page_damaged, refused(SHAFTGLIMMER_REFUSAL_SHAPE), page_damaged);
}

static void byte_pages(void)
{
    const uint32_t two_marks[] = {1, 2, 3, 5};
    const uint32_t three_marks[] = {1, 3, 0, 0};
    const uint32_t tail[] = {0, 1, 4, 9};
    const uint32_t last_page[] = {1023, 0, 0, 0};
    const uint32_t no_page[] = {1024, 0, 0, 0};
    const uint32_t last_function[] = {1, 1, 255, 0};
    const uint32_t no_function[] = {1, 1, 256, 0};
    read_page("page 1 with two marks", 8, two_marks, 1026);
    read_page("too many marks", 8, three_marks, refused(SHAFTGLIMMER_REFUSAL_COUNT));
    read_page("a digit after the last mark", 8, tail, refused(SHAFTGLIMMER_REFUSAL_TAIL));
    read_page("page 1023", 11, last_page, 1023 * 1024);
    read_page("page 1024", 11, no_page, refused(SHAFTGLIMMER_REFUSAL_PAGE));
    read_page("page 1023 in eight bits", 8, last_page, refused(SHAFTGLIMMER_REFUSAL_WIDTH));
    read_page("mark 255", 9, last_function, 1025);
    read_page("mark 256", 9, no_function, refused(SHAFTGLIMMER_REFUSAL_FUNCTION));
    read_page("no width", 0, two_marks, refused(SHAFTGLIMMER_REFUSAL_SHAPE));
}

/* Every length but the right one, of both functions; nothing may be written. */
static void byte_lengths(void)
{
    const uint32_t damaged[] = {12, 2, 7, 3, 1, 2, 6, 3, 5, 0, 0, 0, 0, 0, 0, 0};
    uint8_t bytes[MOST], before[MOST];
    to_bytes(damaged, 16, bytes);
    memcpy(before, bytes, MOST);
    for (size_t length = 0; length <= MOST; length++) {
        if (length != 4 * 9) {
            expect("a word's length", shaftglimmer_read_word(3, 2, 8, bytes, length) == refused(SHAFTGLIMMER_REFUSAL_LENGTH));
        }
        if (length != 4 * 4) {
            expect("a page's length", shaftglimmer_read_page(3, 2, 8, bytes, length) == refused(SHAFTGLIMMER_REFUSAL_LENGTH));
        }
    }
    expect("bytes of a wrong length stay", memcmp(bytes, before, MOST) == 0);
}

/* The functions and the macros give the same lengths of every q and n, and 0 where one of them is not lawful. */
static void lengths(void)
{
    const uint32_t orders = 1u << 3 | 1u << 5 | 1u << 7 | 1u << 11 | 1u << 13 | 1u << 17 | 1u << 19 | 1u << 23 | 1u << 29 | 1u << 31;
    int same = 1, within = 1;
    for (uint32_t q = 0; q < 40; q++) {
        for (uint32_t n = 0; n < 10; n++) {
            shaftglimmer_shape shape = standard(q, n, 32);
            int lawful = q < 32 && (orders >> q & 1) && n >= 2 && n <= q && n <= 8;
            size_t word = shaftglimmer_word_length(&shape), data = shaftglimmer_data_length(&shape);
            size_t scratch = shaftglimmer_scratch_length(&shape);
            same = same && word == (lawful ? SHAFTGLIMMER_WORD_LENGTH(q) : 0) &&
                   data == (lawful ? SHAFTGLIMMER_DATA_LENGTH(q, n) : 0) &&
                   scratch == (lawful ? SHAFTGLIMMER_SCRATCH_LENGTH(q, n) : 0);
            within = within && word <= SHAFTGLIMMER_WORD_MOST && data <= SHAFTGLIMMER_DATA_MOST &&
                     scratch <= SHAFTGLIMMER_SCRATCH_MOST;
        }
    }
    expect("lengths of every q and n", same);
    expect("no length above the most", within);
    shaftglimmer_shape shape = standard(31, 8, 32);
    expect("lengths of (31, 8, 32)", shaftglimmer_word_length(&shape) == 961 && shaftglimmer_data_length(&shape) == 720 &&
                                         shaftglimmer_scratch_length(&shape) == 7471);
    shape.slopes[6] = shape.slopes[0];
    expect("no lengths with a slope that stands twice",
           shaftglimmer_word_length(&shape) == 0 && shaftglimmer_data_length(&shape) == 0 && shaftglimmer_scratch_length(&shape) == 0);
}

/* Each refusal has a text of its own, and is told from what is none. */
static void texts(void)
{
    const char *none = shaftglimmer_refusal_text(0);
    int different = strcmp(none, shaftglimmer_refusal_text(21)) == 0;
    for (uint32_t a = 1; a <= 20; a++) {
        for (uint32_t b = 0; b < a; b++) {
            different = different && strcmp(shaftglimmer_refusal_text(a), shaftglimmer_refusal_text(b)) != 0;
        }
    }
    expect("the refusals' texts differ", different);
    expect("a refusal is told", shaftglimmer_refusal_of(refused(20)) == 20 && shaftglimmer_refusal_of(0x7fffffffu) == 0);
    expect("a count's refusal is told",
           shaftglimmer_refusal_of_count(SHAFTGLIMMER_COUNT_REFUSED + 7) == 7 && shaftglimmer_refusal_of_count(0xffffffffu) == 0);
    expect("a bill's refusal is told", shaftglimmer_refusal_of_bill(SHAFTGLIMMER_BILL_REFUSED + 19) == 19 &&
                                           shaftglimmer_refusal_of_bill(SHAFTGLIMMER_BILL_REFUSED - 1) == 0);
}

/* The text of each number in 96 bytes, and zeros behind it; none where the number is no refusal. */
static void library_texts(void)
{
    const uint32_t none[] = {0, 21, 0x7fffffffu, 0xffffffffu};
    char text[SHAFTGLIMMER_TEXT_LENGTH + 1];
    uint8_t *lent = SHAFTGLIMMER_AS(uint8_t *, malloc(SHAFTGLIMMER_TEXT_LENGTH));
    for (uint32_t number = 1; number <= 20; number++) {
        memset(text, 0, sizeof text);
        strcpy(text, shaftglimmer_refusal_text(number));
        memset(lent, 77, SHAFTGLIMMER_TEXT_LENGTH);
        expect("a refusal's text", shaftglimmer_text(number, lent, SHAFTGLIMMER_TEXT_LENGTH) == strlen(text) &&
                                       memcmp(lent, text, SHAFTGLIMMER_TEXT_LENGTH) == 0);
    }
    memset(text, 0, sizeof text);
    for (size_t i = 0; i < 4; i++) {
        memset(lent, 77, SHAFTGLIMMER_TEXT_LENGTH);
        expect("no text", shaftglimmer_text(none[i], lent, SHAFTGLIMMER_TEXT_LENGTH) == 0 &&
                              memcmp(lent, text, SHAFTGLIMMER_TEXT_LENGTH) == 0);
    }
    memset(lent, 77, SHAFTGLIMMER_TEXT_LENGTH);
    memset(text, 77, sizeof text);
    for (size_t length = 0; length < SHAFTGLIMMER_TEXT_LENGTH; length++) {
        expect("texts: length", shaftglimmer_text(4, lent, length) == refused(SHAFTGLIMMER_REFUSAL_LENGTH));
    }
    expect("bytes of a wrong length stay", memcmp(lent, text, SHAFTGLIMMER_TEXT_LENGTH) == 0);
    free(lent);
}

/* The header and the library are of one version, and its text and its number are the same. */
static void version(void)
{
    const uint32_t number = SHAFTGLIMMER_VERSION_NUMBER;
    char text[40];
    snprintf(text, sizeof text, "%u.%u.%u", number / 10000, number / 100 % 100, number % 100);
    expect("the version", shaftglimmer_version() == number && strcmp(text, SHAFTGLIMMER_VERSION) == 0);
}

int main(void)
{
    version();
    library_texts();
    lines();
    byte_words();
    byte_pages();
    byte_lengths();
    lengths();
    texts();
    words();
    cells();
    pages();
    sessions();
    reports();
    printf("C: %d passed, %d failed\n", passed, failed);
    return failed != 0;
}
