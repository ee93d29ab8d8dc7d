/* Words: writing, extraction, the four readers, dead cells, proposals. Shapes of order 3, values of the rules. */
#include "expect.h"

enum { N = 9, SCRATCH_2 = 5, SCRATCH_3 = 7 };

/* P4's stored word and data, P3's, and P7's, which is page 1 with marks 3 and 5. */
static const uint32_t p4[] = {3, 6, 5, 5, 3, 6, 6, 5, 3}, p4_data[] = {5, 3};
static const uint32_t p3[] = {7, 5, 2, 6, 3, 5, 1, 6, 7}, p3_data[] = {3, 5, 6, 7};
static const uint32_t p7[] = {5, 2, 7, 3, 1, 2, 6, 3, 5}, p7_data[] = {1, 2, 3, 5};

/* P4's word with the damage of P5 and of P6, and with three wrong digits. */
static const uint32_t p5[] = {3, 6, 5, 2, 2, 6, 6, 5, 3};
static const uint32_t p6[] = {3, 6, 5, 2, 4, 6, 6, 5, 3};
static const uint32_t three[] = {2, 6, 5, 4, 3, 6, 7, 5, 3};

static void write_word(const char *name, shaftglimmer_shape shape, const uint32_t *data, size_t length, size_t room,
                       const uint32_t *word)
{
    uint32_t *lent = lend(data, length), *scratch = lend_unset(room), *written = lend_unset(N);
    uint32_t answer = shaftglimmer_encode(&shape, lent, length, written, N, scratch, room);
    int left = holds(lent, data, length) & holds_all(scratch, 0, room) & holds(written, word, N);
    expect(name, answer == 0 && left);
}

/* Word and data are as they were; the scratch has this value everywhere, after 9. */
static void write_refused(const char *name, shaftglimmer_shape shape, const uint32_t *data, size_t length, size_t room,
                          uint32_t number, uint32_t scratch_left)
{
    uint32_t *lent = lend(data, length), *scratch = lend_all(9, room), *written = lend(p5, N);
    uint32_t answer = shaftglimmer_encode(&shape, lent, length, written, N, scratch, room);
    int left = holds(lent, data, length) & holds_all(scratch, scratch_left, room) & holds(written, p5, N);
    expect(name, answer == refused(number) && left);
}

static void writing(void)
{
    const uint32_t wide[] = {5, 8};
    shaftglimmer_shape sloped = standard(3, 3, 3);
    write_word("P3 is written", standard(3, 2, 3), p3_data, 4, SCRATCH_2, p3);
    write_word("P4 is written", standard(3, 3, 3), p4_data, 2, SCRATCH_3, p4);
    write_word("P7 is written", standard(3, 2, 8), p7_data, 4, SCRATCH_2, p7);
    write_refused("writing: width", standard(3, 3, 3), wide, 2, SCRATCH_3, SHAFTGLIMMER_REFUSAL_WIDTH, 0);
    write_refused("writing: length of the data", standard(3, 3, 3), p3_data, 3, SCRATCH_3, SHAFTGLIMMER_REFUSAL_LENGTH, 9);
    write_refused("writing: length of the scratch", standard(3, 3, 3), p4_data, 2, 9, SHAFTGLIMMER_REFUSAL_LENGTH, 9);
    write_refused("writing: shape", standard(9, 2, 3), p4_data, 2, SCRATCH_3, SHAFTGLIMMER_REFUSAL_SHAPE, 9);
    sloped.slopes[0] = 1;
    write_refused("writing: a slope that stands twice", sloped, p4_data, 2, SCRATCH_3, SHAFTGLIMMER_REFUSAL_SLOPE, 9);
    sloped.slopes[0] = 3;
    write_refused("writing: a slope that is not below q", sloped, p4_data, 2, SCRATCH_3, SHAFTGLIMMER_REFUSAL_SLOPE, 9);
}

static void extract(const char *name, shaftglimmer_shape shape, const uint32_t *word, size_t count, uint32_t expected,
                    const uint32_t *data, uint32_t scratch_left)
{
    uint32_t *lent = lend(word, count), *scratch = lend_all(9, SCRATCH_2), *out = lend_all(77, 4);
    uint32_t answer = shaftglimmer_extract(&shape, lent, count, out, 4, scratch, SCRATCH_2);
    int left = holds(lent, word, count) & holds_all(scratch, scratch_left, SCRATCH_2);
    left &= data == NULL ? holds_all(out, 77, 4) : holds(out, data, 4);
    expect(name, answer == expected && left);
}

static void extraction(void)
{
    const uint32_t any[] = {255, 255, 255, 255, 9, 8, 255, 7, 6}, any_data[] = {9, 8, 7, 6};
    extract("P7's data are extracted", standard(3, 2, 8), p7, N, 0, p7_data, 0);
    extract("data of any word are extracted", standard(3, 2, 8), any, N, 0, any_data, 0);
    extract("extraction: width", standard(3, 2, 2), p7, N, refused(SHAFTGLIMMER_REFUSAL_WIDTH), NULL, 0);
    extract("extraction: length", standard(3, 2, 8), p7, 8, refused(SHAFTGLIMMER_REFUSAL_LENGTH), NULL, 9);
    extract("extraction: shape", standard(3, 4, 8), p7, N, refused(SHAFTGLIMMER_REFUSAL_SHAPE), NULL, 9);
}

typedef uint32_t reader(const shaftglimmer_shape *shape, uint32_t *word, size_t word_length);

static void read_by(const char *name, reader *read, shaftglimmer_shape shape, const uint32_t *word, size_t count,
                    uint32_t expected, const uint32_t *left)
{
    uint32_t *lent = lend(word, count);
    uint32_t answer = read(&shape, lent, count);
    expect(name, holds(lent, left, count) && answer == expected);
}

/* What each reader makes of a stored word, one wrong digit, P5, P6 and three wrong digits. */
static void reading(void)
{
    reader *clean = shaftglimmer_decode, *vote = shaftglimmer_decode_majority;
    reader *two = shaftglimmer_decode_two, *nearest = shaftglimmer_decode_nearest;
    const uint32_t one[] = {3, 6, 5, 5, 3, 6, 6, 5, 2};
    shaftglimmer_shape shape = standard(3, 3, 3);
    read_by("clean: stored", clean, shape, p4, N, 0, p4);
    read_by("clean: P5", clean, shape, p5, N, 2, p4);
    read_by("clean: P6", clean, shape, p6, N, refused(SHAFTGLIMMER_REFUSAL_DAMAGE), p6);
    read_by("vote: stored", vote, shape, p4, N, 0, p4);
    read_by("vote: one digit", vote, shape, one, N, 1, p4);
    read_by("vote: P6", vote, shape, p6, N, refused(SHAFTGLIMMER_REFUSAL_NO_MAJORITY), p6);
    read_by("two: stored", two, shape, p4, N, 0, p4);
    read_by("two: P5", two, shape, p5, N, 2, p4);
    read_by("two: P6", two, shape, p6, N, 2, p4);
    read_by("two: three digits", two, shape, three, N, refused(SHAFTGLIMMER_REFUSAL_BEYOND_TWO), three);
    read_by("nearest: stored", nearest, shape, p4, N, 0, p4);
    read_by("nearest: P5", nearest, shape, p5, N, 2, p4);
    read_by("nearest: P6", nearest, shape, p6, N, 2, p4);
    read_by("nearest: three digits", nearest, shape, three, N, refused(SHAFTGLIMMER_REFUSAL_FAR), three);
}

/* The tests that all readers make, and where 16 stands among them. */
static void reading_refused(void)
{
    reader *const readers[] = {shaftglimmer_decode, shaftglimmer_decode_majority, shaftglimmer_decode_two, shaftglimmer_decode_nearest};
    shaftglimmer_shape sloped = standard(3, 3, 3);
    sloped.slopes[1] = 0;
    for (int i = 0; i < 4; i++) {
        uint32_t few = i == 2 ? SHAFTGLIMMER_REFUSAL_DIRECTIONS : SHAFTGLIMMER_REFUSAL_LENGTH;
        read_by("reading: shape", readers[i], standard(3, 3, 33), p5, N, refused(SHAFTGLIMMER_REFUSAL_SHAPE), p5);
        read_by("reading: slope", readers[i], sloped, p5, N, refused(SHAFTGLIMMER_REFUSAL_SLOPE), p5);
        read_by("reading: length", readers[i], standard(3, 3, 3), p5, 8, refused(SHAFTGLIMMER_REFUSAL_LENGTH), p5);
        read_by("reading: no length", readers[i], standard(3, 3, 3), p5, 0, refused(SHAFTGLIMMER_REFUSAL_LENGTH), p5);
        read_by("reading: width", readers[i], standard(3, 3, 2), p5, N, refused(SHAFTGLIMMER_REFUSAL_WIDTH), p5);
        read_by("reading: two directions, length", readers[i], standard(3, 2, 3), p5, 8, refused(few), p5);
    }
}

void words(void)
{
    writing();
    extraction();
    reading();
    reading_refused();
}

/* shaftglimmer_fill or shaftglimmer_restore */
typedef uint32_t by_places(const shaftglimmer_shape *shape, const uint32_t *places, size_t places_length,
                           uint32_t *word, size_t word_length, uint32_t *scratch, size_t scratch_length);

static void listed(const char *name, by_places *call, const uint32_t *places, size_t count, const uint32_t *word,
                   uint32_t expected, const uint32_t *left, uint32_t scratch_left, uint32_t b)
{
    shaftglimmer_shape shape = standard(3, 2, b);
    uint32_t *lent_places = lend(places, count), *lent = lend(word, N), *scratch = lend_all(9, SCRATCH_2);
    uint32_t answer = call(&shape, lent_places, count, lent, N, scratch, SCRATCH_2);
    int same = holds(lent_places, places, count) & holds(lent, left, N) & holds_all(scratch, scratch_left, SCRATCH_2);
    expect(name, answer == expected && same);
}

static void fill(const char *name, const uint32_t *places, size_t count, const uint32_t *word, uint32_t expected,
                 const uint32_t *left, uint32_t scratch_left, uint32_t b)
{
    listed(name, shaftglimmer_fill, places, count, word, expected, left, scratch_left, b);
}

static void restore(const char *name, const uint32_t *places, size_t count, const uint32_t *word, uint32_t expected,
                    const uint32_t *left, uint32_t scratch_left, uint32_t b)
{
    listed(name, shaftglimmer_restore, places, count, word, expected, left, scratch_left, b);
}

static void filling(void)
{
    const uint32_t places[] = {0, 4, 8}, falling[] = {4, 0}, beyond[] = {0, 9}, all[] = {0, 1, 2, 3, 4, 5, 6, 7, 8};
    const uint32_t gone[] = {255, 2, 7, 3, 99, 2, 6, 3, 5}, wrong[] = {255, 2, 7, 3, 99, 3, 6, 3, 5};
    fill("three dead cells, two of them wrong", places, 3, gone, 2, p7, 0, 8);
    fill("no dead cell", places, 0, p7, 0, p7, 0, 8);
    fill("no dead cell, a damaged word", places, 0, gone, refused(SHAFTGLIMMER_REFUSAL_UNFILLABLE), gone, 0, 8);
    fill("a wrong digit elsewhere", places, 2, wrong, refused(SHAFTGLIMMER_REFUSAL_UNFILLABLE), wrong, 0, 8);
    fill("every cell dead", all, 9, gone, refused(SHAFTGLIMMER_REFUSAL_AMBIGUOUS), gone, 0, 8);
    fill("places that fall", falling, 2, gone, refused(SHAFTGLIMMER_REFUSAL_PLACES), gone, 0, 8);
    fill("a place beyond the word", beyond, 2, gone, refused(SHAFTGLIMMER_REFUSAL_PLACES), gone, 0, 8);
    fill("dead cells: width", places, 3, gone, refused(SHAFTGLIMMER_REFUSAL_WIDTH), gone, 0, 7);
    fill("dead cells: shape", places, 3, gone, refused(SHAFTGLIMMER_REFUSAL_SHAPE), gone, 9, 0);
}

static void restoring(void)
{
    const uint32_t places[] = {0, 4, 8}, falling[] = {4, 0}, beyond[] = {0, 9}, all[] = {0, 1, 2, 3, 4, 5, 6, 7, 8};
    const uint32_t gone[] = {255, 2, 7, 3, 99, 2, 6, 3, 5}, one[] = {255, 2, 7, 3, 1, 2, 6, 3, 5};
    restore("restored: three dead cells, two of them wrong", places, 3, gone, 2, p7, 0, 8);
    restore("restored: a dead cell and a wrong digit", places, 1, gone, 2, p7, 0, 8);
    restore("restored: no dead cell, a wrong digit", places, 0, one, 1, p7, 0, 8);
    restore("restored: no dead cell", places, 0, p7, 0, p7, 0, 8);
    restore("no dead cell, two wrong digits", places, 0, gone, refused(SHAFTGLIMMER_REFUSAL_FAR), gone, 0, 8);
    restore("restored: every cell dead", all, 9, gone, refused(SHAFTGLIMMER_REFUSAL_AMBIGUOUS), gone, 0, 8);
    restore("restored: places that fall", falling, 2, gone, refused(SHAFTGLIMMER_REFUSAL_PLACES), gone, 0, 8);
    restore("restored: a place beyond the word", beyond, 2, gone, refused(SHAFTGLIMMER_REFUSAL_PLACES), gone, 0, 8);
    restore("restored: width", places, 3, gone, refused(SHAFTGLIMMER_REFUSAL_WIDTH), gone, 0, 7);
    restore("restored: shape", places, 3, gone, refused(SHAFTGLIMMER_REFUSAL_SHAPE), gone, 9, 0);
}

static void check(const char *name, uint32_t b, const uint32_t *received, const uint32_t *proposed, size_t count,
                  uint32_t expected)
{
    shaftglimmer_shape shape = standard(3, 3, b);
    uint32_t *first = lend(received, N), *second = lend(proposed, count);
    uint32_t answer = shaftglimmer_check(&shape, first, N, second, count);
    expect(name, (holds(first, received, N) & holds(second, proposed, count)) && answer == expected);
}

static void look(const char *name, const uint32_t *word, size_t count, uint32_t expected, const uint32_t *numbers)
{
    shaftglimmer_shape shape = standard(3, 3, 3);
    uint32_t *lent = lend(word, N), *looked = lend_all(77, count);
    uint32_t answer = shaftglimmer_looked(&shape, lent, N, looked, count);
    int left = holds(lent, word, N);
    left &= numbers == NULL ? holds_all(looked, 77, count) : holds(looked, numbers, count);
    expect(name, answer == expected && left);
}

void cells(void)
{
    const uint32_t ones[] = {1, 1, 1, 1, 1, 1, 1, 1, 1}, damaged[] = {1, 1, 1, 3, 3, 2, 1, 1, 1};
    const uint32_t wide[] = {3, 6, 5, 5, 3, 6, 6, 5, 8};
    filling();
    restoring();
    check("a right proposal", 3, p5, p4, N, 1);
    check("a proposal that is no stored word", 3, p5, p5, N, 0);
    check("a proposal that masked damage would explain", 3, p6, p4, N, 0);
    check("a proposal that clean damage to three digits would explain", 3, three, p4, N, 0);
    check("proposals: length", 3, p5, p4, 8, refused(SHAFTGLIMMER_REFUSAL_LENGTH));
    check("proposals: width", 3, p5, wide, N, refused(SHAFTGLIMMER_REFUSAL_WIDTH));
    check("proposals: shape", 0, p5, p4, N, refused(SHAFTGLIMMER_REFUSAL_SHAPE));
    look("checks looked at, stored", p4, N, 0, ones);
    look("checks looked at, P5", p5, N, 0, damaged);
    look("checks looked at: length", p5, 8, refused(SHAFTGLIMMER_REFUSAL_LENGTH), NULL);
    look("checks looked at: width", wide, N, refused(SHAFTGLIMMER_REFUSAL_WIDTH), NULL);
}
