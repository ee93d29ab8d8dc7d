/*
 * The host of a plug-in that restores words by its own means. The plug-in need not be trusted: each word that it
 * proposes is checked against the received one. Yes comes only for the word that the library itself would give.
 * Otherwise the received word is decoded here. So a wrong plug-in can cost time, but never a count.
 *
 *     plugin < text
 *
 * The text has q, n and b in a line, then pairs of words, a line each, first as received, then as proposed. Empty lines
 * are passed over.
 */
#include "input.h"

static uint32_t received[SHAFTGLIMMER_LINE_VALUES], proposed[SHAFTGLIMMER_LINE_VALUES];
static uint32_t data[SHAFTGLIMMER_DATA_MOST], marks[SHAFTGLIMMER_DATA_MOST], scratch[SHAFTGLIMMER_SCRATCH_MOST];

/* Leaves the stored word in `received`. */
static int restore(const shaftglimmer_shape *shape, size_t digits, size_t word)
{
    uint32_t answer = shaftglimmer_check(shape, received, digits, proposed, digits);
    if (answer == 1) {
        memcpy(received, proposed, 4 * digits);
        printf("word %zu: as proposed\n", word);
        return 0;
    }
    if (shaftglimmer_refusal_of(answer) != 0) {
        refused_word(word, shaftglimmer_refusal_of(answer));
    }
    answer = shaftglimmer_decode(shape, received, digits);
    if (shaftglimmer_refusal_of(answer) != 0) {
        return refused_word(word, shaftglimmer_refusal_of(answer));
    }
    printf("word %zu: not as proposed, %" PRIu32 " digits restored here\n", word, answer);
    return 0;
}

/* The page in the restored word. */
static int show(const shaftglimmer_shape *shape, size_t digits, size_t word)
{
    size_t length = shaftglimmer_data_length(shape), room = shaftglimmer_scratch_length(shape);
    uint32_t answer = shaftglimmer_extract(shape, received, digits, data, length, scratch, room);
    if (answer == 0) {
        answer = shaftglimmer_parse_page(shape, data, length);
    }
    if (shaftglimmer_refusal_of(answer) != 0) {
        return refused_word(word, shaftglimmer_refusal_of(answer));
    }
    printf("    page %" PRIu32 ", marks", answer / 1024);
    print_numbers(marks, shaftglimmer_marks(shape, data, length, marks, length));
    return 0;
}

int main(void)
{
    shaftglimmer_shape shape;
    if (!read_text_shape(stdin, &shape)) {
        return complain("standard input", "has no shape");
    }
    size_t digits = shaftglimmer_word_length(&shape);
    if (digits == 0) {
        return refused("standard input", SHAFTGLIMMER_REFUSAL_SHAPE);
    }
    uint32_t count;
    int status = 0;
    for (size_t i = 1; (count = read_line(stdin, received)) != 0; i++) {
        if (count != digits || read_line(stdin, proposed) != digits) {
            return complain("standard input", "has a word or a proposal that is not whole");
        }
        status |= restore(&shape, digits, i) || show(&shape, digits, i);
    }
    return status;
}
