/*
 * Dead cells: a probe's memory test has named the cells of each word that are gone. The digits there are not
 * believed, and the others say what they were. Up to 2 * n - 1 dead cells of a word never leave a choice. If others
 * are wrong too, the word is restored as long as twice as many as these and the dead cells are fewer than 2 * n.
 *
 *     dead_cells < text
 *
 * The text has q, n and b in a line, then two lines for each word. The first says how many of its cells are gone, and
 * their places, which count from 0 and rise. The second has the digits of the word. Empty lines are passed over.
 */
#include "input.h"

/* Fills word number i in, or restores it if other digits are wrong too, and shows it. If it is refused, it stays as it came. */
static int fill(const shaftglimmer_shape *shape, size_t i, const uint32_t *places, size_t count, uint32_t *word, size_t digits)
{
    static uint32_t scratch[SHAFTGLIMMER_SCRATCH_MOST];
    size_t room = shaftglimmer_scratch_length(shape);
    const char *beside = "";
    uint32_t answer = shaftglimmer_fill(shape, places, count, word, digits, scratch, room);
    if (shaftglimmer_refusal_of(answer) == SHAFTGLIMMER_REFUSAL_UNFILLABLE) {
        answer = shaftglimmer_restore(shape, places, count, word, digits, scratch, room);
        beside = " and others damaged";
    }
    if (shaftglimmer_refusal_of(answer) != 0) {
        return refused_word(i, shaftglimmer_refusal_of(answer));
    }
    printf("word %zu: %zu cells gone%s, %" PRIu32 " digits were wrong:", i, count, beside, answer);
    print_numbers(word, digits);
    return 0;
}

int main(void)
{
    static uint32_t list[SHAFTGLIMMER_LINE_VALUES], word[SHAFTGLIMMER_LINE_VALUES];
    shaftglimmer_shape shape;
    if (!read_text_shape(stdin, &shape)) {
        return complain("standard input", "has no shape");
    }
    size_t digits = shaftglimmer_word_length(&shape);
    if (digits == 0) {
        return refused("standard input", SHAFTGLIMMER_REFUSAL_SHAPE);
    }
    uint32_t count;
    int status = 0;
    for (size_t i = 1; (count = read_line(stdin, list)) != 0; i++) {
        if (shaftglimmer_refusal_of(count) != 0 || list[0] != count - 1) {
            return complain("standard input", "has no list of cells where one is due");
        }
        if (read_line(stdin, word) != digits) {
            return complain("standard input", "has a word that is not whole");
        }
        status |= fill(&shape, i, list + 1, list[0], word, digits);
    }
    return status;
}
