/*
 * A cable driver that gets many words at a time, up to 64 in one call: words from standard input, four bytes a
 * digit, low byte first, and q, n and b in front of them. The way of reading is 0 clean, 1 by vote or 2, which
 * undoes two wrong digits even where they cancel.
 *
 *     driver WAY < words
 */
#include "input.h"

/* What became of the words of a bundle. A refused one is named, and the others are counted all the same. */
static int tell(const uint32_t *outcomes, size_t words, size_t before)
{
    size_t numbers[3] = {0, 0, 0};
    int status = 0;
    for (size_t i = 0; i < words; i++) {
        const uint32_t *outcome = outcomes + SHAFTGLIMMER_OUTCOME * i;
        numbers[outcome[0]]++;
        if (outcome[0] == SHAFTGLIMMER_OUTCOME_REFUSED) {
            status = refused_word(before + i + 1, outcome[1]);
        }
    }
    printf("%zu words: %zu taken, %zu again, %zu refused\n", words, numbers[SHAFTGLIMMER_OUTCOME_TAKEN],
           numbers[SHAFTGLIMMER_OUTCOME_AGAIN], numbers[SHAFTGLIMMER_OUTCOME_REFUSED]);
    return status;
}

/* Bundle after bundle, until the words end. */
static int deliver(shaftglimmer_session *session, uint32_t way)
{
    static uint32_t words[SHAFTGLIMMER_BUNDLE * SHAFTGLIMMER_WORD_MOST], scratch[SHAFTGLIMMER_SCRATCH_MOST];
    uint32_t outcomes[SHAFTGLIMMER_OUTCOMES];
    size_t digits = shaftglimmer_word_length(&session->shape), room = shaftglimmer_scratch_length(&session->shape);
    size_t before = 0, bytes;
    int status = 0;
    while ((bytes = read_values(stdin, words, SHAFTGLIMMER_BUNDLE * digits)) >= 4 * digits) {
        size_t count = bytes / (4 * digits);
        uint32_t number = shaftglimmer_refusal_of(shaftglimmer_arrive_all(session, way, words, count * digits, outcomes,
                                                                          SHAFTGLIMMER_OUTCOMES, scratch, room));
        if (number != 0) {
            return refused("a bundle", number);
        }
        status |= tell(outcomes, count, before);
        before += count;
        if (bytes % (4 * digits) != 0) {
            break;
        }
    }
    return bytes % (4 * digits) == 0 ? status : complain("standard input", "ends within a word");
}

int main(int argc, char **argv)
{
    shaftglimmer_shape shape;
    shaftglimmer_session session;
    if (argc != 2 || strlen(argv[1]) != 1 || argv[1][0] < '0' || argv[1][0] > '9') {
        return complain("usage", "driver WAY < words, where WAY is 0, 1 or 2");
    }
    if (!read_shape(stdin, &shape)) {
        return complain("standard input", "has no shape");
    }
    uint32_t number = shaftglimmer_refusal_of(shaftglimmer_fresh(&shape, &session));
    if (number != 0) {
        return refused("standard input", number);
    }
    int status = deliver(&session, (uint32_t)(argv[1][0] - '0'));
    printf("%" PRIu32 " pages, waiting for page %" PRIu32 "\n", session.pages, session.lowest);
    return status;
}
