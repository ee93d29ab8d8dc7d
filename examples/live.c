/*
 * A capture that comes in live: words from standard input, four bytes a digit, low byte first, and q, n and b in
 * front of them. The session is kept in a file. So a capture may be broken off and resumed, and words that come a
 * second time are not counted twice.
 *
 *     live SESSION < words
 */
#include "input.h"

#include <errno.h>

/* The session in the file. It comes from elsewhere, so it is tested: a count query makes all the tests. */
static int resume(FILE *file, const char *name, const shaftglimmer_shape *shape, shaftglimmer_session *session)
{
    int whole = fread(session, sizeof *session, 1, file) == 1 && getc(file) == EOF;
    fclose(file);
    if (!whole) {
        return complain(name, "is no saved session");
    }
    uint32_t number = shaftglimmer_refusal_of_count(shaftglimmer_count(session, 0));
    if (number != 0) {
        return refused(name, number);
    }
    if (memcmp(&session->shape, shape, sizeof *shape) != 0) {
        return complain(name, "is of another shape");
    }
    printf("resumed: %" PRIu32 " pages, waiting for page %" PRIu32 "\n", session->pages, session->lowest);
    return 0;
}

static int begin(const char *name, const shaftglimmer_shape *shape, shaftglimmer_session *session)
{
    FILE *file = fopen(name, "rb");
    if (file != NULL) {
        return resume(file, name, shape, session);
    }
    if (errno != ENOENT) {
        return complain(name, strerror(errno));
    }
    uint32_t number = shaftglimmer_refusal_of(shaftglimmer_fresh(shape, session));
    return number == 0 ? 0 : refused("standard input", number);
}

static int save(const char *name, const shaftglimmer_session *session)
{
    FILE *file = fopen(name, "wb");
    if (file == NULL) {
        return complain(name, strerror(errno));
    }
    int written = fwrite(session, sizeof *session, 1, file) == 1;
    return fclose(file) == 0 && written ? 0 : complain(name, "can't be written");
}

/* A line of progress: the session's two figures say how far the capture has come. */
static int tell(const shaftglimmer_session *session, size_t word, const uint32_t *outcome)
{
    if (outcome[0] == SHAFTGLIMMER_OUTCOME_REFUSED) {
        return refused_word(word, outcome[1]);
    }
    printf("page %" PRIu32 " %s, %" PRIu32 " digits restored: %" PRIu32 " pages, waiting for page %" PRIu32 "\n", outcome[1],
           outcome[0] == SHAFTGLIMMER_OUTCOME_TAKEN ? "taken" : "again", outcome[2], session->pages, session->lowest);
    return 0;
}

int main(int argc, char **argv)
{
    static uint32_t word[SHAFTGLIMMER_WORD_MOST], scratch[SHAFTGLIMMER_SCRATCH_MOST];
    uint32_t outcome[SHAFTGLIMMER_OUTCOME];
    shaftglimmer_shape shape;
    shaftglimmer_session session;
    if (argc != 2) {
        return complain("usage", "live SESSION < words");
    }
    if (!read_shape(stdin, &shape)) {
        return complain("standard input", "has no shape");
    }
    if (begin(argv[1], &shape, &session) != 0) {
        return 1;
    }
    size_t digits = shaftglimmer_word_length(&shape), room = shaftglimmer_scratch_length(&shape), bytes;
    int status = 0;
    for (size_t i = 1; (bytes = read_values(stdin, word, digits)) == 4 * digits; i++) {
        shaftglimmer_arrive(&session, SHAFTGLIMMER_WAY_CLEAN, word, digits, outcome, scratch, room);
        status |= tell(&session, i, outcome);
    }
    if (bytes != 0) {
        status = complain("standard input", "ends within a word");
    }
    return save(argv[1], &session) | status;
}
