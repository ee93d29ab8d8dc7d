/*
 * Makes the binary files of data/: live.words, driver.words and energy.session.
 *
 *     make_data FOLDER
 */
#include "input.h"

#include <errno.h>

enum { DIGITS = 25, HEAD = 3 };

static const shaftglimmer_shape small = {5, 3, 16, SHAFTGLIMMER_STANDARD}, shipped = {17, 4, 32, SHAFTGLIMMER_STANDARD};

static int save(const char *folder, const char *name, const void *content, size_t size)
{
    char path[4096];
    snprintf(path, sizeof path, "%s/%s", folder, name);
    FILE *file = fopen(path, "wb");
    if (file == NULL) {
        return complain(path, strerror(errno));
    }
    int written = fwrite(content, size, 1, file) == 1;
    return fclose(file) == 0 && written ? 0 : complain(path, "can't be written");
}

/* The stored word of a page whose marks are `first`, `first` + `step` and so on, modulo 256. */
static int make_word(const shaftglimmer_shape *shape, uint32_t page, uint32_t count, uint32_t first, uint32_t step, uint32_t *word)
{
    static uint32_t marks[SHAFTGLIMMER_DATA_MOST], data[SHAFTGLIMMER_DATA_MOST], scratch[SHAFTGLIMMER_SCRATCH_MOST];
    size_t length = shaftglimmer_data_length(shape), room = shaftglimmer_scratch_length(shape);
    for (uint32_t i = 0; i < count; i++) {
        marks[i] = (first + step * i) % SHAFTGLIMMER_FUNCTIONS;
    }
    uint32_t answer = shaftglimmer_write_page(shape, page, marks, count, data, length);
    if (answer == 0) {
        answer = shaftglimmer_encode(shape, data, length, word, shaftglimmer_word_length(shape), scratch, room);
    }
    return answer == 0 ? 0 : refused("a page", shaftglimmer_refusal_of(answer));
}

/* Eight words of six pages. Every second word has a wrong digit, and every fourth two. */
static int make_live(const char *folder)
{
    const uint32_t pages[] = {2, 0, 1, 1, 4, 3, 0, 5};
    uint32_t values[HEAD + 8 * DIGITS] = {small.q, small.n, small.b};
    for (uint32_t i = 0; i < 8; i++) {
        uint32_t *word = values + HEAD + DIGITS * i;
        if (make_word(&small, pages[i], 1 + pages[i], 40 * pages[i], 3, word) != 0) {
            return 1;
        }
        word[3 * i] ^= i % 2 == 1 ? 0x1234 : 0;
        word[24 - i] ^= i % 4 == 3 ? 0x0101 : 0;
    }
    return save(folder, "live.words", values, sizeof values);
}

/* 66 words of 60 pages. Every sixth has equal damage to two digits of a row, and word 21 has three wrong digits. */
static int make_driver(const char *folder)
{
    static uint32_t values[HEAD + 66 * DIGITS];
    values[0] = small.q;
    values[1] = small.n;
    values[2] = small.b;
    for (uint32_t i = 0; i < 66; i++) {
        uint32_t *word = values + HEAD + DIGITS * i, page = 7 * i % 60;
        if (make_word(&small, page, page % 11, page, 1, word) != 0) {
            return 1;
        }
        word[5] ^= i % 6 == 3 ? 0x0ff0 : 0;
        word[8] ^= i % 6 == 3 ? 0x0ff0 : 0;
        word[12] ^= i == 20 ? 1 : 0;
        word[13] ^= i == 20 ? 2 : 0;
        word[19] ^= i == 20 ? 4 : 0;
    }
    return save(folder, "driver.words", values, sizeof values);
}

/* A session of the shipped shape after three pages. */
static int make_session(const char *folder)
{
    static uint32_t word[SHAFTGLIMMER_WORD_LENGTH(17)], scratch[SHAFTGLIMMER_SCRATCH_LENGTH(17, 4)];
    uint32_t outcome[SHAFTGLIMMER_OUTCOME];
    shaftglimmer_session session;
    uint32_t number = shaftglimmer_refusal_of(shaftglimmer_fresh(&shipped, &session));
    if (number != 0) {
        return refused("a session", number);
    }
    for (uint32_t i = 0; i < 3; i++) {
        if (make_word(&shipped, i, 60 - 10 * i, 16 * i, 3 + 4 * i, word) != 0) {
            return 1;
        }
        shaftglimmer_arrive(&session, SHAFTGLIMMER_WAY_CLEAN, word, sizeof word / 4, outcome, scratch, sizeof scratch / 4);
        if (outcome[0] != SHAFTGLIMMER_OUTCOME_TAKEN) {
            return refused_word(i + 1, outcome[1]);
        }
    }
    return save(folder, "energy.session", &session, sizeof session);
}

int main(int argc, char **argv)
{
    if (argc != 2) {
        return complain("usage", "make_data FOLDER");
    }
    return make_live(argv[1]) | make_driver(argv[1]) | make_session(argv[1]);
}
