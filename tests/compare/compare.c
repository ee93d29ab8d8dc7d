/* Two builds of the library, before_.. and after_.., on the same words in turns: the ratio of their times, for each shape and kind of work. */
#define _POSIX_C_SOURCE 199309L
#include <stdint.h>
#include <stdio.h>
#include <stdlib.h>
#include <string.h>
#include <time.h>

typedef uint32_t decode_t(const uint32_t *, uint32_t *, size_t);
typedef uint32_t encode_t(const uint32_t *, const uint32_t *, size_t, uint32_t *, size_t, uint32_t *, size_t);
decode_t before_shaftglimmer_decode, after_shaftglimmer_decode;
encode_t before_shaftglimmer_encode, after_shaftglimmer_encode;

struct build { decode_t *decode; encode_t *encode; };
static const struct build builds[2] = {
    {before_shaftglimmer_decode, before_shaftglimmer_encode}, {after_shaftglimmer_decode, after_shaftglimmer_encode}};

enum kind { UNDAMAGED, DAMAGED, REFUSED, WRITE, KINDS };
static const char *const names[KINDS] = {"read, undamaged", "read, damaged", "read, refused", "write"};

enum { WORDS = 1024, ROUNDS = 15, SYMBOLS = 961, SCRATCH = 7471 };
static uint32_t shape[10], stored[WORDS * SYMBOLS], lent[WORDS * SYMBOLS], data[WORDS * SYMBOLS], scratch[SCRATCH];
static size_t q, n, size, room, rows, words;

static uint32_t mask(void) { return shape[2] == 32 ? UINT32_MAX : (1u << shape[2]) - 1; }

static uint32_t random_number(void) {
    static uint64_t state = 88172645463325252u;
    state ^= state << 13;
    state ^= state >> 7;
    state ^= state << 17;
    return (uint32_t)(state >> 16);
}

static uint32_t error(void) {
    uint32_t e = random_number() & mask();
    return e ? e : 1;
}

/* k symbols of a stored word changed; the first two alike and in one row where they are to hide from its check */
static void damage(uint32_t *word, size_t k, int hide) {
    size_t places[16], done = 0;
    if (hide) {
        size_t row = random_number() % q, column = random_number() % q;
        uint32_t e = error();
        places[0] = row * q + column;
        places[1] = row * q + (column + 1 + random_number() % (q - 1)) % q;
        word[places[0]] ^= e;
        word[places[1]] ^= e;
        done = 2;
    }
    while (done < k) {
        size_t place = random_number() % size, seen = 0;
        for (size_t i = 0; i < done; i++) seen |= places[i] == place;
        if (seen) continue;
        word[place] ^= error();
        places[done++] = place;
    }
}

/* what reading must answer is tried before a word is kept */
static void make(enum kind kind) {
    static uint32_t whole[SYMBOLS], tried[SYMBOLS];
    for (size_t i = 0; i < words; i++) {
        uint32_t *word = stored + i * size, *symbols = data + i * room, answer;
        for (size_t k = 0; k < room; k++) symbols[k] = random_number() & mask();
        if (after_shaftglimmer_encode(shape, symbols, room, whole, size, scratch, rows) != 0) exit(1);
        do {
            memcpy(word, whole, size * sizeof *word);
            if (kind == DAMAGED) damage(word, 1 + i % (n - 1), 0);
            if (kind == REFUSED) damage(word, 2 + i % n, 2 + i % n < n);
            memcpy(tried, word, size * sizeof *word);
            answer = after_shaftglimmer_decode(shape, tried, size);
        } while (kind == DAMAGED ? answer != 1 + i % (n - 1) : kind == REFUSED && answer != (1u << 31) + 4);
    }
}

static double now(void) {
    struct timespec t;
    clock_gettime(CLOCK_MONOTONIC, &t);
    return 1e9 * (double)t.tv_sec + (double)t.tv_nsec;
}

/* nanoseconds a word: the shortest of at least 6 runs over all words and 1 ms of work */
static double turn(const struct build *build, enum kind kind) {
    double best = 1e18, spent = 0;
    uint32_t answers = 0;
    for (int run = 0; run < 6 || spent < 1e6; run++) {
        if (kind != WRITE) memcpy(lent, stored, words * size * sizeof *lent);
        double start = now();
        for (size_t i = 0; i < words; i++)
            answers += kind == WRITE ? build->encode(shape, data + i * room, room, lent + i * size, size, scratch, rows)
                                     : build->decode(shape, lent + i * size, size);
        double took = now() - start;
        spent += took;
        if (took < best) best = took;
    }
    if (answers == UINT32_MAX) puts("");
    return best / (double)words;
}

static int rising(const void *a, const void *b) {
    double x = *(const double *)a, y = *(const double *)b;
    return (x > y) - (x < y);
}

int main(void) {
    static const uint32_t shapes[][3] = {{17, 4, 32}, {3, 2, 8}, {5, 3, 16}, {11, 5, 32}, {31, 8, 32}, {31, 2, 16}};
    for (size_t s = 0; s < sizeof shapes / sizeof *shapes; s++) {
        memcpy(shape, shapes[s], sizeof shapes[s]);
        for (uint32_t k = 0; k < 7; k++) shape[3 + k] = k;
        q = shape[0], n = shape[1], size = q * q, room = (q - 1) * (q + 1 - n);
        rows = (n * q - n + 1) * ((size + 31) / 32);
        words = 131072 / (4 * size) < WORDS ? 131072 / (4 * size) : WORDS;
        for (enum kind kind = 0; kind < KINDS; kind++) {
            double ratios[ROUNDS];
            make(kind);
            for (int r = 0; r < ROUNDS; r++) {
                double first = turn(&builds[r % 2], kind), second = turn(&builds[1 - r % 2], kind);
                ratios[r] = r % 2 ? first / second : second / first;
            }
            qsort(ratios, ROUNDS, sizeof *ratios, rising);
            printf("(%u, %u, %u)|%s|%.4f\n", shape[0], shape[1], shape[2], names[kind], ratios[ROUNDS / 2]);
        }
    }
    return 0;
}
