/*
 * Shaftglimmer: trace captures read, restored and counted, nothing twice.
 *
 * Words. A word is a square of q * q digits, which are u32 values below 2^b. Digit j stands in row j / q,
 * column j % q; digits, rows and columns count from 0. Each digit is on n checks: one has the digits of its
 * row, and for each of the first n - 1 slopes s one has the digits with the same (column + s * row) % q. In a
 * stored word the XOR of the digits of each check is zero. A stored word carries K = (q - 1) * (q + 1 - n) data
 * digits, which stand in rows n - 1 to q - 1, columns 1 to q - 1, row by row.
 *
 * Damage is what was XORed onto a stored word. It is clean if no check hides it: on every check with a damaged
 * digit the XOR of the damage is not zero. Different stored words differ in at least 2 * n digits. So no two
 * ways of reading give different words for the same one.
 *
 * Pages. The data digits of a page are its number, below 1024, the number of its marks c, at most K - 2, the c
 * marks, and zeros. A mark is the number of a function that was called, 0 to 255. Function 0 is the idle loop:
 * its marks are lawful, and no count has them.
 *
 * Sessions. A session knows which pages have come, and has a count of calls for each function. A word that
 * arrives is read, and its page is taken the first time: its marks are counted. After that it comes again, and
 * nothing is counted twice.
 *
 * Answers. Every function answers every input, with what it is to give or with a refusal, which is a number
 * from 1 to 20. The answer of a refusal is SHAFTGLIMMER_REFUSED plus the number. It is SHAFTGLIMMER_COUNT_REFUSED
 * plus the number from shaftglimmer_count, and SHAFTGLIMMER_BILL_REFUSED plus it from shaftglimmer_bill. Of
 * several faults the first test in the function's list tells. The answers of two functions do not tell a refusal:
 * - shaftglimmer_arrive answers 0 always: test outcome[0] for SHAFTGLIMMER_OUTCOME_REFUSED;
 * - shaftglimmer_marks answers 0 where the page is refused, as for a page without marks: test the answer of
 *   shaftglimmer_parse_page first.
 *
 * Memory. A list is lent as a pointer and its length in elements. Shape, session, outcome and the values of a line
 * always have the same length, so theirs is not handed over. What is read comes first, then what is written, the
 * scratch last.
 *
 * This is the caller's part, and no function can test it:
 * - a pointer is not null, not even where the length is 0, and it is valid for the length that goes with it. The
 *   data() of an empty std::vector may be null, and so may what malloc(0) gives. Pass the address of any variable of
 *   the element's type in its place, with the length 0: nothing there is looked at;
 * - it is aligned for its type, at 4 bytes for u32;
 * - no two things that are lent in one call overlap. So the shape for shaftglimmer_fresh is not the one inside the
 *   session that is made.
 * A refusal leaves all that was lent as it was, the scratch and the values of a line apart. A scratch is working
 * space. What it holds does not matter, and it need not be set. Refusals 1, 18, 11, 16 and 2 leave it as it was. After
 * every other answer it holds zeros.
 *
 * Threads. The library has no state. A call touches what it is lent and nothing else, and keeps no pointer.
 * So any threads may call at once, each with memory of its own; what is only read may be shared.
 *
 * Link with -lshaftglimmer; pkg-config knows the flags. The library is for x86-64.
 */
#ifndef SHAFTGLIMMER_H
#define SHAFTGLIMMER_H

#include <stddef.h>
#include <stdint.h>

#ifdef __cplusplus
extern "C" {
#endif

/* The header's version, as a text and as a number: major * 10000 + minor * 100 + patch. */
#define SHAFTGLIMMER_VERSION "0.1.0"
#define SHAFTGLIMMER_VERSION_NUMBER 100

/* The library's version, as such a number. */
uint32_t shaftglimmer_version(void);

/* A cast, as C and C++ write it. */
#ifdef __cplusplus
#define SHAFTGLIMMER_AS(type, value) static_cast<type>(value)
#else
#define SHAFTGLIMMER_AS(type, value) ((type)(value))
#endif

/* ---- Shapes, sessions and their numbers ---- */

#define SHAFTGLIMMER_SLOPES 7       /* slopes of a shape, whatever n is */
#define SHAFTGLIMMER_PAGES 1024     /* page numbers */
#define SHAFTGLIMMER_FUNCTIONS 256  /* functions, prices, coverage bytes */
#define SHAFTGLIMMER_BUNDLE 64      /* words of a bundle at most */
#define SHAFTGLIMMER_OUTCOME 3      /* values of an outcome */
#define SHAFTGLIMMER_OUTCOMES (SHAFTGLIMMER_OUTCOME * SHAFTGLIMMER_BUNDLE)
#define SHAFTGLIMMER_LINE_VALUES 1024 /* values of a line of text at most */
#define SHAFTGLIMMER_TEXT_LENGTH 96   /* bytes for a refusal's text */

/*
 * The order q is 3, 5, 7, 11, 13, 17, 19, 23, 29 or 31. There are n directions, from 2 to the smaller of q and 8.
 * The width b is 1 to 32. The first n - 1 slopes are below q and differ; the others are not looked at.
 */
typedef struct shaftglimmer_shape {
    uint32_t q, n, b, slopes[SHAFTGLIMMER_SLOPES];
} shaftglimmer_shape;

/* The slopes that most probes have: shaftglimmer_shape shape = {17, 4, 32, SHAFTGLIMMER_STANDARD}; */
#define SHAFTGLIMMER_STANDARD {0, 1, 2, 3, 4, 5, 6}

/*
 * Two figures show how far a capture has come: pages is how many page numbers are yes, and lowest is the first
 * that is no, 1024 if none is. A page number is yes where its value in taken is not 0.
 *
 * A session may be saved as it stands, on a disk for example, and be handed in again. Every function that is
 * given one tests it first: 1 and 18, its shape; 11, whether the two figures are what taken says. These tests
 * can't see a changed count, another shape that is lawful too, nor changed page numbers that leave both figures
 * right: changed together with them, or one number beyond lowest for another. Keep a check sum beside a session
 * where that may happen.
 */
typedef struct shaftglimmer_session {
    shaftglimmer_shape shape;
    uint32_t pages, lowest, taken[SHAFTGLIMMER_PAGES], calls[SHAFTGLIMMER_FUNCTIONS];
} shaftglimmer_session;

/* The layout is what crosses: 10 and 1,292 values of u32, one behind the other. */
#if defined(__cplusplus) && __cplusplus >= 201103L
#define SHAFTGLIMMER_HOLDS(name, fact) static_assert(fact, #name)
#elif defined(__STDC_VERSION__) && __STDC_VERSION__ >= 201112L
#define SHAFTGLIMMER_HOLDS(name, fact) _Static_assert(fact, #name)
#else
#define SHAFTGLIMMER_HOLDS(name, fact) typedef char shaftglimmer_holds_##name[(fact) ? 1 : -1]
#endif
SHAFTGLIMMER_HOLDS(shape_size, sizeof(shaftglimmer_shape) == 4 * 10);
SHAFTGLIMMER_HOLDS(shape_n, offsetof(shaftglimmer_shape, n) == 4 * 1);
SHAFTGLIMMER_HOLDS(shape_b, offsetof(shaftglimmer_shape, b) == 4 * 2);
SHAFTGLIMMER_HOLDS(shape_slopes, offsetof(shaftglimmer_shape, slopes) == 4 * 3);
SHAFTGLIMMER_HOLDS(session_size, sizeof(shaftglimmer_session) == 4 * 1292);
SHAFTGLIMMER_HOLDS(session_pages, offsetof(shaftglimmer_session, pages) == 4 * 10);
SHAFTGLIMMER_HOLDS(session_lowest, offsetof(shaftglimmer_session, lowest) == 4 * 11);
SHAFTGLIMMER_HOLDS(session_taken, offsetof(shaftglimmer_session, taken) == 4 * 12);
SHAFTGLIMMER_HOLDS(session_calls, offsetof(shaftglimmer_session, calls) == 4 * 1036);
#undef SHAFTGLIMMER_HOLDS

/* Ways of reading a word that arrives: the readers shaftglimmer_decode, decode_majority and decode_two. */
enum shaftglimmer_way {
    SHAFTGLIMMER_WAY_CLEAN = 0,
    SHAFTGLIMMER_WAY_VOTE = 1,
    SHAFTGLIMMER_WAY_TWO = 2
};

/* What became of a word that arrived. */
enum shaftglimmer_outcome {
    SHAFTGLIMMER_OUTCOME_TAKEN = 0,
    SHAFTGLIMMER_OUTCOME_AGAIN = 1,
    SHAFTGLIMMER_OUTCOME_REFUSED = 2
};

/* The refusals, by their numbers. */
enum shaftglimmer_refusal {
    SHAFTGLIMMER_REFUSAL_SHAPE = 1,        /* q, n or b outside its list; or no such way of reading */
    SHAFTGLIMMER_REFUSAL_LENGTH = 2,       /* a list does not have its length */
    SHAFTGLIMMER_REFUSAL_WIDTH = 3,        /* a digit is 2^b or more */
    SHAFTGLIMMER_REFUSAL_DAMAGE = 4,       /* no clean damage to at most n - 1 digits explains the word */
    SHAFTGLIMMER_REFUSAL_PAGE = 5,         /* the page number is 1024 or more */
    SHAFTGLIMMER_REFUSAL_COUNT = 6,        /* more than K - 2 marks */
    SHAFTGLIMMER_REFUSAL_FUNCTION = 7,     /* a mark, or the function that is asked for, is above 255 */
    SHAFTGLIMMER_REFUSAL_TAIL = 8,         /* a digit after the last mark is not zero */
    SHAFTGLIMMER_REFUSAL_WORN = 9,         /* a count would pass 2^32 - 1; never in a session that began fresh */
    SHAFTGLIMMER_REFUSAL_TEXT = 10,        /* a malformed line of text */
    SHAFTGLIMMER_REFUSAL_FIGURES = 11,     /* a session's two figures are not what its page numbers say */
    SHAFTGLIMMER_REFUSAL_PLACES = 12,      /* the places are not strictly rising, or one is not below q * q */
    SHAFTGLIMMER_REFUSAL_UNFILLABLE = 13,  /* no stored word has the digits at the other places */
    SHAFTGLIMMER_REFUSAL_AMBIGUOUS = 14,   /* more than one stored word has them; never with up to 2 * n - 1 places */
    SHAFTGLIMMER_REFUSAL_NO_MAJORITY = 15, /* no stored word differs in at most n / 2 digits */
    SHAFTGLIMMER_REFUSAL_DIRECTIONS = 16,  /* with two directions two wrong digits can't be told */
    SHAFTGLIMMER_REFUSAL_BEYOND_TWO = 17,  /* no stored word differs in at most two digits */
    SHAFTGLIMMER_REFUSAL_SLOPE = 18,       /* one of the first n - 1 slopes is not below q, or stands twice */
    SHAFTGLIMMER_REFUSAL_BILL = 19,        /* the sum is above 2^64 - 1 thousandths of a picojoule */
    SHAFTGLIMMER_REFUSAL_FAR = 20          /* no stored word is within reach of decode_nearest or restore */
};

/* An answer at or above these is a refusal: of most functions, of shaftglimmer_count, of shaftglimmer_bill. */
#define SHAFTGLIMMER_REFUSED UINT32_C(0x80000000)
#define SHAFTGLIMMER_COUNT_REFUSED (UINT64_C(1) << 32)
#define SHAFTGLIMMER_BILL_REFUSED (UINT64_C(1) << 63)

/* The refusal's number in an answer, 0 where the answer is none. */
static inline uint32_t shaftglimmer_refusal_of(uint32_t answer)
{
    return answer >= SHAFTGLIMMER_REFUSED ? answer - SHAFTGLIMMER_REFUSED : 0;
}

/* The same of an answer of shaftglimmer_count. */
static inline uint32_t shaftglimmer_refusal_of_count(uint64_t answer)
{
    return answer >= SHAFTGLIMMER_COUNT_REFUSED ? SHAFTGLIMMER_AS(uint32_t, answer - SHAFTGLIMMER_COUNT_REFUSED) : 0;
}

/* The same of an answer of shaftglimmer_bill. */
static inline uint32_t shaftglimmer_refusal_of_bill(uint64_t answer)
{
    return answer >= SHAFTGLIMMER_BILL_REFUSED ? SHAFTGLIMMER_AS(uint32_t, answer - SHAFTGLIMMER_BILL_REFUSED) : 0;
}

/* A line for a person about the refusal with this number. shaftglimmer_text has it for other languages. */
static inline const char *shaftglimmer_refusal_text(uint32_t number)
{
    switch (number) {
    case SHAFTGLIMMER_REFUSAL_SHAPE: return "shape: q, n, b or the way of reading is outside its list";
    case SHAFTGLIMMER_REFUSAL_LENGTH: return "length: a list does not have its length";
    case SHAFTGLIMMER_REFUSAL_WIDTH: return "width: a digit is 2^b or more";
    case SHAFTGLIMMER_REFUSAL_DAMAGE: return "damage: no clean damage to at most n - 1 digits explains the word";
    case SHAFTGLIMMER_REFUSAL_PAGE: return "page: the page number is 1024 or more";
    case SHAFTGLIMMER_REFUSAL_COUNT: return "count: there are more marks than a page holds";
    case SHAFTGLIMMER_REFUSAL_FUNCTION: return "function: a function number is above 255";
    case SHAFTGLIMMER_REFUSAL_TAIL: return "tail: a digit after the last mark is not zero";
    case SHAFTGLIMMER_REFUSAL_WORN: return "worn: a count would pass 2^32 - 1";
    case SHAFTGLIMMER_REFUSAL_TEXT: return "text: a line is malformed";
    case SHAFTGLIMMER_REFUSAL_FIGURES: return "figures: the session's two figures are not what its page numbers say";
    case SHAFTGLIMMER_REFUSAL_PLACES: return "places: they are not strictly rising, or one is outside the word";
    case SHAFTGLIMMER_REFUSAL_UNFILLABLE: return "unfillable: no stored word has the digits at the other places";
    case SHAFTGLIMMER_REFUSAL_AMBIGUOUS:
        return "ambiguous: more than one stored word has the digits at the other places";
    case SHAFTGLIMMER_REFUSAL_NO_MAJORITY: return "no majority: no stored word differs in at most n / 2 digits";
    case SHAFTGLIMMER_REFUSAL_DIRECTIONS: return "directions: two are too few to tell two wrong digits";
    case SHAFTGLIMMER_REFUSAL_BEYOND_TWO: return "beyond two: no stored word differs in at most two digits";
    case SHAFTGLIMMER_REFUSAL_SLOPE: return "slope: a slope is not below q, or stands twice";
    case SHAFTGLIMMER_REFUSAL_BILL: return "bill: the sum is above 2^64 - 1 thousandths of a picojoule";
    case SHAFTGLIMMER_REFUSAL_FAR: return "far: no stored word is within reach";
    default: return "no refusal has this number";
    }
}

/* ---- Lengths ---- */

/* Digits of a word, data digits of a word (K), values of a scratch: constants where q and n are constants. */
#define SHAFTGLIMMER_WORD_LENGTH(q) (SHAFTGLIMMER_AS(size_t, q) * (q))
#define SHAFTGLIMMER_DATA_LENGTH(q, n) ((SHAFTGLIMMER_AS(size_t, q) - 1) * (SHAFTGLIMMER_AS(size_t, q) + 1 - (n)))
#define SHAFTGLIMMER_SCRATCH_LENGTH(q, n) \
    ((SHAFTGLIMMER_AS(size_t, n) * (q) - (n) + 1) * ((SHAFTGLIMMER_WORD_LENGTH(q) + 31) / 32))

/*
 * The most that any shape needs, for memory that serves all of them. Of such memory lend the exact length that the
 * shape needs: a longer list is refused, with 2.
 */
#define SHAFTGLIMMER_WORD_MOST SHAFTGLIMMER_WORD_LENGTH(31)
#define SHAFTGLIMMER_DATA_MOST SHAFTGLIMMER_DATA_LENGTH(31, 2)
#define SHAFTGLIMMER_SCRATCH_MOST SHAFTGLIMMER_SCRATCH_LENGTH(31, 8)

/* The same lengths of a shape; 0 where the shape would be refused, by 1 or 18. */
uint32_t shaftglimmer_word_length(const shaftglimmer_shape *shape);
uint32_t shaftglimmer_data_length(const shaftglimmer_shape *shape);
uint32_t shaftglimmer_scratch_length(const shaftglimmer_shape *shape);

/* ---- Words: a word has q * q digits, data has K, a scratch its length above, or the refusal is 2 ---- */

/*
 * Writes the stored word with these data digits.
 * Tests 1, 18, 2, 3 of data. Answers 0; word then holds the stored word.
 */
uint32_t shaftglimmer_encode(const shaftglimmer_shape *shape, const uint32_t *data, size_t data_length,
                             uint32_t *word, size_t word_length, uint32_t *scratch, size_t scratch_length);

/*
 * Copies the data digits out of a word, whether or not it is a stored word.
 * Tests 1, 18, 2, 3 of word. Answers 0; data then holds them.
 */
uint32_t shaftglimmer_extract(const shaftglimmer_shape *shape, const uint32_t *word, size_t word_length,
                              uint32_t *data, size_t data_length, uint32_t *scratch, size_t scratch_length);

/*
 * Four readers of a damaged word. Each answers the number of digits changed; word then holds the stored word.
 *
 * decode:          undoes clean damage to at most n - 1 digits. Tests 1, 18, 2, 3, 4.
 * decode_majority: undoes any damage to at most n / 2 digits, rounded down. Tests 1, 18, 2, 3, 15.
 * decode_two:      undoes any damage to at most two digits, with three directions or more. Tests 1, 18, 16, 2, 3, 17.
 * decode_nearest:  undoes any damage to at most n - 1 digits. Tests 1, 18, 2, 3, 20.
 *
 * Two readers that accept a word give the same stored word and the same number.
 */
uint32_t shaftglimmer_decode(const shaftglimmer_shape *shape, uint32_t *word, size_t word_length);
uint32_t shaftglimmer_decode_majority(const shaftglimmer_shape *shape, uint32_t *word, size_t word_length);
uint32_t shaftglimmer_decode_two(const shaftglimmer_shape *shape, uint32_t *word, size_t word_length);
uint32_t shaftglimmer_decode_nearest(const shaftglimmer_shape *shape, uint32_t *word, size_t word_length);

/*
 * Fills in dead cells: the digits at the places are not believed and need only be below 2^b. The list of places
 * has any length, 0 too, but is never null; it is strictly rising, and each place is below q * q.
 *
 * Tests 1, 18, 2 of word and scratch, 3, 12, 13, 14. Answers the number of digits changed; word then holds the
 * one stored word that has the digits at the other places. The list stays as it is.
 */
uint32_t shaftglimmer_fill(const shaftglimmer_shape *shape, const uint32_t *places, size_t places_length,
                           uint32_t *word, size_t word_length, uint32_t *scratch, size_t scratch_length);

/*
 * Restores a word with dead cells and other damage. The list of places is as for shaftglimmer_fill. Beside f places
 * it undoes any damage to e other digits, as long as 2 * e + f is below 2 * n: with four directions three wrong
 * digits beside one dead cell, two beside three, one beside five.
 *
 * Let reach be (2 * n - 1 - f) / 2, rounded down, and 0 from 2 * n - 1 places on. A stored word is within reach if it
 * differs in at most so many digits at the other places. Tests 1, 18, 2 of word and scratch, 3, 12; then 20 if no
 * stored word is within reach, 14 if more than one is, which never comes with up to 2 * n - 1 places. Answers the
 * number of digits changed; word then holds the one stored word within reach. The list stays as it is.
 *
 * Where shaftglimmer_fill accepts, with up to 2 * n - 1 places, word and answer are the same. With no places they
 * are those of shaftglimmer_decode_nearest.
 */
uint32_t shaftglimmer_restore(const shaftglimmer_shape *shape, const uint32_t *places, size_t places_length,
                              uint32_t *word, size_t word_length, uint32_t *scratch, size_t scratch_length);

/*
 * Checks a word that somebody else restored. Yes comes exactly for the word that shaftglimmer_decode makes of the
 * received one.
 *
 * Tests 1, 18, 2 of both words, 3 of both. Answers 1 for yes, 0 for no. Both words are only read.
 */
uint32_t shaftglimmer_check(const shaftglimmer_shape *shape, const uint32_t *received, size_t received_length,
                            const uint32_t *proposed, size_t proposed_length);

/*
 * Tells how many checks of each digit shaftglimmer_decode's rule looks at: up to the first that is silent, that
 * one too, or all n. The list looked is as long as the word.
 *
 * Tests 1, 18, 2 of word and list, 3. Answers 0; looked then holds the q * q numbers, 1 to n.
 */
uint32_t shaftglimmer_looked(const shaftglimmer_shape *shape, const uint32_t *word, size_t word_length,
                             uint32_t *looked, size_t looked_length);

/* ---- Pages: data has K digits, or the refusal is 2 ---- */

/*
 * Reads the page in the data digits.
 * Tests 1, 18, 2, 3, 5, 6, 7, 8. Answers 1024 * page number + number of marks.
 */
uint32_t shaftglimmer_parse_page(const shaftglimmer_shape *shape, const uint32_t *data, size_t data_length);

/*
 * Copies the marks of the page in the data digits. The list marks is as long as data.
 *
 * Tests only that, with 2. Answers the number of marks c; the first c values of marks then are the marks, and the
 * others are as they were. Where shaftglimmer_parse_page would refuse, the answer is 0 and marks is as it was: call
 * that one first.
 */
uint32_t shaftglimmer_marks(const shaftglimmer_shape *shape, const uint32_t *data, size_t data_length,
                            uint32_t *marks, size_t marks_length);

/*
 * Writes a page. There may be any number of marks up to K - 2, none too, but the list is never null.
 *
 * Tests 1, 18, 2 of data, 5, 6, 7, then 3 of page number, number of marks and marks. Answers 0; data then holds
 * the page.
 */
uint32_t shaftglimmer_write_page(const shaftglimmer_shape *shape, uint32_t page, const uint32_t *marks,
                                 size_t marks_length, uint32_t *data, size_t data_length);

/* ---- Sessions ---- */

/*
 * Begins a session: every page number is no, counts and figures are 0.
 * Tests 1, 18. Answers 0; session then holds the fresh session.
 */
uint32_t shaftglimmer_fresh(const shaftglimmer_shape *shape, shaftglimmer_session *session);

/*
 * A word arrives. It is read by the way that is named, and the page in it is taken, if it has not come before.
 *
 * Tests 1 of the way, then of the shape, 18, 11; 16 if the way is 2; 2, 3; 4, or 15 if the way is 1, or 17 if it
 * is 2; 5, 6, 7, 8; then whether the page has come before; then 9. Answers 0 always. The answer stands in outcome:
 *
 * SHAFTGLIMMER_OUTCOME_TAKEN, page number, digits changed: word holds the stored word. In the session the page
 *     number is yes, every mark but 0 has added 1 to the count of its function, and the figures are those of the
 *     new page numbers. Every value in taken is then 0 or 1.
 * SHAFTGLIMMER_OUTCOME_AGAIN, page number, digits changed: word holds the stored word, the session is as it was.
 * SHAFTGLIMMER_OUTCOME_REFUSED, number of the refusal, 0: word and session are as they were.
 */
uint32_t shaftglimmer_arrive(shaftglimmer_session *session, uint32_t way, uint32_t *word, size_t word_length,
                             uint32_t outcome[SHAFTGLIMMER_OUTCOME], uint32_t *scratch, size_t scratch_length);

/*
 * Several words arrive, first word first, all by one way: 1 to 64, one behind the other. The list outcomes has 192
 * values.
 *
 * The whole call is tested first: 1 of the way, then of the shape, 18, 11, 16 if the way is 2, and 2 of words,
 * scratch and outcomes. A refusal here is the answer, and nothing has changed. Otherwise the answer is 0. The
 * words, the session and the outcomes, three values a word, are those of arrivals one by one: a refused word stays
 * as it was, and the others go on. The outcomes past the last word are zero, and so is the scratch.
 */
uint32_t shaftglimmer_arrive_all(shaftglimmer_session *session, uint32_t way, uint32_t *words, size_t words_length,
                                 uint32_t *outcomes, size_t outcomes_length, uint32_t *scratch,
                                 size_t scratch_length);

/*
 * Tells how often a function was called.
 * Tests 1, 18, 11, 7. Answers the count; a refusal is SHAFTGLIMMER_COUNT_REFUSED plus its number.
 */
uint64_t shaftglimmer_count(const shaftglimmer_session *session, uint32_t function);

/*
 * Tells the energy of all calls. There are 256 prices, one for each function, in thousandths of a picojoule for a
 * call. Function 0 costs nothing.
 *
 * Tests 1, 18, 11, 2 of prices, 19. Answers the sum of calls * price in whole picojoules, rounded up once; a refusal
 * is SHAFTGLIMMER_BILL_REFUSED plus its number.
 */
uint64_t shaftglimmer_bill(const shaftglimmer_session *session, const uint32_t *prices, size_t prices_length);

/*
 * Shows which functions were called. There are 256 bytes, one for each function.
 * Tests 1, 18, 11, 2 of bytes. Answers how many have a count above zero; their bytes then are 1, the others 0.
 */
uint32_t shaftglimmer_cover(const shaftglimmer_session *session, uint8_t *bytes, size_t bytes_length);

/* ---- Lines of text, and texts ---- */

/*
 * Reads the values of a line of a capture, which is lent without its newline: at most 16,383 bytes, decimal values up
 * to 2^32 - 1 without leading zeros, and one space between two of them.
 *
 * Tests 10. Answers the number of values; they then stand at the front of values, and what stands behind them is as it
 * was. Of more than 1024 the first 1024 stand there.
 */
uint32_t shaftglimmer_parse_line(const uint8_t *line, size_t line_length, uint32_t values[SHAFTGLIMMER_LINE_VALUES]);

/*
 * Gives the text of the refusal with this number, as shaftglimmer_refusal_text does. There are 96 bytes.
 * Tests 2 of text. Answers the text's length; text then holds it, and zeros behind it. A number that is no refusal has
 * no text: the answer is 0, and all bytes are zero.
 */
uint32_t shaftglimmer_text(uint32_t refusal, uint8_t *text, size_t text_length);

/* ---- Digits as bytes: four a digit, low byte first; the slopes are 0, 1, 2, .. ; length is in bytes ---- */

/*
 * Reads a damaged word of 4 * q * q bytes, as shaftglimmer_decode does. Any alignment will do.
 * Tests 1, 2, 3, 4. Answers the number of digits changed; the bytes then hold the stored word.
 */
uint32_t shaftglimmer_read_word(uint32_t q, uint32_t n, uint32_t b, uint8_t *word, size_t length);

/*
 * Reads the page in 4 * K bytes of data digits, as shaftglimmer_parse_page does.
 * Tests 1, 2, 3, 5, 6, 7, 8. Answers 1024 * page number + number of marks.
 */
uint32_t shaftglimmer_read_page(uint32_t q, uint32_t n, uint32_t b, const uint8_t *data, size_t length);

#ifdef __cplusplus
}
#endif

#endif
