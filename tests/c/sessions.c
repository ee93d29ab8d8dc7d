/* Sessions: fresh ones, arrivals and bundles, counts, bills, coverage. Shapes of order 3, the words of README.md. */
#include "expect.h"

enum { N = 9, SCRATCH = 5 };

static const uint32_t page_1[] = {5, 2, 7, 3, 1, 2, 6, 3, 5};
static const uint32_t damaged[] = {12, 2, 7, 3, 1, 2, 6, 3, 5};
static const uint32_t beyond[] = {1, 0, 0, 0, 1, 0, 0, 0, 0};

/* Page 0 with marks 0 and 4. */
static const uint32_t page_0[] = {6, 0, 6, 2, 0, 2, 4, 0, 4};

static int same(const shaftglimmer_session *a, const shaftglimmer_session *b)
{
    return memcmp(a, b, sizeof *a) == 0;
}

static shaftglimmer_session fresh(uint32_t n, uint32_t b)
{
    shaftglimmer_shape shape = standard(3, n, b);
    shaftglimmer_session session;
    expect("a fresh session", shaftglimmer_fresh(&shape, &session) == 0);
    return session;
}

/* The session after page 1 with its marks 3 and 5. */
static shaftglimmer_session after_page_1(void)
{
    shaftglimmer_session session = fresh(2, 8);
    session.pages = 1;
    session.taken[1] = 1;
    session.calls[3] = 1;
    session.calls[5] = 1;
    return session;
}

static void beginning(void)
{
    shaftglimmer_shape shape = standard(3, 2, 8), wrong = standard(9, 2, 8), sloped = standard(3, 3, 8);
    shaftglimmer_session session, before, zeros;
    memset(&session, 0xa5, sizeof session);
    before = session;
    expect("fresh: shape", shaftglimmer_fresh(&wrong, &session) == refused(SHAFTGLIMMER_REFUSAL_SHAPE) && same(&session, &before));
    sloped.slopes[1] = 7;
    expect("fresh: slope", shaftglimmer_fresh(&sloped, &session) == refused(SHAFTGLIMMER_REFUSAL_SLOPE) && same(&session, &before));
    memset(&zeros, 0, sizeof zeros);
    zeros.shape = shape;
    expect("fresh: all no and zeros", shaftglimmer_fresh(&shape, &session) == 0 && same(&session, &zeros));
}

/* One arrival: the outcome, the word and the scratch as left; the session is compared by the caller. */
static void arrive(const char *name, shaftglimmer_session *session, uint32_t way, const uint32_t *word, size_t count,
                   uint32_t kind, uint32_t number, uint32_t changed, const uint32_t *left, uint32_t scratch_left)
{
    uint32_t expected[SHAFTGLIMMER_OUTCOME] = {kind, number, changed};
    uint32_t *lent = lend(word, count), *scratch = lend_all(9, SCRATCH), *outcome = lend_all(77, SHAFTGLIMMER_OUTCOME);
    uint32_t answer = shaftglimmer_arrive(session, way, lent, count, outcome, scratch, SCRATCH);
    int kept = holds(lent, left, count) & holds_all(scratch, scratch_left, SCRATCH) &
               holds(outcome, expected, SHAFTGLIMMER_OUTCOME);
    expect(name, answer == 0 && kept);
}

/* An arrival that is refused leaves session and word as they were. */
static void arrive_refused(const char *name, const shaftglimmer_session *session, uint32_t way, const uint32_t *word,
                           size_t count, uint32_t number, uint32_t scratch_left)
{
    shaftglimmer_session after = *session;
    arrive(name, &after, way, word, count, SHAFTGLIMMER_OUTCOME_REFUSED, number, 0, word, scratch_left);
    expect(name, same(&after, session));
}

static void arrivals(void)
{
    shaftglimmer_session session = fresh(2, 8), taken = after_page_1(), marked;
    arrive("taken", &session, SHAFTGLIMMER_WAY_CLEAN, page_1, N, SHAFTGLIMMER_OUTCOME_TAKEN, 1, 0, page_1, 0);
    expect("page 1 is counted", same(&session, &taken));
    arrive("again", &session, SHAFTGLIMMER_WAY_VOTE, damaged, N, SHAFTGLIMMER_OUTCOME_AGAIN, 1, 1, page_1, 0);
    expect("nothing is counted twice", same(&session, &taken));
    marked = fresh(2, 8);
    marked.taken[7] = 12345;
    marked.pages = 1;
    arrive("taken, damaged", &marked, SHAFTGLIMMER_WAY_CLEAN, damaged, N, SHAFTGLIMMER_OUTCOME_TAKEN, 1, 1, page_1, 0);
    taken.taken[7] = 1;
    taken.pages = 2;
    expect("any number but 0 is yes, and leaves as 1", same(&marked, &taken));
    arrive("taken, the lowest page", &marked, SHAFTGLIMMER_WAY_CLEAN, page_0, N, SHAFTGLIMMER_OUTCOME_TAKEN, 0, 0, page_0, 0);
    taken.taken[0] = 1;
    taken.pages = 3;
    taken.lowest = 2;
    taken.calls[4] = 1;
    expect("no call of function 0, and page 2 is the first that is missing", same(&marked, &taken));
}

static void arrivals_refused(void)
{
    shaftglimmer_session session = after_page_1(), worn = fresh(2, 8), wrong = after_page_1(), shape = after_page_1();
    shaftglimmer_session three = fresh(3, 3);
    const uint32_t p6[] = {3, 6, 5, 2, 4, 6, 6, 5, 3};
    worn.calls[5] = 0xffffffffu;
    wrong.lowest = 1;
    shape.shape.q = 9;
    arrive_refused("arrival: damage", &session, SHAFTGLIMMER_WAY_CLEAN, beyond, N, SHAFTGLIMMER_REFUSAL_DAMAGE, 0);
    arrive_refused("arrival: vote", &session, SHAFTGLIMMER_WAY_VOTE, beyond, N, SHAFTGLIMMER_REFUSAL_NO_MAJORITY, 0);
    arrive_refused("arrival: two directions", &session, SHAFTGLIMMER_WAY_TWO, page_1, 8, SHAFTGLIMMER_REFUSAL_DIRECTIONS, 9);
    arrive_refused("arrival: no such way", &wrong, 3, page_1, N, SHAFTGLIMMER_REFUSAL_SHAPE, 9);
    arrive_refused("arrival: figures", &wrong, SHAFTGLIMMER_WAY_CLEAN, page_1, N, SHAFTGLIMMER_REFUSAL_FIGURES, 9);
    arrive_refused("arrival: shape", &shape, SHAFTGLIMMER_WAY_CLEAN, page_1, N, SHAFTGLIMMER_REFUSAL_SHAPE, 9);
    arrive_refused("arrival: length", &session, SHAFTGLIMMER_WAY_CLEAN, page_1, 8, SHAFTGLIMMER_REFUSAL_LENGTH, 9);
    arrive_refused("arrival: worn", &worn, SHAFTGLIMMER_WAY_CLEAN, damaged, N, SHAFTGLIMMER_REFUSAL_WORN, 0);
    arrive_refused("arrival: a scratch of another shape", &three, SHAFTGLIMMER_WAY_TWO, p6, N, SHAFTGLIMMER_REFUSAL_LENGTH, 9);
}

static void bundle(const char *name, shaftglimmer_session *session, uint32_t way, size_t count, size_t room, uint32_t number)
{
    shaftglimmer_session before = *session;
    uint32_t *lent = lend_all(1, count), *scratch = lend_all(9, SCRATCH), *outcomes = lend_all(77, room);
    uint32_t answer = shaftglimmer_arrive_all(session, way, lent, count, outcomes, room, scratch, SCRATCH);
    int kept = holds_all(lent, 1, count) & holds_all(scratch, 9, SCRATCH) & holds_all(outcomes, 77, room);
    expect(name, answer == refused(number) && kept && same(session, &before));
}

static void bundles(void)
{
    uint32_t words[3 * N], left[3 * N], expected[SHAFTGLIMMER_OUTCOMES] = {0, 1, 0, 2, 4, 0, 1, 1, 1};
    shaftglimmer_session session = fresh(2, 8), taken = after_page_1(), three = fresh(3, 8);
    memcpy(words, page_1, sizeof page_1);
    memcpy(words + N, beyond, sizeof beyond);
    memcpy(words + 2 * N, damaged, sizeof damaged);
    memcpy(left, words, sizeof left);
    memcpy(left + 2 * N, page_1, sizeof page_1);
    uint32_t *lent = lend(words, 3 * N), *scratch = lend_unset(SCRATCH), *outcomes = lend_all(77, SHAFTGLIMMER_OUTCOMES);
    uint32_t answer = shaftglimmer_arrive_all(&session, SHAFTGLIMMER_WAY_CLEAN, lent, 3 * N, outcomes, SHAFTGLIMMER_OUTCOMES,
                                              scratch, SCRATCH);
    int kept = holds(lent, left, 3 * N) & holds_all(scratch, 0, SCRATCH) & holds(outcomes, expected, SHAFTGLIMMER_OUTCOMES);
    expect("a bundle of three words", answer == 0 && kept && same(&session, &taken));
    bundle("bundle: no word", &session, 0, 0, 192, SHAFTGLIMMER_REFUSAL_LENGTH);
    bundle("bundle: part of a word", &session, 0, 10, 192, SHAFTGLIMMER_REFUSAL_LENGTH);
    bundle("bundle: 65 words", &session, 0, 65 * N, 192, SHAFTGLIMMER_REFUSAL_LENGTH);
    bundle("bundle: 191 outcomes", &session, 0, N, 191, SHAFTGLIMMER_REFUSAL_LENGTH);
    bundle("bundle: a scratch of another shape", &three, 0, N, 192, SHAFTGLIMMER_REFUSAL_LENGTH);
    bundle("bundle: two directions", &session, 2, 0, 192, SHAFTGLIMMER_REFUSAL_DIRECTIONS);
    bundle("bundle: no such way", &session, 3, 0, 192, SHAFTGLIMMER_REFUSAL_SHAPE);
    session.pages = 3;
    bundle("bundle: figures", &session, 2, 0, 192, SHAFTGLIMMER_REFUSAL_FIGURES);
}

void sessions(void)
{
    beginning();
    arrivals();
    arrivals_refused();
    bundles();
}

static void counts(void)
{
    shaftglimmer_session session = after_page_1();
    expect("a count", shaftglimmer_count(&session, 3) == 1 && shaftglimmer_count(&session, 4) == 0);
    session.calls[255] = 0xffffffffu;
    expect("the largest count", shaftglimmer_count(&session, 255) == 0xffffffffu);
    expect("count: function", shaftglimmer_count(&session, 256) == SHAFTGLIMMER_COUNT_REFUSED + SHAFTGLIMMER_REFUSAL_FUNCTION);
    session.lowest = 2;
    expect("count: figures", shaftglimmer_count(&session, 256) == SHAFTGLIMMER_COUNT_REFUSED + SHAFTGLIMMER_REFUSAL_FIGURES);
    session.shape.slopes[0] = 3;
    expect("count: slope", shaftglimmer_count(&session, 256) == SHAFTGLIMMER_COUNT_REFUSED + SHAFTGLIMMER_REFUSAL_SLOPE);
    session.shape.n = 9;
    expect("count: shape", shaftglimmer_count(&session, 256) == SHAFTGLIMMER_COUNT_REFUSED + SHAFTGLIMMER_REFUSAL_SHAPE);
}

static void bill(const char *name, const shaftglimmer_session *session, const uint32_t *prices, size_t count, uint64_t expected)
{
    shaftglimmer_session before = *session;
    uint32_t *lent = lend(prices, count);
    uint64_t answer = shaftglimmer_bill(session, lent, count);
    expect(name, holds(lent, prices, count) && answer == expected && same(session, &before));
}

static void bills(void)
{
    uint32_t prices[SHAFTGLIMMER_FUNCTIONS] = {0xffffffffu};
    shaftglimmer_session session = after_page_1();
    session.calls[0] = 1000;
    bill("all calls cost nothing", &session, prices, 256, 0);
    prices[3] = 1500;
    prices[5] = 1;
    bill("rounded up once", &session, prices, 256, 2);
    bill("bill: length", &session, prices, 255, SHAFTGLIMMER_BILL_REFUSED + SHAFTGLIMMER_REFUSAL_LENGTH);
    session.calls[3] = prices[3] = 0xffffffffu;
    bill("a large bill", &session, prices, 256, 18446744065119618);
    session.calls[5] = prices[5] = 0xffffffffu;
    bill("bill: too large", &session, prices, 256, SHAFTGLIMMER_BILL_REFUSED + SHAFTGLIMMER_REFUSAL_BILL);
    session.pages = 0;
    bill("bill: figures", &session, prices, 255, SHAFTGLIMMER_BILL_REFUSED + SHAFTGLIMMER_REFUSAL_FIGURES);
}

static void cover(const char *name, const shaftglimmer_session *session, size_t count, uint32_t expected, const uint8_t *left)
{
    shaftglimmer_session before = *session;
    uint8_t *bytes = SHAFTGLIMMER_AS(uint8_t *, malloc(count));
    memset(bytes, 77, count);
    uint32_t answer = shaftglimmer_cover(session, bytes, count);
    expect(name, answer == expected && memcmp(bytes, left, count) == 0 && same(session, &before));
    free(bytes);
}

void reports(void)
{
    uint8_t called[SHAFTGLIMMER_FUNCTIONS] = {0}, untouched[SHAFTGLIMMER_FUNCTIONS + 1];
    shaftglimmer_session session = after_page_1();
    counts();
    bills();
    called[3] = called[5] = 1;
    memset(untouched, 77, sizeof untouched);
    cover("coverage", &session, 256, 2, called);
    cover("coverage: 255 bytes", &session, 255, refused(SHAFTGLIMMER_REFUSAL_LENGTH), untouched);
    cover("coverage: 257 bytes", &session, 257, refused(SHAFTGLIMMER_REFUSAL_LENGTH), untouched);
    session.taken[1] = 0;
    cover("coverage: figures", &session, 255, refused(SHAFTGLIMMER_REFUSAL_FIGURES), untouched);
}
