/*
 * Energy and coverage of a run: what all calls together cost, and which functions were called at all.
 *
 *     energy SESSION PRICES
 *
 * SESSION is a session as live.c saves it. PRICES is a text with two values a line: a function, and what one call of
 * it costs, in thousandths of a picojoule. A function without a line costs nothing.
 */
#include "input.h"

#include <errno.h>

static int load(const char *name, shaftglimmer_session *session)
{
    FILE *file = fopen(name, "rb");
    if (file == NULL) {
        return complain(name, strerror(errno));
    }
    int whole = fread(session, sizeof *session, 1, file) == 1 && getc(file) == EOF;
    fclose(file);
    return whole ? 0 : complain(name, "is no saved session");
}

static int read_prices(const char *name, uint32_t *prices)
{
    uint32_t values[SHAFTGLIMMER_LINE_VALUES], count;
    FILE *file = fopen(name, "r");
    if (file == NULL) {
        return complain(name, strerror(errno));
    }
    while ((count = read_line(file, values)) == 2 && values[0] < SHAFTGLIMMER_FUNCTIONS) {
        prices[values[0]] = values[1];
    }
    fclose(file);
    return count == 0 ? 0 : complain(name, "has something other than a function and its price");
}

/* Sixteen functions a row. */
static void show(const uint8_t *called)
{
    printf("    0123456789abcdef\n");
    for (int row = 0; row < 16; row++) {
        printf("%x0  ", (unsigned)row);
        for (int column = 0; column < 16; column++) {
            putchar(called[16 * row + column] ? '#' : '.');
        }
        putchar('\n');
    }
}

int main(int argc, char **argv)
{
    uint32_t prices[SHAFTGLIMMER_FUNCTIONS] = {0};
    uint8_t called[SHAFTGLIMMER_FUNCTIONS];
    shaftglimmer_session session;
    if (argc != 3) {
        return complain("usage", "energy SESSION PRICES");
    }
    if (load(argv[1], &session) != 0 || read_prices(argv[2], prices) != 0) {
        return 1;
    }
    uint64_t bill = shaftglimmer_bill(&session, prices, SHAFTGLIMMER_FUNCTIONS);
    if (shaftglimmer_refusal_of_bill(bill) != 0) {
        return refused(argv[1], shaftglimmer_refusal_of_bill(bill));
    }
    uint32_t functions = shaftglimmer_cover(&session, called, SHAFTGLIMMER_FUNCTIONS);
    if (shaftglimmer_refusal_of(functions) != 0) {
        return refused(argv[1], shaftglimmer_refusal_of(functions));
    }
    printf("%" PRIu64 " picojoules, %" PRIu32 " functions called\n", bill, functions);
    show(called);
    return 0;
}
