/* What is lent to be written to, and whether a call left alone what it should. */
#include "lent.h"

int64_t first[GUARD + CELLS + GUARD], second[GUARD + CELLS + GUARD];
static uint8_t output[GUARD + BYTES + GUARD];

uint8_t large[BEFROLAN_MOST + 1];
const uint8_t none[1] = {0};
const int64_t no_cells[1] = {0};
const uint8_t E9[12] = {0, 0, 0, 0, 0, 1, 0, 18, 0, 0, 0, 3};

int64_t *table(int64_t *t)
{
    for (int i = 0; i < GUARD + CELLS + GUARD; i++)
        t[i] = FILL;
    return t + GUARD;
}

int holds(const int64_t *t, const int64_t *cells, int n)
{
    for (int i = 0; i < GUARD; i++)
        if (t[i] != FILL)
            return 0;
    for (int i = 0; i < n; i++)
        if (t[GUARD + i] != cells[i])
            return 0;
    for (int i = GUARD + n; i < GUARD + CELLS + GUARD; i++)
        if (t[i] != FILL)
            return 0;
    return 1;
}

uint8_t *out(void)
{
    memset(output, BYTE, sizeof output);
    return output + GUARD;
}

int wrote(const uint8_t *bytes, size_t n)
{
    for (size_t i = 0; i < GUARD; i++)
        if (output[i] != BYTE)
            return 0;
    if (memcmp(output + GUARD, bytes, n) != 0)
        return 0;
    for (size_t i = GUARD + n; i < sizeof output; i++)
        if (output[i] != BYTE)
            return 0;
    return 1;
}

int not_written(befrolan_numbers r, int64_t number, int64_t need)
{
    return REFUSED(r, number, 0, need) && wrote(none, 0);
}
