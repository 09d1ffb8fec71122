/* The words of a case. */
#include "answers.h"

#include <string.h>

size_t most_cells = 65536;

bool is(struct text t, const char *word)
{
    return t.n == strlen(word) && memcmp(t.at, word, t.n) == 0;
}

struct text front(struct text t, char sign, struct text *rest)
{
    const uint8_t *at = t.n > 0 ? memchr(t.at, sign, t.n) : NULL;
    if (at == NULL) {
        *rest = (struct text){NULL, 0};
        return t;
    }
    size_t n = (size_t)(at - t.at);
    *rest = (struct text){at + 1, t.n - n - 1};
    return (struct text){t.at, n};
}

/* ---- numbers */

/* decimal digits: from 0 to 2^64 - 1 */
static bool whole(struct text t, uint64_t *v)
{
    uint64_t sum = 0;
    for (size_t i = 0; i < t.n; i++) {
        uint64_t digit = (uint64_t)t.at[i] - '0';
        if (digit > 9 || sum > UINT64_MAX / 10 || sum * 10 > UINT64_MAX - digit)
            return false;
        sum = sum * 10 + digit;
    }
    *v = sum;
    return t.n > 0;
}

static bool number(struct text t, int64_t *cell)
{
    uint64_t v;
    bool below = t.n > 0 && t.at[0] == '-';
    if (below)
        t = (struct text){t.at + 1, t.n - 1};
    if (!whole(t, &v) || (below && v > UINT64_C(1) << 63))
        return false;
    *cell = (int64_t)(below ? 0 - v : v);
    return true;
}

static bool at_most(struct text t, size_t most, size_t *n)
{
    uint64_t v;
    if (!whole(t, &v) || v > most)
        return false;
    *n = v;
    return true;
}

static bool bit(struct text t, int64_t *cell)
{
    *cell = is(t, "1");
    return *cell == 1 || is(t, "0");
}

/* ---- parts */

/* START:LENGTH */
static bool part(struct text t, struct word *w)
{
    struct text length;
    struct text start = front(t, ':', &length);
    uint64_t from, n;
    if (!whole(start, &from) || !whole(length, &n))
        return false;
    w->cell = (int64_t)from;
    w->size = n;
    return true;
}

/* ---- bytes */

static int nibble(uint8_t b)
{
    if (b >= '0' && b <= '9')
        return b - '0';
    return b >= 'a' && b <= 'f' ? b - 'a' + 10 : -1;
}

static bool pair(const uint8_t *at, uint8_t *b)
{
    int high = nibble(at[0]), low = nibble(at[1]);
    *b = (uint8_t)(high * 16 + low);
    return high >= 0 && low >= 0;
}

static bool run_of_bytes(struct text piece, uint8_t *bytes, size_t *n)
{
    uint8_t b;
    size_t times;
    if (!pair(piece.at, &b) || !at_most((struct text){piece.at + 3, piece.n - 3}, MOST_BYTES - *n, &times) || times == 0)
        return false;
    memset(bytes + *n, b, times);
    *n += times;
    return true;
}

static bool hexadecimal(struct text piece, uint8_t *bytes, size_t *n)
{
    if (piece.n == 0 || piece.n % 2 != 0 || piece.n / 2 > MOST_BYTES - *n)
        return false;
    for (size_t i = 0; i < piece.n; i += 2)
        if (!pair(piece.at + i, &bytes[(*n)++]))
            return false;
    return true;
}

/* adds a piece to the bytes that are there already */
static bool more_bytes(struct text piece, uint8_t *bytes, size_t *n)
{
    if (piece.n > 2 && piece.at[2] == '*')
        return run_of_bytes(piece, bytes, n);
    return hexadecimal(piece, bytes, n);
}

static bool take_bytes(struct text t, size_t k, struct word *w)
{
    static uint8_t *held[MOST_WORDS];
    if (held[k] == NULL)
        held[k] = room_for(MOST_BYTES);
    w->bytes = held[k];
    if (is(t, "-"))
        return true;
    do
        if (!more_bytes(front(t, ',', &t), held[k], &w->size))
            return false;
    while (t.at != NULL);
    return true;
}

/* ---- cells */

static bool more_cells(struct text piece, int64_t *cells, size_t *n)
{
    struct text times;
    struct text first = front(piece, '*', &times);
    int64_t cell;
    size_t count = 1;
    if (!number(first, &cell) || (times.at != NULL && !at_most(times, most_cells, &count)) || count == 0 || count > most_cells - *n)
        return false;
    for (size_t i = 0; i < count; i++)
        cells[(*n)++] = cell;
    return true;
}

static bool take_cells(struct text t, size_t k, struct word *w)
{
    static int64_t *held[MOST_WORDS];
    if (held[k] == NULL)
        held[k] = room_for(most_cells * sizeof(int64_t));
    w->cells = held[k];
    if (is(t, "-"))
        return true;
    do
        if (!more_cells(front(t, ',', &t), held[k], &w->size))
            return false;
    while (t.at != NULL);
    return true;
}

/* ---- kinds */

/* `null` or `absent`, where the kind has it */
static bool null(char kind, struct text t)
{
    return (kind == 'X' || kind == 'Y' || kind == 'Z') && is(t, "null");
}

static bool absent(char kind, struct text t)
{
    return (kind == 'A' || kind == 'P' || kind == 'T' || kind == 'X') && is(t, "absent");
}

bool take(char kind, struct text t, size_t k, struct word *w)
{
    *w = (struct word){.cell = FILL};
    w->null = null(kind, t);
    w->nothing = w->null || absent(kind, t);
    if (w->nothing)
        return true;
    switch (kind) {
    case 'R':
        return at_most(t, most_cells, &w->size);
    case 'O':
        return at_most(t, MOST_BYTES, &w->size);
    case 'N': case 'T': case 'V': case 'Z':
        return number(t, &w->cell);
    case 'A': case 'F':
        return bit(t, &w->cell);
    case 'B': case 'Y':
        return take_bytes(t, k, w);
    case 'C':
        return take_cells(t, k, w);
    case 'P': case 'X':
        return part(t, w);
    default:
        give_up("a row of the table has a kind of word that there is not");
    }
}
