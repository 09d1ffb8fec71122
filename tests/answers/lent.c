/* What is lent to be written to: it is filled before the call, and stands between guards that are filled alike. */
#include "answers.h"

#include <string.h>

#define MOST_TABLES 8

/* A table that is part of an answer has no more, however few cells a table may have. */
#define MOST_NUMBERS 16

/* What was made for one case is used again for the next. */
static struct {
    int64_t *cells;
    size_t room;
    bool shown;
} tables[MOST_TABLES];

static struct {
    uint8_t *bytes;
    size_t room;
    bool lent;
} output;

static size_t count;

void lend_nothing(void)
{
    count = 0;
    output.lent = false;
}

/* room for the largest table that may be lent, and its guards */
static int64_t *make_table(void)
{
    size_t most = most_cells > MOST_NUMBERS ? most_cells : MOST_NUMBERS;
    return room_for((GUARD + most + GUARD) * sizeof(int64_t));
}

static int64_t *lend_cells(size_t room, bool shown)
{
    if (count == MOST_TABLES)
        give_up("a call is lent more tables than there are places for");
    if (tables[count].cells == NULL)
        tables[count].cells = make_table();
    int64_t *cells = tables[count].cells;
    for (size_t i = 0; i < GUARD + room + GUARD; i++)
        cells[i] = FILL;
    tables[count].room = room;
    tables[count].shown = shown;
    count++;
    return cells + GUARD;
}

int64_t *lend_table(size_t room)
{
    return lend_cells(room, true);
}

int64_t *lend_numbers(size_t room)
{
    if (room > MOST_NUMBERS)
        give_up("an answer has more numbers than there are places for");
    return lend_cells(room, false);
}

uint8_t *lend_output(size_t room)
{
    if (output.bytes == NULL)
        output.bytes = room_for(GUARD + MOST_BYTES + GUARD);
    memset(output.bytes, FILL_BYTE, GUARD + room + GUARD);
    output.room = room;
    output.lent = true;
    return output.bytes + GUARD;
}

/* ---- afterwards */

static bool cells_kept(const int64_t *cells, size_t room)
{
    for (size_t i = 0; i < GUARD; i++)
        if (cells[i] != FILL || cells[GUARD + room + i] != FILL)
            return false;
    return true;
}

static bool bytes_kept(const uint8_t *bytes, size_t room)
{
    for (size_t i = 0; i < GUARD; i++)
        if (bytes[i] != FILL_BYTE || bytes[GUARD + room + i] != FILL_BYTE)
            return false;
    return true;
}

void say_lent(void)
{
    bool kept = true, shown = false;
    for (size_t k = 0; k < count; k++) {
        kept &= cells_kept(tables[k].cells, tables[k].room);
        if (!tables[k].shown)
            continue;
        shown = true;
        say(" ");
        say_cells(tables[k].cells + GUARD, tables[k].room);
    }
    if (output.lent) {
        kept &= bytes_kept(output.bytes, output.room);
        shown = true;
        say(" ");
        say_bytes(output.bytes + GUARD, output.room);
    }
    if (!kept)
        say(" broken");
    else if (shown)
        say(" kept");
}
