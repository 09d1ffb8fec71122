/* The words of an answer. They wait in a buffer, and are handed on when it is full and when all lines that were read are answered. */
#include "answers.h"

#include <errno.h>
#include <string.h>
#include <unistd.h>

static char waiting[1 << 16];
static size_t count;

void hand_on(void)
{
    for (size_t done = 0; done < count;) {
        ssize_t n = write(STDOUT_FILENO, waiting + done, count - done);
        if (n < 0 && errno != EINTR)
            give_up("the answers cannot be written");
        done += n < 0 ? 0 : (size_t)n;
    }
    count = 0;
}

/* room for so many more, which are few */
static char *more(size_t n)
{
    if (sizeof waiting - count < n)
        hand_on();
    count += n;
    return waiting + count - n;
}

void say(const char *words)
{
    size_t n = strlen(words);
    memcpy(more(n), words, n);
}

void end_line(void)
{
    say("\n");
}

/* ---- numbers */

void say_decimal(uint64_t number)
{
    char digits[20];
    size_t n = sizeof digits;
    do
        digits[--n] = (char)('0' + number % 10);
    while ((number /= 10) > 0);
    memcpy(more(sizeof digits - n), digits + n, sizeof digits - n);
}

void say_cell(int64_t cell)
{
    if (cell < 0)
        say("-");
    say_decimal(cell < 0 ? 0 - (uint64_t)cell : (uint64_t)cell);
}

void say_number(int64_t number)
{
    say(" ");
    say_decimal((uint64_t)number);
}

void say_signed(int64_t cell)
{
    say(" ");
    say_cell(cell);
}

/* ---- bytes and cells */

static void say_byte(uint8_t b)
{
    char *at = more(2);
    at[0] = "0123456789abcdef"[b / 16];
    at[1] = "0123456789abcdef"[b % 16];
}

/* Eight or more that are equal are a piece by themselves; others go on with the piece before them. */
void say_bytes(const uint8_t *bytes, size_t n)
{
    bool after_run = false;
    if (n == 0)
        say("-");
    for (size_t at = 0, end; at < n; at = end) {
        for (end = at + 1; end < n && bytes[end] == bytes[at]; end++)
            ;
        bool run = end - at >= 8;
        if (after_run || (run && at > 0))
            say(",");
        say_byte(bytes[at]);
        if (run) {
            say("*");
            say_decimal(end - at);
        } else {
            for (size_t i = at + 1; i < end; i++)
                say_byte(bytes[i]);
        }
        after_run = run;
    }
}

/* Four or more that are equal are one piece. */
void say_cells(const int64_t *cells, size_t n)
{
    if (n == 0)
        say("-");
    for (size_t at = 0, end; at < n; at = end) {
        for (end = at + 1; end < n && cells[end] == cells[at]; end++)
            ;
        if (end - at < 4)
            end = at + 1;
        if (at > 0)
            say(",");
        say_cell(cells[at]);
        if (end - at >= 4) {
            say("*");
            say_decimal(end - at);
        }
    }
}

/* ---- replies */

static bool stray;

void note(bool as_promised)
{
    stray |= !as_promised;
}

void say_stray(void)
{
    if (stray)
        say(" stray");
    stray = false;
}

/* An accepting answer has place and need 0; a refusing one has 0 for everything but these and the number. */
bool accepted(const void *answer, size_t size)
{
    int64_t numbers[16];
    memcpy(numbers, answer, size);
    if (numbers[0] == BEFROLAN_ACCEPTED) {
        note(numbers[1] == 0 && numbers[2] == 0);
        say("ok");
        return true;
    }
    say("no");
    for (size_t i = 0; i < 3; i++)
        say_number(numbers[i]);
    for (size_t i = 3; i < size / sizeof numbers[0]; i++)
        note(numbers[i] == 0);
    return false;
}

void say_optional(int64_t kind, int64_t value)
{
    if (kind != BEFROLAN_ABSENT) {
        note(kind == BEFROLAN_PRESENT);
        say_signed(value);
        return;
    }
    note(value == 0);
    say(" absent");
}

/* as much of the part as the message has */
static void say_contents(const struct word *message, uint64_t start, uint64_t length)
{
    size_t from = start < message->size ? start : message->size;
    size_t most = message->size - from;
    say_bytes(message->bytes + from, length < most ? length : most);
}

void say_part(int64_t kind, const struct word *message, int64_t start, int64_t length)
{
    if (kind != BEFROLAN_ABSENT && kind != BEFROLAN_NULL) {
        note(kind == BEFROLAN_PRESENT);
        say_number(start);
        say(":");
        say_contents(message, (uint64_t)start, (uint64_t)length);
        return;
    }
    note(start == 0 && length == 0);
    say(kind == BEFROLAN_ABSENT ? " absent" : " null");
}
