/* Answers cases from standard input, one to a line, through the C interface of Befrolan (docs/ANSWERS.md).
 *
 *     answers [CELLS]
 *
 * CELLS is how many cells a table may have, 65536 where it is not said.
 */
#include "answers.h"

#include <errno.h>
#include <stdio.h>
#include <stdlib.h>
#include <string.h>
#include <unistd.h>

void give_up(const char *why)
{
    fprintf(stderr, "answers: %s\n", why);
    exit(2);
}

void *room_for(size_t bytes)
{
    void *room = malloc(bytes);
    if (room == NULL)
        give_up("there is not enough memory");
    return room;
}

/* ---- the input: what was read and is not answered yet stands at the front of a buffer, which grows with the longest line */

static uint8_t *input;
static size_t held, size;

/* Reads once more; false at the end of the input. */
static bool read_more(void)
{
    if (held == size) {
        size = size == 0 ? 1 << 16 : size * 2;
        input = realloc(input, size);
        if (input == NULL)
            give_up("there is not enough memory for a line");
    }
    ssize_t n;
    do
        n = read(STDIN_FILENO, input + held, size - held);
    while (n < 0 && errno == EINTR);
    if (n < 0)
        give_up("the cases cannot be read");
    held += (size_t)n;
    return n > 0;
}

/* Answers every whole line, of which none ends before `seen`, and moves the rest to the front. */
static void answer_lines(size_t seen)
{
    size_t from = 0;
    for (uint8_t *end; (end = memchr(input + seen, '\n', held - seen)) != NULL;) {
        size_t at = (size_t)(end - input);
        answer((struct text){input + from, at - from});
        from = seen = at + 1;
    }
    memmove(input, input + from, held - from);
    held -= from;
}

static void read_words(int words, char **word)
{
    if (words < 2)
        return;
    char *end;
    errno = 0;
    unsigned long cells = strtoul(word[1], &end, 10);
    if (words > 2 || errno != 0 || *end != '\0' || word[1][0] < '0' || word[1][0] > '9' || cells > SIZE_MAX / 16)
        give_up("usage: answers [CELLS]");
    most_cells = cells;
}

int main(int words, char **word)
{
    read_words(words, word);
    for (size_t seen = 0; read_more(); seen = held) {
        answer_lines(seen);
        hand_on();
    }
    if (held > 0)
        answer((struct text){input, held});
    hand_on();
    return 0;
}
