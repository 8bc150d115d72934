/* Lines in a list: ending an empty line with a mark puts the mark before the text, into the link. */
#include "draw.h"
#include "machine.h"

#define LINES 24

struct line {
    unsigned length;
    struct line *next;
    char text[24];
};

static struct line lines[LINES];
static struct line *first;

static void type(struct line *line, const char *text)
{
    while (*text && line->length < sizeof line->text - 1)
        line->text[line->length++] = *text++;
}

static void end_with(struct line *line, char mark)
{
    line->text[line->length - 1] = mark;
}

static void erase_word(struct line *line)
{
    while (line->length && line->text[line->length - 1] != ' ')
        line->length--;
}

static unsigned checksum(const struct line *line)
{
    unsigned sum = 0;
    for (unsigned at = 0; at < line->length; at++)
        sum = sum * 31 + line->text[at];
    return sum;
}

static unsigned read_all(void)
{
    unsigned sum = 0;
    for (struct line *line = first; line; line = line->next)
        sum += checksum(line);
    return sum;
}

int main(void)
{
    unsigned sum = 0;

    for (int i = LINES - 1; i >= 0; i--) {
        lines[i].next = first;
        first = &lines[i];
    }
    for (int round = 0; round < 120; round++) {
        struct line *line = &lines[draw(LINES)];
        if (line == &lines[17] && round > 20) {
            erase_word(line);
            end_with(line, ';');
        } else {
            type(line, line == &lines[17] ? "one" : "a few words");
            end_with(line, '.');
        }
        for (int i = 0; i < 6; i++)
            sum += checksum(&lines[draw(12)]);
    }
    return (sum + read_all()) & 1;
}
