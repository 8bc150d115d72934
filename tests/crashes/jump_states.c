/* A parser of a line protocol, as a machine of states: each state is a function that takes a character. */
#include "draw.h"
#include "machine.h"

#define LINES 40

struct parser {
    unsigned char state;
    unsigned char depth;
    unsigned char stack[6];
    unsigned numbers;
    unsigned words;
    unsigned errors;
    unsigned value;
};

enum { START, WORD, NUMBER, TEXT, COMMENT, STATES };

static struct parser parser;
static const char *const lines[] = {
    "set speed 120\n", "name 'left engine'\n", "# a comment\n", "(list 1 (2 3) 4)\n", "stop\n", "((a) (b (c 7)))\n",
    "((((((((x 300))))))))\n",
};

static void enter(unsigned char state)
{
    parser.stack[parser.depth++] = parser.state;
    parser.state = state;
}

static void leave(void)
{
    if (parser.depth)
        parser.state = parser.stack[--parser.depth];
    else
        parser.errors++;
}

static void start(char c)
{
    if (c >= '0' && c <= '9') {
        parser.value = c - '0';
        parser.state = NUMBER;
    } else if (c >= 'a' && c <= 'z') {
        parser.state = WORD;
    } else if (c == '(') {
        parser.stack[parser.depth++] = START;
    } else if (c == ')') {
        leave();
    } else if (c == '\'') {
        enter(TEXT);
    } else if (c == '#') {
        parser.state = COMMENT;
    }
}

static void word(char c)
{
    if (c >= 'a' && c <= 'z')
        return;
    parser.words++;
    parser.state = START;
    start(c);
}

static void number(char c)
{
    if (c >= '0' && c <= '9') {
        parser.value = 10 * parser.value + c - '0';
        return;
    }
    parser.numbers += parser.value;
    parser.state = START;
    start(c);
}

static void text(char c)
{
    if (c == '\'')
        leave();
}

static void comment(char c)
{
    if (c == '\n')
        parser.state = START;
}

static void (*const states[STATES])(char) = {start, word, number, text, comment};

static void end_of_line(void)
{
    if (parser.state != START)
        parser.errors++;
    parser.state = START;
    parser.depth = 0;
}

static void parse(const char *line)
{
    for (; *line; line++)
        states[parser.state](*line);
    end_of_line();
}

static unsigned is_sound(void)
{
    return parser.words > parser.errors && parser.depth == 0;
}

int main(void)
{
    unsigned sum = 0;

    for (unsigned i = 0; i < LINES; i++) {
        parse(lines[i < 30 ? draw(6) : draw(7)]);
        sum += is_sound();
    }
    return (sum + parser.numbers) & 1;
}
