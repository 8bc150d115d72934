/* A text is filled into lines of a given width: words are kept whole, and a line is as long as it can be. */
#include "draw.h"
#include "machine.h"

#define WIDTH 24
#define WORDS 60
#define LONGEST 9

struct word {
    char letters[LONGEST + 1];
    unsigned length;
    unsigned ends_sentence;
};

static struct word words[WORDS];
static char line[2 * WIDTH + LONGEST];
static unsigned used, lines, spaces;

static void make_word(struct word *word, unsigned number)
{
    word->length = 1 + draw(LONGEST - 1);
    for (unsigned i = 0; i < word->length; i++)
        word->letters[i] = 'a' + draw(26);
    word->letters[word->length] = 0;
    word->ends_sentence = number % 7 == 6;
}

static void put_letter(char letter)
{
    line[used++] = letter;
}

static void put_word(const struct word *word)
{
    for (unsigned i = 0; i < word->length; i++)
        put_letter(word->letters[i]);
    if (word->ends_sentence)
        put_letter('.');
}

static void end_line(void)
{
    put_letter('\n');
    write_all(STREAM_OUT, line, used);
    used = 0;
    lines++;
}

static void put_space(void)
{
    put_letter(' ');
    spaces++;
}

static unsigned room_for(const struct word *word)
{
    return word->length + (used ? 1 : 0);
}

static void add(const struct word *word)
{
    if (used + room_for(word) > WIDTH)
        end_line();
    if (used)
        put_space();
    put_word(word);
}

static void fill(unsigned from, unsigned to)
{
    for (unsigned i = from; i < to; i++)
        add(&words[i]);
    if (used)
        end_line();
}

static void print_head(unsigned number)
{
    char text[40], *end = put_text(text, "part ");
    end = put_number(end, number);
    *end++ = '\n';
    write_all(STREAM_OUT, text, end - text);
}

static void print_end(void)
{
    char text[60], *end = put_number(text, lines);
    end = put_number(put_text(end, " lines, "), spaces);
    end = put_text(end, " spaces\n");
    write_all(STREAM_OUT, text, end - text);
}

int main(void)
{
    for (unsigned i = 0; i < WORDS; i++)
        make_word(&words[i], i);
    for (unsigned part = 0; part < 3; part++) {
        print_head(part + 1);
        fill(part * WORDS / 3, (part + 1) * WORDS / 3);
    }
    print_end();
    return 0;
}
