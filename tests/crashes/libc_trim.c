/* Settings are read as lines of text: a name, a sign, and a value. Texts are kept in blocks of malloc, and freed when they change. */
#include <stdlib.h>
#include <string.h>

#include "draw.h"

#define SETTINGS 8
#define CHANGES 600

struct setting {
    const char *name;
    char *value;
    unsigned changes;
    struct setting *next;
};

static struct setting *settings;
static unsigned letters, unknown;
static const char *const names[] = {"host", "port", "user", "mode", "path", "size", "time", "lang"};

static char *copy_of(const char *text)
{
    char *copy = malloc(strlen(text) + 1);
    return strcpy(copy, text);
}

static void set_up(void)
{
    for (unsigned i = 0; i < SETTINGS; i++) {
        struct setting *setting = malloc(sizeof *setting);
        setting->name = names[i];
        setting->value = copy_of("none");
        setting->changes = 0;
        setting->next = settings;
        settings = setting;
    }
}

static struct setting *find(const char *name)
{
    struct setting *setting = settings;
    while (setting && strcmp(setting->name, name))
        setting = setting->next;
    return setting;
}

static void write_line(char *to, unsigned number)
{
    static const char *const values[] = {"yes", "no", "127.0.0.1", "/var/log/messages", "en", "4096", "a longer text than most"};
    to = stpcpy(to, names[draw(SETTINGS)]);
    *to++ = '=';
    if (number % 23 == 22)
        to = stpcpy(to, "        ");
    strcpy(to, values[draw(7)]);
}

static char *trimmed(char *text)
{
    unsigned length = strlen(text);
    while (length && text[length - 1] == ' ')
        text[--length] = 0;
    while (*text == ' ')
        text++;
    return text;
}

static char *cut_at(char *line, char sign)
{
    char *at = strchr(line, sign);
    if (!at)
        return 0;
    *at = 0;
    return at + 1;
}

static void change(struct setting *setting, const char *text)
{
    free(setting->value);
    setting->value = trimmed(copy_of(text));
    setting->changes++;
}

static void read_line(unsigned number)
{
    char line[80];
    write_line(line, number);
    char *value = cut_at(line, '=');
    struct setting *setting = find(line);
    if (setting && value)
        change(setting, value);
    else
        unknown++;
}

static unsigned measure(void)
{
    unsigned sum = 0;
    for (const struct setting *setting = settings; setting; setting = setting->next)
        sum += strlen(setting->value) + setting->changes + strlen(setting->name);
    return sum;
}

int main(void)
{
    set_up();
    for (unsigned i = 0; i < CHANGES; i++) {
        read_line(i);
        letters += measure();
    }
    return (letters + unknown) & 1;
}
