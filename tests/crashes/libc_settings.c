/* Settings have names and values. Sections take over settings of another section until they get their own. */
#include <stdlib.h>
#include <string.h>

#include "draw.h"

#define SECTIONS 6
#define NAMES 8
#define STEPS 900

struct setting {
    char *value;
    unsigned changes;
    unsigned is_own;
};

struct section {
    struct setting settings[NAMES];
    unsigned taken_over;
};

static struct section *sections[SECTIONS];

static char *make_value(void)
{
    unsigned length = 4 + draw(24);
    char *value = malloc(length + 1);
    for (unsigned i = 0; i < length; i++)
        value[i] = 'A' + draw(26);
    value[length] = 0;
    return value;
}

static struct section *new_section(void)
{
    struct section *section = calloc(1, sizeof *section);
    for (unsigned i = 0; i < NAMES; i++) {
        section->settings[i].value = make_value();
        section->settings[i].is_own = 1;
    }
    return section;
}

static void forget(struct setting *setting)
{
    if (setting->is_own)
        free(setting->value);
    setting->value = NULL;
    setting->is_own = 0;
}

static void set(struct section *section, unsigned name)
{
    struct setting *setting = &section->settings[name];
    forget(setting);
    setting->value = make_value();
    setting->is_own = 1;
    setting->changes++;
}

static void take_over(struct section *to, const struct section *from, unsigned name)
{
    struct setting *setting = &to->settings[name];
    if (to == from || setting->value == from->settings[name].value)
        return;
    forget(setting);
    *setting = from->settings[name];
    to->taken_over++;
}

static void use_copy(struct section *to, const struct section *from, unsigned name)
{
    struct setting *setting = &to->settings[name];
    if (to == from || !from->settings[name].value)
        return;
    forget(setting);
    setting->value = strdup(from->settings[name].value);
    setting->is_own = 1;
}

static unsigned length_of(const struct section *section)
{
    unsigned length = 0;
    for (unsigned i = 0; i < NAMES; i++)
        if (section->settings[i].value)
            length += strlen(section->settings[i].value);
    return length;
}

static void close_section(unsigned number)
{
    for (unsigned i = 0; i < NAMES; i++)
        forget(&sections[number]->settings[i]);
    free(sections[number]);
    sections[number] = new_section();
}

int main(void)
{
    unsigned sum = 0;

    for (unsigned i = 0; i < SECTIONS; i++)
        sections[i] = new_section();
    for (unsigned i = 0; i < STEPS; i++) {
        unsigned what = draw(20), one = draw(SECTIONS), other = draw(SECTIONS), name = draw(NAMES);
        if (what < 9)
            set(sections[one], name);
        else if (what < 14)
            use_copy(sections[one], sections[other], name);
        else if (what == 14 && i > 150)
            take_over(sections[one], sections[other], name);
        else if (what == 15)
            close_section(one);
        else
            sum += length_of(sections[one]);
    }
    return (sum + sections[0]->taken_over) & 1;
}
