/* Fields of a record, each with its terminator: a value of exactly the field's length loses it, and the next reader of
   the text takes what follows for a part of it. */
#include "draw.h"
#include "machine.h"

#define RECORDS 20

struct record {
    char code[8];
    unsigned stock;
    const char *unit;
};

struct label {
    const struct record *record;
    char text[16];
};

static struct record records[RECORDS];
static struct label labels[RECORDS];

static void set_code(struct record *record, const char *code)
{
    unsigned at = 0;
    while (at < sizeof record->code && code[at]) {
        record->code[at] = code[at];
        at++;
    }
    if (at < sizeof record->code)
        record->code[at] = 0;
}

static void print_label(struct label *label, const struct record *record)
{
    char *end = put_text(label->text, record->code);
    *end++ = '-';
    *put_text(end, record->unit) = 0;
    label->record = record;
}

static unsigned weigh(const struct label *label)
{
    return label->record->stock + label->text[0];
}

int main(void)
{
    static const char *const codes[] = {"bolt", "nut", "washer", "spring", "bracket8"};
    unsigned sum = 0;

    for (int i = 0; i < RECORDS; i++) {
        records[i].stock = 0x01010101u * (1 + draw(200));
        records[i].unit = i % 2 ? "box" : "piece";
        set_code(&records[i], codes[i == 13 ? 4 : draw(4)]);
    }
    for (int i = RECORDS - 1; i >= 0; i--)
        print_label(&labels[i], &records[i]);
    for (int round = 0; round < 400; round++)
        sum += weigh(&labels[round < 250 ? draw(10) : draw(RECORDS)]);
    return sum & 1;
}
