/* A lending library's list of members, with a bug: `rename` copies a name without asking whether it
   fits. A name that is too long runs on into the member's `next`. For the rest of the month nothing
   goes wrong, since the days find their members by number; then the report walks the list. */
#include "machine.h"

#define MEMBERS 32
#define DAYS 30
#define VISITS 20

struct member {
    char name[16];
    struct member *next;
    unsigned books;
    unsigned visits;
};

static struct member members[MEMBERS];
static struct member *first;
static unsigned random = 2463534242u;

static unsigned draw(unsigned below)
{
    random ^= random << 13;
    random ^= random >> 17;
    random ^= random << 5;
    return random % below;
}

static void rename(struct member *member, const char *name)
{
    *put_text(member->name, name) = 0; /* the bug */
}

static void enrol(void)
{
    for (int i = MEMBERS - 1; i >= 0; i--) {
        *put_number(put_text(members[i].name, "member "), i) = 0;
        members[i].next = first;
        first = &members[i];
    }
}

static void one_day(void)
{
    for (int visit = 0; visit < VISITS; visit++) {
        struct member *member = &members[draw(MEMBERS)];
        member->visits++;
        if (member->books < 5)
            member->books += draw(3);
        else
            member->books = 0;
    }
}

static void report(void)
{
    static char text[64 * MEMBERS];
    char *end = text;
    for (struct member *member = first; member; member = member->next) {
        end = put_text(end, member->name);
        end = put_text(end, ": ");
        end = put_number(end, member->visits);
        end = put_text(end, "\n");
    }
    write_all(STREAM_OUT, text, end - text);
}

static void say(const char *text)
{
    char line[64];
    write_all(STREAM_OUT, line, put_text(line, text) - line);
}

int main(void)
{
    enrol();
    say("enrolled\n");
    for (int day = 0; day < DAYS; day++) {
        if (day == 3)
            rename(&members[20], "Josephine Hallgarten"); /* 20 characters and the 0 */
        one_day();
    }
    say("end of the month\n");
    report();
    return 0;
}
