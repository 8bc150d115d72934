/* A league: teams play each other, and the table is sorted by points, then by goals. */
#include "draw.h"
#include "machine.h"

#define TEAMS 8
#define ROUNDS 3

struct team {
    const char *name;
    unsigned short played;
    unsigned short won;
    unsigned short drawn_games;
    unsigned short points;
    short scored;
    short against;
};

static struct team teams[TEAMS] = {
    {.name = "North"}, {.name = "South"}, {.name = "Harbour"}, {.name = "Mill"},
    {.name = "Castle"}, {.name = "Bridge"}, {.name = "Meadow"}, {.name = "Tower"},
};
static unsigned char order[TEAMS];
static char text[80];
static unsigned games;

static void count(struct team *team, unsigned scored, unsigned against)
{
    team->played++;
    team->scored += scored;
    team->against += against;
    if (scored > against) {
        team->won++;
        team->points += 3;
    } else if (scored == against) {
        team->drawn_games++;
        team->points += 1;
    }
}

static void play(unsigned home, unsigned guest)
{
    unsigned home_goals = draw(5), guest_goals = draw(4);
    if (games % 13 == 12) {             /* called off: it counts as 3 to 0 */
        home_goals = 3;
        guest_goals = 0;
    }
    count(&teams[home], home_goals, guest_goals);
    count(&teams[guest], guest_goals, home_goals);
    games++;
}

static int difference(const struct team *team)
{
    return team->scored - team->against;
}

static int is_before(const struct team *one, const struct team *other)
{
    if (one->points != other->points)
        return one->points > other->points;
    if (difference(one) != difference(other))
        return difference(one) > difference(other);
    return one->scored > other->scored;
}

static void sort(void)
{
    for (unsigned i = 0; i < TEAMS; i++)
        order[i] = i;
    for (unsigned i = 1; i < TEAMS; i++)
        for (unsigned j = i; j > 1 && is_before(&teams[order[j]], &teams[order[j - 1]]); j--) {
            unsigned char team = order[j];
            order[j] = order[j - 1];
            order[j - 1] = team;
        }
}

static void print_place(unsigned place, const struct team *team)
{
    char *end = put_number(text, place + 1);
    end = put_text(put_text(end, ". "), team->name);
    end = put_number(put_text(end, " "), team->points);
    end = put_number(put_text(end, " points, "), team->scored);
    end = put_number(put_text(end, ":"), team->against);
    end = put_number(put_text(end, ", won "), team->won);
    *end++ = '\n';
    write_all(STREAM_OUT, text, end - text);
}

int main(void)
{
    for (unsigned round = 0; round < ROUNDS; round++)
        for (unsigned home = 0; home < TEAMS; home++)
            for (unsigned guest = 0; guest < TEAMS; guest++)
                if (home != guest)
                    play(home, guest);
    sort();
    for (unsigned place = 0; place < TEAMS; place++)
        print_place(place, &teams[order[place]]);
    return 0;
}
