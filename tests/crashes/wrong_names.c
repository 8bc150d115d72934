/* Runners are ranked by their times, teams get points for places, and a list of winners is written. */
#include "draw.h"
#include "machine.h"

#define RUNNERS 10
#define TEAMS 3
#define RACES 3

struct runner {
    const char *name;
    unsigned team;
    unsigned times[RACES];
    unsigned points;
};

static struct runner runners[RUNNERS] = {
    {.name = "Ada"}, {.name = "Ben"}, {.name = "Cleo"}, {.name = "Dan"}, {.name = "Eve"},
    {.name = "Finn"}, {.name = "Gil"}, {.name = "Hal"}, {.name = "Ida"}, {.name = "Jon"},
};
static const char *const teams[TEAMS] = {"red", "blue", "green"};
static unsigned order[RUNNERS], team_points[TEAMS];
static char text[100];

static void run_races(void)
{
    for (unsigned i = 0; i < RUNNERS; i++) {
        runners[i].team = draw(TEAMS);
        for (unsigned race = 0; race < RACES; race++)
            runners[i].times[race] = 6000 + draw(900);
    }
}

static void sort(unsigned race)
{
    for (unsigned i = 0; i < RUNNERS; i++) {
        unsigned at = i;
        for (; at && runners[order[at - 1]].times[race] > runners[i].times[race]; at--)
            order[at] = order[at - 1];
        order[at] = i;
    }
}

static unsigned points_for(unsigned place)
{
    static const unsigned char points[] = {10, 7, 5, 3, 1};
    return place < sizeof points ? points[place] : 0;
}

static void reward(void)
{
    for (unsigned place = 0; place < RUNNERS; place++) {
        struct runner *runner = &runners[order[place]];
        runner->points += points_for(place);
        team_points[runners[place].team] += points_for(place);
    }
}

static void print_race(unsigned race)
{
    char *to = put_text(text, "race ");
    to = put_number(to, race);
    for (unsigned place = 0; place < 3; place++) {
        to = put_text(to, place ? ", " : ": ");
        to = put_text(to, runners[order[place]].name);
        *to++ = ' ';
        to = put_number(to, runners[order[place]].times[race]);
    }
    to = put_text(to, "\n");
    write_all(STREAM_OUT, text, to - text);
}

static void print_team(unsigned team)
{
    char *to = put_text(text, teams[team]);
    to = put_text(to, " has ");
    to = put_number(to, team_points[team]);
    to = put_text(to, " points\n");
    write_all(STREAM_OUT, text, to - text);
}

static void print_runner(const struct runner *runner)
{
    char *to = put_text(text, runner->name);
    to = put_text(to, " (");
    to = put_text(to, teams[runner->team]);
    to = put_text(to, "): ");
    to = put_number(to, runner->points);
    to = put_text(to, "\n");
    write_all(STREAM_OUT, text, to - text);
}

int main(void)
{
    run_races();
    for (unsigned race = 0; race < RACES; race++) {
        sort(race);
        reward();
        print_race(race);
    }
    for (unsigned i = 0; i < RUNNERS; i++)
        print_runner(&runners[i]);
    for (unsigned team = 0; team < TEAMS; team++)
        print_team(team);
    return 0;
}
