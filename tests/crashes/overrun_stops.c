/* Buses report where they are. Each line keeps its last stops, and a board asks for the line's speed. */
#include "draw.h"

#define LINES 6
#define STOPS 8
#define REPORTS 400

struct report {
    unsigned short line;
    unsigned short stop;
    unsigned time;
};

struct line {
    unsigned short stops[STOPS];
    unsigned short times[STOPS];
    const unsigned *distances;
    unsigned used;
    unsigned reports;
};

static const unsigned distances[LINES][20] = {
    {4, 5, 3, 6, 7, 2, 4, 4, 5, 3, 6, 7, 2, 4, 4, 5, 3, 6, 7, 2},
    {9, 8, 9, 7, 8, 9, 8, 9, 7, 8, 9, 8, 9, 7, 8, 9, 8, 9, 7, 8},
    {1, 2, 1, 2, 1, 2, 1, 2, 1, 2, 1, 2, 1, 2, 1, 2, 1, 2, 1, 2},
};
static struct line lines[LINES];
static unsigned now;

static void set_up(void)
{
    for (unsigned i = 0; i < LINES; i++)
        lines[i].distances = distances[i];
}

static struct report next_report(void)
{
    struct report report;
    now += 1 + draw(6);
    report.line = draw(LINES);
    report.stop = draw(20);
    report.time = now;
    return report;
}

static void drop_oldest(struct line *line, unsigned count)
{
    for (unsigned i = count; i < line->used; i++) {
        line->stops[i - count] = line->stops[i];
        line->times[i - count] = line->times[i];
    }
    line->used -= count;
}

static unsigned is_known(const struct line *line, unsigned stop)
{
    for (unsigned i = 0; i < line->used; i++)
        if (line->stops[i] == stop)
            return 1;
    return 0;
}

static void add(struct line *line, const struct report *report)
{
    unsigned at = line->used;
    if (is_known(line, report->stop))
        return;
    line->stops[at] = report->stop;
    line->times[at] = report->time;
    line->used++;
    line->reports++;
}

static void keep(const struct report *report)
{
    struct line *line = &lines[report->line];
    if (report->stop < 2 && line->used > 2)
        drop_oldest(line, 2);
    if (line->used > STOPS)
        drop_oldest(line, 1);
    add(line, report);
}

static unsigned way_of(const struct line *line)
{
    unsigned way = 0;
    for (unsigned i = 0; i < line->used && i < STOPS; i++)
        way += line->distances[line->stops[i]];
    return way;
}

static unsigned speeds(void)
{
    unsigned sum = 0;
    for (unsigned i = 0; i < LINES; i++) {
        unsigned time = lines[i].used > 1 ? lines[i].times[lines[i].used - 1] - lines[i].times[0] : 0;
        if (time)
            sum += 60 * way_of(&lines[i]) / time;
    }
    return sum;
}

int main(void)
{
    unsigned sum = 0;

    set_up();
    for (unsigned i = 0; i < REPORTS; i++) {
        struct report report = next_report();
        keep(&report);
        if (i % 20 == 19)
            sum += speeds();
    }
    return sum & 1;
}
