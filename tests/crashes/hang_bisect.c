/* Trains have times at which they leave. A traveller asks for the next one after a time. */
#include "draw.h"
#include "machine.h"

#define LINES 4
#define MOST 48
#define QUESTIONS 300

struct line {
    const char *goal;
    unsigned count;
    unsigned short times[MOST];
    unsigned asked;
};

static struct line lines[LINES] = {{.goal = "Harbour"}, {.goal = "Mill"}, {.goal = "Castle"}, {.goal = "Airport"}};
static unsigned waited, missed;
static char text[96];

static void make_plan(struct line *line, unsigned every)
{
    unsigned time = 300 + draw(40);
    line->count = 0;
    while (time < 1400 && line->count < MOST) {
        line->times[line->count++] = time;
        time += every + draw(8);
    }
}

/* The place of the first time that isn't before `time`, or `count`. */
static unsigned place_of(const struct line *line, unsigned time)
{
    unsigned low = 0, high = line->count;
    while (low < high) {
        unsigned middle = (low + high) / 2;
        if (line->times[middle] < time)
            low = middle + 1;
        else
            high = middle;
    }
    return low;
}

/* The place of the last time that isn't after `time`; there must be one. */
static unsigned place_before(const struct line *line, unsigned time)
{
    unsigned low = 0, high = line->count - 1;
    while (low < high) {
        unsigned middle = (low + high) / 2;
        if (line->times[middle] <= time)
            low = middle;
        else
            high = middle - 1;
    }
    return low;
}

static void cancel(struct line *line, unsigned place)
{
    line->count--;
    for (unsigned i = place; i < line->count; i++)
        line->times[i] = line->times[i + 1];
}

static void ask(struct line *line, unsigned time)
{
    unsigned place = place_of(line, time);
    line->asked++;
    if (place == line->count)
        missed++;
    else
        waited += line->times[place] - time;
}

static unsigned minutes_since(const struct line *line, unsigned time)
{
    return time < line->times[0] ? 0 : time - line->times[place_before(line, time)];
}

static void print(const struct line *line)
{
    char *end = put_text(text, line->goal);
    end = put_number(put_text(end, ": "), line->count);
    end = put_number(put_text(end, " trains, asked "), line->asked);
    end = put_number(put_text(end, ", last at "), line->times[line->count - 1]);
    *end++ = '\n';
    write_all(STREAM_OUT, text, end - text);
}

int main(void)
{
    unsigned since = 0;

    for (unsigned i = 0; i < LINES; i++)
        make_plan(&lines[i], 15 + 9 * i);
    for (unsigned i = 0; i < QUESTIONS; i++) {
        struct line *line = &lines[draw(LINES)];
        unsigned time = 250 + draw(1150);
        ask(line, time);
        if (i > 200 && i % 10 == 0)
            cancel(line, draw(line->count));
        if (i % 25 == 24)
            since += minutes_since(line, time);
    }
    for (unsigned i = 0; i < LINES; i++)
        print(&lines[i]);
    return (since + waited + missed) & 1;
}
