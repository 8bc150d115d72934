/* Each station's lowest and highest temperature of a day, and the coldest station. */
#include <stdio.h>
#include <stdlib.h>

struct station {
    const char *name;
    int lowest;
    int highest;
    unsigned readings;
    struct station *next;
};

static struct station *first;

static struct station *new_station(const char *name)
{
    struct station *station = malloc(sizeof *station);

    station->name = name;
    station->readings = 0;
    station->next = first;
    first = station;
    return station;
}

static void add_reading(struct station *station, int degrees)
{
    if (!station->readings || degrees < station->lowest)
        station->lowest = degrees;
    if (!station->readings || degrees > station->highest)
        station->highest = degrees;
    station->readings++;
}

static const struct station *coldest(void)
{
    const struct station *found = first;

    for (const struct station *station = first; station; station = station->next)
        if (station->lowest < found->lowest)
            found = station;
    return found;
}

int main(void)
{
    static const char *const names[] = {"harbour", "mill", "ferry", "hill", "bridge"};
    unsigned seed = 7;

    free(calloc(50, 20));
    for (unsigned i = 0; i < 5; i++) {
        struct station *station = new_station(names[i]);
        for (unsigned hour = 0; hour < 24 && i != 2; hour++) {
            seed = seed * 1103515245 + 12345;
            add_reading(station, (int)(seed >> 16) % 15 + 3);
        }
    }
    printf("coldest: %s with %d\n", coldest()->name, coldest()->lowest);
    return 0;
}
