/* Labels of parcels are put together on the stack, and their checksums printed on the parcels. */
#include "draw.h"
#include "machine.h"

#define PARCELS 60
#define LABEL 40

struct town {
    const char *name;
    unsigned code;
};

struct parcel {
    const struct town *to;
    const char *street;
    unsigned house;
    unsigned weight;
    unsigned checksum;
};

static const struct town towns[] = {
    {"Ulm", 89073}, {"Bonn", 53111}, {"Kassel", 34117}, {"Garmisch-Partenkirchen", 82467}, {"Trier", 54290},
};
static const char *const streets[] = {"Mill Lane", "High Street", "Am Markt", "Harbour Road", "Kaiser-Wilhelm-Ring"};
static struct parcel parcels[PARCELS];

static void set_up(void)
{
    for (unsigned i = 0; i < PARCELS; i++) {
        parcels[i].to = &towns[i == 41 ? 3 : draw(3)];
        parcels[i].street = streets[i == 41 ? 4 : draw(4)];
        parcels[i].house = 1 + draw(i == 41 ? 2 : 120) + (i == 41 ? 140 : 0);
        parcels[i].weight = 200 + draw(9000);
    }
}

static unsigned checksum_of(const char *text)
{
    unsigned sum = 5381;
    while (*text)
        sum = sum * 33 + (unsigned char)*text++;
    return sum;
}

static char *put_town(char *to, const struct town *town)
{
    to = put_number(to, town->code);
    *to++ = ' ';
    return put_text(to, town->name);
}

static char *put_street(char *to, const struct parcel *parcel)
{
    to = put_text(to, parcel->street);
    *to++ = ' ';
    to = put_number(to, parcel->house);
    *to++ = ',';
    *to++ = ' ';
    return to;
}

__attribute__((noinline)) static unsigned print_label(const struct parcel *parcel)
{
    char label[LABEL];
    char *end = put_street(label, parcel);
    end = put_town(end, parcel->to);
    *end = 0;
    return checksum_of(label);
}

__attribute__((noinline)) static unsigned handle(struct parcel *parcel)
{
    parcel->checksum = print_label(parcel);
    return parcel->weight > 5000 ? 2 : 1;
}

static unsigned price_of(const struct parcel *parcel)
{
    static const unsigned limits[] = {500, 1000, 2000, 5000, 10000};
    unsigned price = 390;
    for (unsigned i = 0; i < sizeof limits / sizeof *limits && parcel->weight > limits[i]; i++)
        price += 110 + 60 * i;
    return price;
}

static unsigned sort_by_weight(void)
{
    unsigned swaps = 0;
    for (unsigned i = 1; i < PARCELS; i++)
        for (unsigned j = i; j && parcels[j - 1].weight > parcels[j].weight; j--) {
            struct parcel parcel = parcels[j];
            parcels[j] = parcels[j - 1];
            parcels[j - 1] = parcel;
            swaps++;
        }
    return swaps;
}

int main(void)
{
    unsigned sum = 0, hands = 0;

    set_up();
    sum += sort_by_weight();
    for (unsigned i = 0; i < PARCELS; i++) {
        hands += handle(&parcels[i]);
        sum += price_of(&parcels[i]);
    }
    return (sum + hands) & 1;
}
