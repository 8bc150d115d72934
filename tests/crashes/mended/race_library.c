/* A library: the catalogue tells each book's place, and the shelves have the books. Hart 0 moves books, harts 1 and 2
   read them. The catalogue and the shelves have a lock each. */
#include "machine.h"

#define BOOKS 5
#define PLACES 8
#define MOVES 20
#define READINGS 24

struct book {
    unsigned number;
    unsigned pages;
    unsigned read;
};

static struct book books[BOOKS];
static struct book *shelves[PLACES];
static unsigned place_of[BOOKS];
static unsigned catalogue_lock, shelves_lock;
static unsigned opened;

static void lock(unsigned *word)
{
    while (__atomic_exchange_n(word, 1, __ATOMIC_ACQUIRE))
        ;
}

static void unlock(unsigned *word)
{
    __atomic_store_n(word, 0, __ATOMIC_RELEASE);
}

static unsigned find_place(unsigned number)
{
    unsigned place;

    lock(&catalogue_lock);
    place = place_of[number];
    unlock(&catalogue_lock);
    return place;
}

static unsigned read_book(unsigned number)
{
    unsigned place = find_place(number);
    unsigned pages;

    lock(&shelves_lock);
    pages = shelves[place]->pages;
    shelves[place]->read++;
    unlock(&shelves_lock);
    return pages;
}

static unsigned free_place(unsigned from)
{
    while (shelves[from % PLACES])
        from++;
    return from % PLACES;
}

static void move_book(unsigned number, unsigned wanted)
{
    unsigned old, new;

    lock(&catalogue_lock);
    old = place_of[number];
    new = free_place(wanted);
    place_of[number] = new;
    unlock(&catalogue_lock);
    lock(&shelves_lock);
    shelves[new] = shelves[old];
    shelves[old] = 0;
    unlock(&shelves_lock);
}

static unsigned browse(unsigned hart)
{
    unsigned pages = 0;

    for (unsigned i = 0; i < READINGS; i++)
        pages += read_book((i * hart + i / 3) % BOOKS);
    return pages;
}

int other_harts(int hart, int harts)
{
    (void)harts;
    while (!__atomic_load_n(&opened, __ATOMIC_ACQUIRE))
        ;
    return browse(hart) & 1;
}

int main(void)
{
    volatile unsigned dust[16];

    for (unsigned i = 0; i < BOOKS; i++) {
        books[i].number = i;
        books[i].pages = 100 + 20 * i;
        shelves[i] = &books[i];
        place_of[i] = i;
    }
    __atomic_store_n(&opened, 1, __ATOMIC_RELEASE);
    for (unsigned i = 0; i < MOVES; i++) {
        for (unsigned j = 0; j < 16; j++)
            dust[j] = i + j;
        move_book(i * 3 % BOOKS, i + dust[i % 16]);
    }
    return 0;
}
