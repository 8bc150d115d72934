/* A bank's accounts in an array that grows: some transfers open the account that they go to. */
#include <stdlib.h>
#include <string.h>

#include "draw.h"

#define TRANSFERS 160

struct owner {
    unsigned number;
    char name[12];
};

struct account {
    unsigned number;
    unsigned balance;
    unsigned moves;
    struct owner *owner;
};

struct bank {
    struct account *accounts;
    unsigned used;
    unsigned room;
    unsigned opened;
};

static struct bank bank;

static struct owner *new_owner(unsigned number)
{
    static const char *const names[] = {"Ada", "Grace", "Edsger", "Barbara", "Donald"};
    struct owner *owner = malloc(sizeof *owner);
    owner->number = number;
    strcpy(owner->name, names[number % 5]);
    return owner;
}

static struct account *find(unsigned number)
{
    for (unsigned i = 0; i < bank.used; i++)
        if (bank.accounts[i].number == number)
            return &bank.accounts[i];
    return NULL;
}

static struct account *open_account(unsigned number)
{
    if (bank.used == bank.room) {
        bank.room += 4;
        bank.accounts = realloc(bank.accounts, bank.room * sizeof *bank.accounts);
    }
    struct account *account = &bank.accounts[bank.used++];
    account->number = number;
    account->balance = 0;
    account->moves = 0;
    account->owner = new_owner(number);
    bank.opened++;
    return account;
}

static struct account *find_or_open(unsigned number)
{
    struct account *account = find(number);
    return account ? account : open_account(number);
}

static char *statement(const struct account *account)
{
    char *text = malloc(64);
    strcpy(text, "Dear ");
    strcat(text, account->owner->name);
    strcat(text, ", the books of your bank are closed today, thank you");
    return text;
}

static unsigned transfer(unsigned from_number, unsigned to_number, unsigned amount)
{
    struct account *from = find_or_open(from_number);
    struct account *to = find_or_open(to_number);
    char *text = statement(to);
    unsigned length = strlen(text);
    from->balance -= amount;
    from->moves++;
    to->balance += amount;
    to->moves++;
    length += strlen(from->owner->name);
    free(text);
    return length;
}

static unsigned total(void)
{
    unsigned sum = 0;
    for (unsigned i = 0; i < bank.used; i++)
        sum += bank.accounts[i].balance + bank.accounts[i].moves;
    return sum;
}

int main(void)
{
    unsigned sum = 0;

    for (unsigned i = 0; i < TRANSFERS; i++) {
        unsigned from = draw(3 + i / 4), to = draw(4 + i / 4);
        if (from != to)
            sum += transfer(from, to, 1 + draw(500));
        if (i % 40 == 39)
            sum += total();
    }
    return sum & 1;
}
