/* Names of files are joined with their folders' in blocks of malloc, sorted, and counted by folder. */
#include <stdlib.h>
#include <string.h>

#include "draw.h"

#define FILES 200

struct file {
    char *path;
    unsigned size;
    struct file *next;
};

struct folder {
    const char *name;
    unsigned files;
    unsigned bytes;
    struct file *first;
};

static struct folder folders[] = {
    {"var/log", 0, 0, NULL}, {"etc", 0, 0, NULL}, {"home/ada", 0, 0, NULL}, {"usr/share", 0, 0, NULL},
};
static const char *const names[] = {"notes", "mail", "draft.txt", "a.out", "table.csv", "log.1", "x"};

static char *join(const struct folder *folder, const char *name, unsigned version)
{
    unsigned length = strlen(folder->name) + 1 + strlen(name) + 1;
    char *path = malloc(length), *end;
    strcpy(path, folder->name);
    strcat(path, "/");
    strcat(path, name);
    end = path + strlen(path);
    if (version > 1)
        strcpy(end, "~backup");
    return path;
}

static void add(struct folder *folder, const char *name, unsigned version)
{
    struct file *file = malloc(sizeof *file), **link = &folder->first;
    file->path = join(folder, name, version);
    file->size = 10 + draw(5000);
    while (*link && strcmp((*link)->path, file->path) < 0)
        link = &(*link)->next;
    file->next = *link;
    *link = file;
    folder->files++;
    folder->bytes += file->size;
}

static void remove_first(struct folder *folder)
{
    struct file *file = folder->first;
    if (!file)
        return;
    folder->first = file->next;
    folder->files--;
    folder->bytes -= file->size;
    free(file->path);
    free(file);
}

static unsigned longest(const struct folder *folder)
{
    unsigned most = 0;
    for (const struct file *file = folder->first; file; file = file->next)
        if (strlen(file->path) > most)
            most = strlen(file->path);
    return most;
}

static unsigned report(void)
{
    unsigned sum = 0;
    for (unsigned i = 0; i < 4; i++)
        sum = sum * 3 + folders[i].files + folders[i].bytes + longest(&folders[i]);
    return sum;
}

static unsigned drop_small(unsigned least)
{
    unsigned dropped = 0;
    for (unsigned i = 0; i < 4; i++)
        while (folders[i].first && folders[i].first->size < least) {
            remove_first(&folders[i]);
            dropped++;
        }
    return dropped;
}

static unsigned version_of(unsigned step)
{
    return step < 30 ? 1 : draw(3);
}

int main(void)
{
    unsigned sum = 0;

    for (unsigned i = 0; i < FILES; i++) {
        struct folder *folder = &folders[draw(4)];
        add(folder, names[draw(7)], version_of(i));
        if (i % 3 == 2)
            remove_first(&folders[draw(4)]);
        if (i % 20 == 19)
            sum += report() + drop_small(400);
    }
    for (unsigned i = 0; i < FILES; i++)
        remove_first(&folders[i % 4]);
    return sum & 1;
}
