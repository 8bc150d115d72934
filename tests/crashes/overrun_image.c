/* Small pictures are drawn, blurred and put on a screen. Their pixels lie one behind another in one store. */
#include "draw.h"
#include "machine.h"

#define PICTURES 8
#define STORE 4096
#define SCREEN_WIDTH 40
#define SCREEN_HEIGHT 24

struct picture {
    unsigned char width;
    unsigned char height;
    unsigned short frames;
    unsigned char *pixels;
    struct picture *under;
};

static unsigned char store[STORE] __attribute__((aligned(4)));
static unsigned stored;
static unsigned char screen[SCREEN_WIDTH * SCREEN_HEIGHT];

static struct picture *new_picture(unsigned width, unsigned height, struct picture *under)
{
    struct picture *picture = (struct picture *)(store + stored);
    stored += sizeof *picture;
    picture->width = width;
    picture->height = height;
    picture->frames = 0;
    picture->under = under;
    picture->pixels = store + stored;
    stored += (width * height + 3) & ~3u;
    return picture;
}

static void fill(struct picture *picture, unsigned shade)
{
    for (unsigned i = 0; i < picture->width * picture->height; i++)
        picture->pixels[i] = shade + i % 7;
}

static void draw_line(struct picture *picture, unsigned x, unsigned y, unsigned length, unsigned shade)
{
    unsigned char *to = picture->pixels + y * picture->width + x;
    for (unsigned i = 0; i < length; i++)
        to[i] = shade;
}

static void draw_box(struct picture *picture, unsigned shade)
{
    unsigned inset = draw(3);
    for (unsigned y = inset; y + inset < picture->height; y++)
        draw_line(picture, inset, y, picture->width - inset, shade);
}

static void shadow(struct picture *picture, unsigned depth)
{
    for (unsigned y = 1; y <= picture->height; y++) {
        unsigned char *line = picture->pixels + y * picture->width;
        for (unsigned x = 0; x < depth; x++)
            line[x] = line[x] / 2;
    }
}

static void blur(struct picture *picture)
{
    for (unsigned y = 0; y < picture->height; y++) {
        unsigned char *line = picture->pixels + y * picture->width;
        for (unsigned x = 1; x + 1 < picture->width; x++)
            line[x] = (line[x - 1] + 2 * line[x] + line[x + 1]) / 4;
    }
}

static void put(const struct picture *picture, unsigned left, unsigned top)
{
    for (unsigned y = 0; y < picture->height && top + y < SCREEN_HEIGHT; y++)
        for (unsigned x = 0; x < picture->width && left + x < SCREEN_WIDTH; x++)
            screen[(top + y) * SCREEN_WIDTH + left + x] = picture->pixels[y * picture->width + x];
}

static unsigned show(struct picture *top)
{
    unsigned layers = 0;
    for (struct picture *picture = top; picture; picture = picture->under) {
        picture->frames++;
        put(picture, 3 * layers, 2 * layers);
        layers++;
    }
    return layers;
}

int main(void)
{
    struct picture *pictures[PICTURES], *top = 0;
    unsigned sum = 0;

    for (unsigned i = 0; i < PICTURES; i++) {
        top = new_picture(12 + draw(3) * 4, 4 + draw(5), top);
        pictures[i] = top;
        fill(top, 10 * i);
    }
    for (unsigned frame = 0; frame < 12; frame++) {
        struct picture *one = pictures[draw(PICTURES)];
        draw_box(one, 100 + frame);
        blur(one);
        if (frame == 4)
            shadow(pictures[2], 12);
        sum += show(frame % 3 ? pictures[PICTURES / 4] : frame < 9 ? pictures[1] : top) + screen[frame];
    }
    return sum & 1;
}
