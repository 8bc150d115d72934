/* A synthesiser has voices. A key takes a voice from a pool and gives it back; the key that was pressed last can be bent. */
#include "draw.h"

#define VOICES 8
#define KEYS 24
#define STEPS 3000
#define NONE 0xff

struct wave {
    unsigned char points[16];
};

struct voice {
    const struct wave *wave;
    unsigned pitch;
    unsigned phase;
    unsigned char next_free;
};

static struct wave waves[3];
static struct voice voices[VOICES];
static unsigned char voice_of[KEYS];
static unsigned char first_free, bent;
static unsigned mixed, refused;

static void set_up(void)
{
    for (unsigned i = 0; i < 16; i++) {
        waves[0].points[i] = i < 8 ? 255 : 0;
        waves[1].points[i] = 16 * i;
        waves[2].points[i] = i < 8 ? 32 * i : 32 * (15 - i);
    }
    for (unsigned i = 0; i < VOICES; i++)
        voices[i].next_free = i + 1 < VOICES ? i + 1 : NONE;
    for (unsigned key = 0; key < KEYS; key++)
        voice_of[key] = NONE;
    first_free = 0;
    bent = NONE;
}

static unsigned take_voice(void)
{
    unsigned number = first_free;
    if (number != NONE)
        first_free = voices[number].next_free;
    return number;
}

static void give_voice(unsigned number)
{
    voices[number].wave = 0;
    voices[number].next_free = first_free;
    first_free = number;
}

static void press(unsigned key)
{
    unsigned number;
    if (voice_of[key] != NONE)
        return;
    number = take_voice();
    if (number == NONE) {
        refused++;
        return;
    }
    voices[number].wave = &waves[key % 3];
    voices[number].pitch = 20 + key;
    voices[number].phase = 0;
    voice_of[key] = number;
    bent = number;
}

static void let_go(unsigned key)
{
    unsigned number = voice_of[key];
    if (number == NONE)
        return;
    voice_of[key] = NONE;
    give_voice(number);
}

static unsigned sound_of(struct voice *voice)
{
    voice->phase += voice->pitch;
    return voice->wave->points[voice->phase / 64 % 16];
}

static void bend(int by)
{
    if (bent == NONE)
        return;
    voices[bent].pitch += by;
    mixed += sound_of(&voices[bent]);
}

static void mix(void)
{
    for (unsigned key = 0; key < KEYS; key++)
        if (voice_of[key] != NONE)
            mixed += sound_of(&voices[voice_of[key]]);
}

static unsigned count_playing(void)
{
    unsigned count = 0;
    for (unsigned key = 0; key < KEYS; key++)
        count += voice_of[key] != NONE;
    return count;
}

int main(void)
{
    set_up();
    for (unsigned step = 0; step < STEPS; step++) {
        unsigned key = draw(KEYS);
        if (draw(2) || count_playing() < 2)
            press(key);
        else
            let_go(key);
        if (step % 16 == 15 && voice_of[key] != NONE)
            bend(step % 2 ? 1 : -1);
        else if (step % 100 == 90)
            bend(1);
        mix();
    }
    return (mixed + refused) & 1;
}
