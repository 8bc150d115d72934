/* Numbers that look random, the same in each run. */
#ifndef DRAW_H
#define DRAW_H

static unsigned drawn = 2463534242u;

static inline unsigned draw(unsigned below)
{
    drawn ^= drawn << 13;
    drawn ^= drawn >> 17;
    drawn ^= drawn << 5;
    return drawn % below;
}

#endif
