/* Requests are put into a queue by their senders and answered later, in turn. */
#include "draw.h"
#include "machine.h"

#define QUEUE 16
#define TURNS 160

struct request {
    unsigned kind;
    unsigned value;
    unsigned *answer;
    struct request *linked;
};

static struct request *queue[QUEUE];
static struct request kept[QUEUE];
static unsigned head, tail, answered;

static void enqueue(struct request *request)
{
    if (tail - head < QUEUE)
        queue[tail++ % QUEUE] = request;
}

static struct request *slot(void)
{
    return &kept[tail % QUEUE];
}

__attribute__((noinline)) static unsigned mix(unsigned a, unsigned b, unsigned c)
{
    unsigned parts[8];
    for (unsigned i = 0; i < 8; i++)
        parts[i] = (a << i) + b * (c >> i);
    for (unsigned i = 1; i < 8; i++)
        parts[i] ^= parts[(a + i) % 8] + i;
    return parts[a % 8] ^ parts[b % 8] ^ parts[c % 8];
}

__attribute__((noinline)) static void ask(unsigned kind, unsigned value, unsigned *answer)
{
    struct request *request = slot();
    request->kind = kind;
    request->value = value;
    request->answer = answer;
    request->linked = 0;
    enqueue(request);
}

__attribute__((noinline)) static void ask_two(unsigned value, unsigned *answer)
{
    struct request second = {2, value / 3, answer, 0};
    struct request *request = slot();
    request->kind = 1;
    request->value = value;
    request->answer = answer;
    request->linked = &second;
    enqueue(request);
    if (second.value > 100)
        second.value -= 50;
}

static unsigned compute(const struct request *request)
{
    switch (request->kind) {
    case 0:
        return request->value + 1;
    case 1:
        return 2 * request->value;
    default:
        return mix(request->value, 3, 5);
    }
}

static void answer_one(void)
{
    if (head == tail)
        return;
    struct request *request = queue[head++ % QUEUE];
    *request->answer += compute(request);
    if (request->linked) {
        struct request *linked = request->linked;
        *linked->answer += compute(linked);
    }
    answered++;
}

__attribute__((noinline)) static unsigned noise(unsigned turn)
{
    unsigned words[24], sum = 0;
    for (unsigned i = 0; i < 24; i++)
        words[i] = (turn + i * i) * 0x00104081u;
    for (unsigned i = 0; i < 24; i++)
        sum ^= words[(i * 5 + turn) % 24];
    return sum;
}

int main(void)
{
    static unsigned answers[4];
    unsigned sum = 0;

    for (unsigned turn = 0; turn < TURNS; turn++) {
        if (turn > 90 && draw(9) == 0)
            ask_two(draw(400), &answers[turn % 4]);
        else
            ask(draw(3), draw(400), &answers[turn % 4]);
        sum += noise(turn);
        if (turn % 2)
            answer_one();
        if (tail - head > 8)
            answer_one();
    }
    return (sum + answers[0] + answered) & 1;
}
