#include "dice.h"

/* The generator known as splitmix64: every start gives a good sequence. */
uint64_t dice_roll(struct dice *d)
{
    uint64_t z = d->state += 0x9E3779B97F4A7C15;

    z = (z ^ z >> 30) * 0xBF58476D1CE4E5B9;
    z = (z ^ z >> 27) * 0x94D049BB133111EB;
    return z ^ z >> 31;
}

/* The seed is scattered first: cases of neighbouring seeds do not coincide. */
struct dice dice_for(uint64_t seed, uint64_t number)
{
    struct dice d = { seed };

    d.state = dice_roll(&d) ^ number;
    d.state = dice_roll(&d);
    return d;
}

size_t dice_below(struct dice *d, size_t bound)
{
    return (size_t)(dice_roll(d) % bound);
}

int dice_once_in(struct dice *d, size_t times)
{
    return dice_below(d, times) == 0;
}

void dice_fill(struct dice *d, uint8_t *bytes, size_t count)
{
    uint64_t roll = 0;

    for (size_t i = 0; i < count; i++) {
        roll = i % 8 == 0 ? dice_roll(d) : roll >> 8;
        bytes[i] = (uint8_t)roll;
    }
}
