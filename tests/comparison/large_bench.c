#include "large_bench.h"

/* Devices that give an image so many bytes; 0 if none do. */
static size_t kinds_for_length(enum kind *kinds, size_t length, size_t large)
{
    const size_t least = TABLE + large * (ENTRY_BYTES + 8235);

    for (size_t a = 0; a + large <= MOST_DEVICES; a++)
        for (size_t b = 0; a + b + large <= MOST_DEVICES; b++) {
            const size_t now = least + a * (ENTRY_BYTES + 555)
                               + b * (ENTRY_BYTES + 171);
            const size_t rest = now > length ? 1 : length - now;
            const size_t c = rest / (ENTRY_BYTES + 144);
            size_t i = 0;

            if (rest % (ENTRY_BYTES + 144) != 0
                || a + b + c + large > MOST_DEVICES)
                continue;
            while (i < a + b + c + large) {
                kinds[i] = i < large           ? DS1996
                           : i < large + a     ? DS1993
                           : i < large + a + b ? DS1992
                                               : DS1982;
                i++;
            }
            return i;
        }
    return 0;
}

static void reverse(enum kind *kinds, size_t count)
{
    for (size_t i = 0; i < count / 2; i++) {
        const enum kind kind = kinds[i];

        kinds[i] = kinds[count - 1 - i];
        kinds[count - 1 - i] = kind;
    }
}

/* From 65,500 bytes on with four to seven DS1996; then eight and nine. */
int large_bench(struct bench *b, size_t number, int reversed)
{
    enum kind kinds[MOST_DEVICES] = { DS1996, DS1996, DS1996, DS1996, DS1996,
                                      DS1996, DS1996, DS1996, DS1996 };
    const size_t length = 65500 + number / 4;
    size_t count = 8 + number % 2;

    if (number < LARGE_BENCHES - 2)
        count = kinds_for_length(kinds, length, 4 + number % 4);
    if (count == 0) /* an image can hold seven DS1996, and not eight */
        count = length > MOST_IMAGE_BYTES ? 8 : 7;
    if (reversed)
        reverse(kinds, count);
    bench_make(b, kinds, count, number);
    return b->length <= MOST_IMAGE_BYTES;
}
