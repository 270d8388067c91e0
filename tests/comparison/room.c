#include "room.h"

#include "digit.h"

size_t room_or_enough(size_t said, size_t needed, size_t more)
{
    return said == ENOUGH ? needed + more : said;
}

size_t room_around(size_t *number, size_t needed)
{
    const size_t room = needed + digit(number, 5);

    return room < 2 ? 0 : room - 2;
}

size_t room_by_dice(struct dice *dice, size_t needed)
{
    switch (dice_below(dice, 40)) {
    case 0:
        return dice_below(dice, needed + 1);
    case 1:
        return needed - (needed > 0);
    case 2:
    case 3:
    case 4:
    case 5:
        return needed + dice_below(dice, 40);
    default:
        return needed;
    }
}
