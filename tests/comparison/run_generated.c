/*
 * Cases of the run that a seed and a number determine: a bench, a session of
 * transactions that mostly make sense, and at times damage.
 */
#include "run.h"

#include "damage.h"
#include "room.h"
#include "session.h"
#include "some_bench.h"

/* A damage for any of the refusals, each as often as the others. */
static size_t which_damage(struct dice *dice)
{
    const unsigned number = run_refusals[dice_below(dice, RUN_REFUSALS)];
    size_t damage;

    do
        damage = dice_below(dice, damage_count());
    while (damage_number(damage) != number);
    return damage;
}

static void do_damage(struct dice *dice, struct run_case *c, size_t damage)
{
    damage_do(damage, c, (size_t)(dice_roll(dice) >> 20));
}

/* One damage or two; or some byte near the start, where the table is. */
static void some_damage(struct dice *dice, struct run_case *c)
{
    const size_t bytes = c->bench.length < 600 ? c->bench.length : 600;
    const size_t first = which_damage(dice), second = which_damage(dice);

    if (dice_once_in(dice, 4))
        c->bench.bytes[dice_below(dice, bytes)] = (uint8_t)dice_roll(dice);
    else
        do_damage(dice, c, first > second ? first : second);
    if (first != second && dice_once_in(dice, 2))
        do_damage(dice, c, first < second ? first : second);
}

void run_generated_case(struct run_case *c, uint64_t seed, uint64_t number)
{
    struct dice dice = dice_for(seed, number);

    some_bench(&dice, &c->bench, some_count(&dice));
    some_session(&dice, c);
    c->answers = room_by_dice(&dice, c->trace.length);
    c->expected = ANY_NUMBER;
    c->null = dice_once_in(&dice, 2);
    if (dice_once_in(&dice, c->bench.length > MOST_IMAGE_BYTES ? 2 : 6))
        some_damage(&dice, c);
}
