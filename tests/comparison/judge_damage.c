#include "judge_damage.h"

#include "damage.h"

/* More than a judge takes, though a run would do with it. */
static int answers_long(struct judge_case *c, size_t choice)
{
    const size_t more = RECORD_ROOM - c->run.trace.length;

    c->run.answers =
        c->run.trace.length + 1 + digit(&choice, more < 64 ? more : 64);
    return 1;
}

static int work_short(struct judge_case *c, size_t choice)
{
    if (c->run.bench.length == 0)
        return 0;
    c->work = c->run.bench.length - 1;
    if (digit(&choice, 2) == 1)
        c->work -= digit(&choice, c->run.bench.length);
    return 1;
}

/* These come after those of the run, and are refused for the same reason. */
enum { OF_A_JUDGE = 2, NUMBER = 7 };

size_t judge_damage_count(void)
{
    return damage_count() + OF_A_JUDGE;
}

unsigned judge_damage_number(size_t damage)
{
    return damage < damage_count() ? damage_number(damage) : NUMBER;
}

int judge_damage_do(size_t damage, struct judge_case *c, size_t choice)
{
    if (damage < damage_count())
        return damage_do(damage, &c->run, choice);
    return damage == damage_count() ? answers_long(c, choice)
                                    : work_short(c, choice);
}
