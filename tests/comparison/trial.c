#include "trial.h"

#include "subject.h"

#include <signal.h>
#include <string.h>

static const char *const names[PROGRAMS] = { "library", "second" };

static size_t count_buffers(const struct form *form)
{
    size_t count = 0;

    while (count < MOST_BUFFERS && form->buffers[count].name)
        count++;
    return count;
}

static size_t count_numbers(const struct form *form)
{
    size_t count = 0;

    while (count < MOST_NUMBERS && form->numbers[count])
        count++;
    return count;
}

void trial_create(struct trial *t, const struct form *form)
{
    memset(t, 0, sizeof *t);
    t->form = form;
    for (int i = 0; i < PROGRAMS; i++)
        for (size_t k = 0; k < count_buffers(form); k++)
            t->rooms[i][k] = guarded_create(form->buffers[k].room);
}

void trial_lend(struct trial *t, size_t buffer, const uint8_t *bytes,
                size_t length, int null)
{
    t->before[buffer] = bytes;
    for (int i = 0; i < PROGRAMS; i++) {
        uint8_t *const start = guarded_take(&t->rooms[i][buffer], length);

        if (bytes)
            memcpy(start, bytes, length);
        else
            memset(start, UNWRITTEN, length);
        t->given[i].buffers[buffer] = length == 0 && null ? NULL : start;
        t->given[i].lengths[buffer] = length;
    }
}

/* ------------------------------------------------------------------ */
/* The call                                                            */

struct call {
    void (*function)(struct given *g);
    struct given *given;
};

static void make_call(void *argument)
{
    const struct call *const c = argument;

    c->function(c->given);
}

static void call_program(struct trial *t, int program, const void *arguments)
{
    struct given *const g = &t->given[program];
    struct call call = { t->form->functions[program], g };

    g->arguments = arguments;
    for (size_t k = 0; k < MOST_NUMBERS; k++)
        g->numbers[k] = UNWRITTEN_NUMBER;
    t->faults[program] = guarded_call(make_call, &call);
}

/* The first place where bytes differ; the count where they do not. */
static size_t first_unlike(const uint8_t *left, const uint8_t *right,
                           size_t count)
{
    size_t i = 0;

    if (count == 0 || memcmp(left, right, count) == 0)
        return count;
    while (left[i] == right[i])
        i++;
    return i;
}

static struct difference buffer_difference(const struct trial *t, size_t k)
{
    const size_t length = t->given[LIBRARY].lengths[k];
    const uint8_t *const left = t->given[LIBRARY].buffers[k];
    const uint8_t *const right = t->given[SECOND].buffers[k];
    const int only_read = t->form->buffers[k].only_read;

    for (int i = 0; i < PROGRAMS; i++) {
        const size_t place =
            only_read
                ? first_unlike(t->given[i].buffers[k], t->before[k], length)
                : first_unlike(left, right, length);

        if (place < length)
            return (struct difference){ only_read ? ONLY_READ : BYTE, i, k,
                                        place, NULL };
        if (!guarded_mark_kept(&t->rooms[i][k], length))
            return (struct difference){ IN_FRONT, i, k, 0, NULL };
    }
    return (struct difference){ .aspect = ALIKE };
}

static struct difference find_difference(const struct trial *t)
{
    struct difference d = { .aspect = ALIKE };

    for (int i = 0; i < PROGRAMS; i++)
        if (t->faults[i].signal != 0)
            return (struct difference){ .aspect = FAULT, .program = i };
    for (size_t k = 0; k < count_numbers(t->form); k++)
        if (t->given[LIBRARY].numbers[k] != t->given[SECOND].numbers[k])
            return (struct difference){ .aspect = NUMBER, .which = k };
    for (size_t k = 0; k < count_buffers(t->form) && d.aspect == ALIKE; k++)
        d = buffer_difference(t, k);
    return d;
}

struct difference trial_call(struct trial *t, const void *arguments)
{
    for (int i = 0; i < PROGRAMS; i++)
        call_program(t, i, arguments);
    return find_difference(t);
}

uint64_t trial_returned(const struct trial *t)
{
    return t->given[LIBRARY].numbers[0];
}

const uint8_t *trial_bytes(const struct trial *t, size_t buffer)
{
    return t->given[LIBRARY].buffers[buffer];
}

int trial_kept(const struct trial *t, size_t buffer, size_t from)
{
    const uint8_t *const before = t->before[buffer];

    for (size_t i = from; i < t->given[LIBRARY].lengths[buffer]; i++)
        if (trial_bytes(t, buffer)[i] != (before ? before[i] : UNWRITTEN))
            return 0;
    return 1;
}

struct difference trial_claim(const char *claim)
{
    return (struct difference){ .aspect = CLAIM, .claim = claim };
}

struct difference trial_expect(const struct trial *t, struct difference d,
                               unsigned number)
{
    if (d.aspect == ALIKE && number != ANY_NUMBER
        && trial_returned(t) != number)
        return trial_claim("the number that the case is one for");
    return d;
}

struct difference trial_expect_kept(const struct trial *t,
                                    struct difference d, size_t buffer,
                                    size_t from)
{
    if (d.aspect == ALIKE && !trial_kept(t, buffer, from))
        return (struct difference){ .aspect = PAST_END, .which = buffer };
    return d;
}

int trial_hangs(const struct trial *t)
{
    return t->faults[LIBRARY].signal == SIGALRM
           || t->faults[SECOND].signal == SIGALRM;
}

int trial_can_be_cut(const struct trial *t, struct difference d)
{
    return d.aspect != ALIKE && d.aspect != PAST_END && d.aspect != CLAIM
           && !trial_hangs(t);
}

/* ------------------------------------------------------------------ */
/* Explaining                                                          */

static void explain_fault(FILE *out, const struct trial *t, int program)
{
    const struct fault fault = t->faults[program];
    size_t distance;

    if (fault.signal == SIGALRM) {
        fprintf(out, "%s: does not come back\n", names[program]);
        return;
    }
    fprintf(out, "%s: ended by signal %d, address %p\n", names[program],
            fault.signal, (const void *)fault.address);
    for (size_t k = 0; k < count_buffers(t->form); k++)
        if (guarded_overrun(&t->rooms[program][k], fault, &distance))
            fprintf(out, "    %zu bytes past the end of the %s\n",
                    distance + 1, t->form->buffers[k].name);
}

static void explain_number(FILE *out, const struct trial *t, size_t which)
{
    fprintf(out, "%s: library %llu, second %llu\n", t->form->numbers[which],
            (unsigned long long)t->given[LIBRARY].numbers[which],
            (unsigned long long)t->given[SECOND].numbers[which]);
}

static void explain_byte(FILE *out, const struct trial *t, size_t which,
                         size_t place)
{
    const uint8_t *const before = t->before[which];

    fprintf(out,
            "byte %zu of the %s: library %02X, second %02X, %02X before\n",
            place, t->form->buffers[which].name,
            t->given[LIBRARY].buffers[which][place],
            t->given[SECOND].buffers[which][place],
            before ? before[place] : UNWRITTEN);
}

void trial_explain(FILE *out, const struct trial *t, struct difference d)
{
    switch (d.aspect) {
    case ALIKE:
        fprintf(out, "alike, both return %llu\n",
                (unsigned long long)trial_returned(t));
        break;
    case FAULT:
        explain_fault(out, t, d.program);
        break;
    case NUMBER:
        explain_number(out, t, d.which);
        break;
    case BYTE:
        explain_byte(out, t, d.which, d.place);
        break;
    case ONLY_READ:
        fprintf(out, "%s: wrote into the %s at byte %zu\n", names[d.program],
                t->form->buffers[d.which].name, d.place);
        break;
    case IN_FRONT:
        fprintf(out, "%s: wrote in front of the %s\n", names[d.program],
                t->form->buffers[d.which].name);
        break;
    case PAST_END:
        fprintf(out, "both return %llu, and wrote on in the %s\n",
                (unsigned long long)trial_returned(t),
                t->form->buffers[d.which].name);
        break;
    case CLAIM:
        fprintf(out, "both return %llu, but not so: %s\n",
                (unsigned long long)trial_returned(t), d.claim);
        break;
    }
}
