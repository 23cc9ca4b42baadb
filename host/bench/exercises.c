/* exercises.c: which lost message of a script matters (jazmotip.h, Exercises). */
#include "exercises.h"

#include "jazmotip.h"
#include "measure.h"

#include <stdio.h>
#include <stdlib.h>

enum { STEP = 9, MOST = 8 + STEP * 64 };

struct script {
    uint8_t octets[MOST];
    size_t length;
};

/* Interval 1, then the kinds again and again, advances by one tick. */
static void make(struct script *script, const uint8_t *kinds, size_t n, size_t steps)
{
    *script = (struct script){.length = 8 + STEP * steps};
    script->octets[7] = 1;
    for (size_t k = 0; k < steps; k++) {
        uint8_t *step = script->octets + 8 + STEP * k;
        step[0] = kinds[k % n];
        step[8] = step[0] == JAZMOTIP_STEP_ADVANCE;
    }
}

static void play(void *job)
{
    const struct script *script = job;
    MEASURE_MARK();
    jazmotip_loss loss = jazmotip_first_loss(script->octets, script->length);
    if (loss.number != 0 || loss.step != 0) {
        fprintf(stderr, "exercises.c: %u, step %zu\n", loss.number, loss.step);
        exit(1);
    }
}

void exercises_print(void)
{
    /* two of each message between two advances: either may be lost */
    static const uint8_t kinds[] = {JAZMOTIP_STEP_CLOCK_MESSAGE, JAZMOTIP_STEP_CLOCK_ACKNOWLEDGEMENT, JAZMOTIP_STEP_ENVELOPE_DOWN,
                                    JAZMOTIP_STEP_ENVELOPE_UP, JAZMOTIP_STEP_ADVANCE};
    static struct script scripts[2];
    static struct rounds rounds;
    struct contestant contestants[2];
    make(&scripts[0], kinds + 4, 1, 1);
    make(&scripts[1], kinds, 5, 64);
    for (int k = 0; k < 2; k++)
        contestants[k] = (struct contestant){.here = play, .job = &scripts[k]};
    measure_rounds(&rounds, contestants, 2, 51, 1e6);
    printf("| A script, ns | one step | 64 steps, none matters | stack, octets |\n|---|---:|---:|---:|\n| first loss |");
    for (int k = 0; k < 2; k++)
        printf(" %s |", measure_commas(measure_cost(&rounds, k).median));
    printf(" %s |\n\n", measure_commas((double)measure_stack(play, &scripts[1])));
}
