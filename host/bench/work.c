/* work.c: what is sealed and opened. */
#include "work.h"

#include <stdio.h>
#include <stdlib.h>
#include <string.h>

struct work works[WORKS] = {
    {.eqs = 1},
    {.eqs = 8},
    {.eqs = 64},
    {.eqs = 1500},
    {.eqs = 65536},
    {.eqs = 4194303},
    {.eqs = 6604, .records = 254},
    {.eqs = 6604, .records = 254},
    {.eqs = 7278, .records = 1},
};

struct work idle_works[IDLE_WORKS] = {
    {.eqs = 1500, .idle = 70},
    {.eqs = 1500, .idle = 100},
};

const uint8_t work_key[16] = {0x2b, 0x7e, 0x15, 0x16, 0x28, 0xae, 0xd2, 0xa6, 0xab, 0xf7, 0x15, 0x88, 0x09, 0xcf, 0x4f, 0x3c};

/* Both keys present, the second the first turned round; MAC and LLID. */
uint8_t work_settings[41];

static uint64_t seed;

static uint8_t random_octet(void)
{
    seed = seed * UINT64_C(6364136223846793005) + UINT64_C(1442695040888963407);
    return (uint8_t)(seed >> 56);
}

/* EQs of random data; one in eight has control characters. */
static void put_eqs(uint8_t *octets, size_t eqs)
{
    for (size_t e = 0; e < eqs; e++) {
        octets[9 * e] = random_octet() < 32 ? random_octet() : 0;
        for (int j = 1; j < 9; j++)
            octets[9 * e + (size_t)j] = random_octet();
    }
}

/* Of the blocks of two EQs, `idle` in a hundred. */
static void put_idle(uint8_t *octets, size_t eqs, int idle)
{
    for (size_t e = 0; e < eqs; e += 2) {
        if (random_octet() * 100 >= idle * 256)
            continue;
        octets[9 * e] = 0xff;
        if (e + 1 < eqs)
            octets[9 * e + 9] = 0xff;
    }
}

static void put_number(uint8_t *octets, int n, uint64_t value)
{
    for (int i = 0; i < n; i++)
        octets[i] = (uint8_t)(value >> 8 * (n - 1 - i));
}

static void put_record(uint8_t *record, size_t i, size_t eqs)
{
    uint64_t clock = WORK_CLOCK + 1000 * i;
    record[0] = i % 4 == 3;
    record[1] = WORK_CHANNEL;
    put_number(record + 2, 2, 5);
    record[4] = i % 2 == 0 ? 1 : 3;
    record[5] = clock % 64;
    put_number(record + 6, 6, clock);
    put_number(record + 12, 4, eqs);
    put_eqs(record + 16, eqs);
}

/* All records have `each` EQs; the last one has what is left. */
static void put_block(struct work *w, size_t each)
{
    size_t n = w->records, offset = 2 + 8 * n;
    put_number(w->input, 2, n);
    for (size_t i = 0; i < n; i++) {
        size_t eqs = i + 1 < n ? each : w->eqs - each * (n - 1);
        put_number(w->input + 2 + 8 * i, 4, offset);
        put_number(w->input + 6 + 8 * i, 4, 16 + 9 * eqs);
        put_record(w->input + offset, i, eqs);
        offset += 16 + 9 * eqs;
    }
}

static uint8_t *octets_of(size_t length)
{
    uint8_t *octets = aligned_alloc(64, (length + 63) / 64 * 64);
    if (octets == NULL) {
        fprintf(stderr, "no memory for the work\n");
        exit(1);
    }
    memset(octets, 0, length);
    return octets;
}

void works_make(void)
{
    seed = 1;
    work_settings[0] = 3;
    for (int i = 0; i < 16; i++) {
        work_settings[1 + i] = work_key[i];
        work_settings[17 + i] = work_key[15 - i];
    }
    put_number(work_settings + 33, 6, WORK_MAC);
    put_number(work_settings + 39, 2, 5);
    for (int i = 0; i < WORKS; i++) {
        struct work *w = &works[i];
        w->length = 9 * w->eqs + (w->records > 0 ? 2 + 24 * w->records : 0);
        w->input = octets_of(w->length);
        w->output = octets_of(w->length);
        if (w->records == 0)
            put_eqs(w->input, w->eqs);
        else
            put_block(w, i == WORKS_PAYLOADS ? 8 : w->eqs / w->records);
    }
}

void idle_works_make(void)
{
    for (int i = 0; i < IDLE_WORKS; i++) {
        struct work *w = &idle_works[i];
        w->length = 9 * w->eqs;
        w->input = octets_of(w->length);
        w->output = octets_of(w->length);
        put_eqs(w->input, w->eqs);
        put_idle(w->input, w->eqs, w->idle);
    }
}

uint64_t work_hash(const uint8_t *octets, size_t length)
{
    uint64_t hash = length;
    for (size_t i = 0; i < length; i++)
        hash = (hash ^ octets[i]) * UINT64_C(0x100000001b3);
    return hash;
}
