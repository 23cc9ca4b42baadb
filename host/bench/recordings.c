/* recordings.c: two recordings of one line (jazmotip.h, Two recordings). */
#include "recordings.h"

#include "jazmotip.h"
#include "measure.h"

#include <stdio.h>
#include <stdlib.h>
#include <string.h>

enum { EQS = 25, RECORD = 16 + 9 * EQS, RECORDS = JAZMOTIP_RECORDS, FULL = 2 + 8 * RECORDS + RECORD * RECORDS };

struct two_blocks {
    uint8_t first[FULL], second[FULL];
    size_t length;
    unsigned paired; /* records of each that the other has */
};

static void put(uint8_t *octets, uint64_t number, size_t width)
{
    for (size_t k = 0; k < width; k++)
        octets[k] = (uint8_t)(number >> 8 * (width - 1 - k));
}

/* A full block, its records in order or the other way round; from `paired` on their clocks are moved by `shift`. */
static void make_block(uint8_t *block, int backwards, unsigned paired, uint64_t shift)
{
    put(block, RECORDS, 2);
    for (unsigned i = 0; i < RECORDS; i++) {
        unsigned k = backwards ? RECORDS - 1 - i : i;
        size_t offset = 2 + 8 * RECORDS + RECORD * i;
        uint8_t *record = block + offset;
        put(block + 2 + 8 * i, offset, 4);
        put(block + 6 + 8 * i, RECORD, 4);
        memset(record, 0, RECORD);
        record[1] = 0x80;
        put(record + 2, 5, 2);
        put(record + 6, 1000 * (uint64_t)k + (k < paired ? 0 : shift), 6);
        put(record + 12, EQS, 4);
        for (size_t o = 16; o < RECORD; o++)
            record[o] = (uint8_t)(o * 7 + k);
    }
}

static void make(struct two_blocks *blocks, unsigned paired)
{
    blocks->length = FULL;
    blocks->paired = paired;
    make_block(blocks->first, 0, paired, 0);
    make_block(blocks->second, 1, paired, 1);
}

static void compare(void *job)
{
    static uint8_t output[JAZMOTIP_ENTRIES];
    struct two_blocks *b = job;
    unsigned records = b->length == FULL ? RECORDS : 0;
    MEASURE_MARK();
    jazmotip_comparison c = jazmotip_capture_compare(5, b->first, b->length, b->second, b->length, output, sizeof output);
    if (c.number != 0 || c.entries != 2 * records - b->paired || c.total != 2 * (records - b->paired)) {
        fprintf(stderr, "recordings.c: %u, %u entries, total %u\n", c.number, c.entries, c.total);
        exit(1);
    }
}

void recordings_print(void)
{
    static struct two_blocks blocks[4] = {{.length = 2}};
    static struct rounds rounds;
    struct contestant contestants[4];
    size_t stack = 0;
    for (int k = 0; k < 4; k++) {
        if (k > 0)
            make(&blocks[k], k == 1 ? RECORDS : k == 2 ? RECORDS / 2 : 0);
        size_t octets = measure_stack(compare, &blocks[k]);
        stack = octets > stack ? octets : stack;
        contestants[k] = (struct contestant){.here = compare, .job = &blocks[k]};
    }
    measure_rounds(&rounds, contestants, 4, 101, 1e6);
    printf("| Two blocks, ns | empty | 256 records of 25 EQs each, all paired | half of them | none | stack, octets |\n"
           "|---|---:|---:|---:|---:|---:|\n| compare |");
    for (int k = 0; k < 4; k++)
        printf(" %s |", measure_commas(measure_cost(&rounds, k).median));
    printf(" %s |\n\n", measure_commas((double)stack));
}
