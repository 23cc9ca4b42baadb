/*
 * work.h: what is sealed and opened: payloads of several lengths, and capture blocks as long as they can be.
 */
#ifndef WORK_H
#define WORK_H

#include <stddef.h>
#include <stdint.h>

/* A payload or a capture block. */
struct work {
    size_t eqs;     /* in all */
    size_t records; /* 0 for a payload */
    size_t length;  /* octets */
    int idle;       /* of a hundred blocks, those with nothing to encipher, beside what chance makes so */
    uint8_t *input;
    uint8_t *output;
};

enum { WORKS_PAYLOADS = 6, WORKS = 9, IDLE_WORKS = 2 };

/* Payloads of 1, 8, 64, 1,500, 65,536 and 4,194,303 EQs. A block of 2 + 24 octets a record + 9 an EQ has at most 65,534 octets:
 * 254 records, one of them large; 254 alike; and one record alone, 65,528 octets. */
extern struct work works[WORKS];

/* 1,500 EQs with 70 of a hundred blocks idle, as on a line that carries some traffic, and with all of them. */
extern struct work idle_works[IDLE_WORKS];

extern const uint8_t work_key[16];
extern uint8_t work_settings[41];

#define WORK_CHANNEL 0x80
#define WORK_MAC UINT64_C(0x020000000001)
#define WORK_CLOCK UINT64_C(0x41)

/* Make the same octets each time. */
void works_make(void);
void idle_works_make(void);

/* A number that tells outputs apart. */
uint64_t work_hash(const uint8_t *octets, size_t length);

#endif
