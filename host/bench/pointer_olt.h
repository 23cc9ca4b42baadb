/*
 * pointer_olt.h: advance, capture and send of the OLT as firmware in C would have them, to be measured against: the record lies
 * where a pointer says and is changed in place.
 */
#ifndef POINTER_OLT_H
#define POINTER_OLT_H

#include "jazmotip.h"

#include <stddef.h>
#include <stdint.h>

struct pointer_sent {
    uint8_t number;
    jazmotip_header header;
    uint64_t count; /* octets enciphered */
};

/* Each gives the number that the engine's call gives, and leaves the end and the output that it leaves. */
uint8_t pointer_olt_advance(jazmotip_olt *olt, uint64_t n);
uint8_t pointer_olt_capture(jazmotip_olt *olt, uint16_t llid);
struct pointer_sent pointer_olt_send(jazmotip_olt *olt, uint16_t llid, uint8_t channel, const uint8_t *payload,
                                     size_t payload_length, uint8_t *output, size_t output_length);

/* The same with the record by value, as the engine's calls have it. */
jazmotip_olt_answer value_olt_advance(jazmotip_olt olt, uint64_t n);
jazmotip_olt_answer value_olt_capture(jazmotip_olt olt, uint16_t llid);
jazmotip_olt_sent value_olt_send(jazmotip_olt olt, uint16_t llid, uint8_t channel, const uint8_t *payload, size_t payload_length,
                                 uint8_t *output, size_t output_length);

#endif
