/*
 * scene.h: the ends that calls are measured on.
 */
#ifndef SCENE_H
#define SCENE_H

#include "jazmotip.h"
#include "work.h"

#include <stdint.h>

#define SCENE_INTERVAL UINT64_C(1000)
#define SCENE_TRIP 100
#define SCENE_OLT_MAC UINT64_C(0x020000000002)

/* An OLT and an ONU at each step of their way to the first key, and what calls are handed. The unit that calls name is the
 * table's last one, by its last LLID. */
struct scene {
    jazmotip_identity identity; /* of the last unit */
    jazmotip_identity stranger; /* of none */
    uint16_t llid;
    jazmotip_olt one_less, captured, offered, steady, advancing, pointed;
    jazmotip_header upstream;
    jazmotip_stamps stamps;
    jazmotip_key_message key_message;
    jazmotip_onu unsynced, synced, active, onu_advancing;
    jazmotip_header downstream;
    const struct work *eight; /* a payload of 8 EQs */
    const struct work *work;  /* a payload or a capture block, for the calls that take no end */
    uint8_t number;           /* what a call that names a unit answers: 0, or 2 in an empty table */
    uint8_t refused;          /* not 0 once a call was answered with another number than it should be */
};

/* LLID k of a table. Those of a scene: from 0 up; all alike modulo 256; and as if at random, none twice. */
typedef uint16_t scene_llids(int k);
scene_llids scene_in_order, scene_alike, scene_random;

/* An OLT of so many units, each with so many LLIDs. */
void scene_make(struct scene *s, int units, int llids, scene_llids *llid_of);

/* A table without units: a unit can be registered, and every call that names one is refused. */
void scene_make_empty(struct scene *s);

/* Ends the program where a call was refused. */
void scene_accepted(uint8_t number, const char *call);

#endif
