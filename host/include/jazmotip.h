/*
 * jazmotip.h: the Jazmotip link engine, for firmware in C.
 *
 * Seals and opens the payloads of SIEPON.4 envelopes (AES-128 in counter mode under the control mask), plays either end of a
 * 25G/50G EPON line, opens capture blocks, for one reader or a class, rearranges payloads for the store, and keeps the OLT's key
 * exchange of an XG-PON line. Link with libjazmotip.a, which needs three functions from outside, memcpy, memmove and memset. x86-64,
 * System V calling convention.
 *
 * What holds of every call
 *   - It ends, and asks nothing of the values handed to it: whatever is malformed, untimely, unknown or too long is refused with a
 *     code from the table below, and 0 is acceptance. It is proved, not tested, that each answer is the one its definition gives;
 *     docs/PROMISES.md names the definitions.
 *   - A refusal changes nothing. The end comes back exactly as it was lent, a lent output keeps every octet, count,
 *     runs and expansions are 0, and what would have been handed over (message, header, acknowledgement) is zeros.
 *   - No heap, no globals that are written, no locks: calls on different ends and buffers may run at the same time.
 *
 * What the caller owes, as for any C function
 *   - A pointer with a length points to that many octets that may be read, and written for an output; octets need no alignment.
 *     With length 0 nothing is read or written through it, and it may be any pointer, NULL too (docs/DECISIONS.md, D126).
 *   - A pointer without a length, to a key, a text or an end that is advanced, is not NULL. The end is aligned as its type is, to
 *     8 octets.
 *   - An output overlaps nothing else that is lent in the same call; to seal or open a payload where it lies there are calls of
 *     their own. No length is above PTRDIFF_MAX.
 *   - Stack: 32 KiB are enough for a call of the OLT, 48 KiB for a script, 16 KiB for opening a block for a user of a class, and 6 KiB
 *     for any other, with what is handed over by value and without the place of the answer. host/bench/run measures the calls of
 *     ends and capture blocks.
 *
 * Who owns what
 *   - The caller owns all memory. The engine keeps no pointer after a call returns.
 *   - An end, a jazmotip_olt or a jazmotip_onu, is a plain value. A call takes it by value and answers with the next one: store
 *     that, and use no older copy, since sending twice from one copy would use a counter block twice. Only the two advances
 *     write an end in place. An end may be copied, compared field by field, or kept over a restart; it holds keys, so wipe what you
 *     leave behind.
 *
 *         jazmotip_olt_answer a = jazmotip_olt_register(olt, identity, trip, interval);
 *         olt = a.olt;                        // right for acceptance and refusal alike
 *         if (a.number != JAZMOTIP_ACCEPTED) { ... }
 *
 * How a line comes up (docs/GUIDE.md tells all of it, host/c/exchange.c plays it)
 *   - Ends: jazmotip_olt_fresh; for each unit jazmotip_onu_fresh, with LocalTime, the low 32 bits of the OLT's clock plus the unit's
 *     delay up; jazmotip_olt_register, with the round trip, delay up plus delay down. Delays are in ticks.
 *   - Clock: jazmotip_olt_capture, jazmotip_olt_clock_send, jazmotip_onu_clock_message, which hands over an acknowledgement, and with
 *     that jazmotip_olt_acknowledge. The unit is then synced.
 *   - Keys, numbered from 1: jazmotip_olt_offer, jazmotip_onu_key_message, jazmotip_olt_acknowledge. Once the timer's interval has
 *     passed, the next jazmotip_olt_send switches to the key, the unit follows at its jazmotip_onu_receive, and the unit's first
 *     envelope under it confirms the key at jazmotip_olt_receive; then the next may be offered. Envelopes before key 1 are clear.
 *   - Time: the host advances all ends by the same ticks, and hands each message and envelope to its receiver in the order in which
 *     they left, at the tick at which it arrives, its delay after it left: the receiver's clock is then what the sender's was. At
 *     another tick a sealed envelope is refused 10 or, a multiple of 64 ticks off, opened to noise. An acknowledgement may come later,
 *     or again.
 *
 * When a unit does not come on, after whatever was lost
 *   - This brings a registered unit to its next key, and it is proved that it does (docs/PROGRESS.md): let what is under way arrive;
 *     let 4,194,304 ticks pass, where its path has changed 1,000,000 more at most; jazmotip_olt_capture, jazmotip_olt_clock_send and
 *     the acknowledgement, where the unit is unsynced; jazmotip_olt_offer, or jazmotip_olt_retry where an offer is outstanding, and
 *     the acknowledgement; let the rest of the timer's interval pass; send down; send up. Leave out what is done already.
 *   - Only a switch that is not confirmed for 2^48 ticks (eight days), because every envelope under the new key got lost on its way
 *     down, or every one on its way up, can't be made good. Then the unit begins anew: as a fresh one under LLIDs that the OLT does
 *     not have yet, or at a fresh OLT, whose units are then all fresh. One end made fresh by itself does not fit the other's keys.
 *   - This lets every joined member of a group that is synced open the group's next envelope, also one that missed keys, and that is
 *     proved too: jazmotip_olt_offer on the group's LLID, or jazmotip_olt_retry where an offer is outstanding; let the message arrive;
 *     let 4,194,304 ticks and an interval pass; send to the group. No acknowledgement of the key needs to arrive. An offer is
 *     JAZMOTIP_CLOCK_NOT_SET until every member's clock is acknowledged: set those clocks first.
 *
 * Units: one tick is one EQT, 2.56 ns. One EQ is nine octets: a control octet, then eight data octets.
 */
#ifndef JAZMOTIP_H
#define JAZMOTIP_H

#include <stddef.h>
#include <stdint.h>

#ifdef __cplusplus
extern "C" {
#endif

/* ------------------------------------------------------------------------------------------------------------------ Codes
 * What a call answers with: the field number of its answer, or its result. Where several causes hold, the first in the call's own
 * order is given; each call lists its order. */
enum {
    JAZMOTIP_ACCEPTED = 0,
    JAZMOTIP_OUT_OF_RANGE = 1,        /* a value outside its range, or an end that breaks the rules below */
    JAZMOTIP_UNKNOWN_LLID = 2,        /* LLID not registered; at a unit, neither its own nor joined; in a record, not the settings' */
    JAZMOTIP_REPEATED_LLID = 3,       /* LLID already registered or joined, or twice in one call */
    JAZMOTIP_TABLE_FULL = 4,          /* seventeenth unit or group; at a unit the fifth group */
    JAZMOTIP_CLOCK_NOT_SET = 5,       /* clock not set, or not acknowledged; for a group's offer, that of any member */
    JAZMOTIP_OFFER_PENDING = 6,       /* an offer while one is under way or the last key is not confirmed */
    JAZMOTIP_SAME_KEY = 7,            /* the offered key is the active one */
    JAZMOTIP_NOTHING_OUTSTANDING = 8, /* key message or acknowledgement that fits nothing, or of no member; clock send without capture */
    JAZMOTIP_NO_KEY = 9,              /* no key for that index */
    JAZMOTIP_EPAM_DIFFERS = 10,       /* EPAM is not the low six bits of the receiver's clock */
    JAZMOTIP_CLEAR_ENVELOPE = 11,     /* clear envelope after the first confirmed or active key */
    JAZMOTIP_CHANNEL_TAKEN = 12,      /* channel still taken by the envelope before, or after a change of path by those before it */
    JAZMOTIP_KEY_TOO_OLD = 13,        /* 2^48 ticks, at a unit of travel, since the first send under the key */
    JAZMOTIP_BAD_LENGTH = 14,         /* payload no multiple of 9 or too long; output of another length; settings not 41 octets */
    JAZMOTIP_BAD_DIRECTORY = 15,      /* capture block over a limit, shorter than its directory, or empty with octets left */
    JAZMOTIP_CAPTURE_TOO_OLD = 16,    /* clock capture older than a second */
    JAZMOTIP_AT_END = 17,             /* tick, key number or sum of changes at its end */
    JAZMOTIP_BROKEN_CHAIN = 18,       /* a capture's pair off the chain of offsets, past the block's end, or the last short of it */
    JAZMOTIP_UNSUITED_LENGTH = 19,    /* a capture's pair whose length is under 16 or not 16 + 9 x EQs */
    JAZMOTIP_GROUP_LLID = 20,         /* a unit sends, or the OLT receives, on a group's LLID */
    JAZMOTIP_BAD_MEMBER = 21,         /* a ninth, repeated or unregistered member is named */
    JAZMOTIP_REPEATED_RECORD = 22,    /* two records of one capture block agree in channel index, LLID and clock */
    JAZMOTIP_UNKNOWN_USER = 23,       /* the user's number is 0 or above their count */
    JAZMOTIP_NO_RIGHT = 24,           /* a key loaded without the right to, or for an LLID outside the settings */
    JAZMOTIP_OTHER_KEY_INDEX = 25,    /* a report names a key index other than the awaited one */
    JAZMOTIP_BAD_SCRIPT = 26          /* more than 64 steps, or a step that is unknown or not whole */
};

/* ----------------------------------------------------------------------------------------------------------------- Limits */
#define JAZMOTIP_EQ_OCTETS 9u                /* octets of an EQ */
#define JAZMOTIP_MAX_EQS 4194303u            /* EQs of a payload, at most: 37,748,727 octets */
#define JAZMOTIP_KEY_OCTETS 16u              /* AES-128 */
#define JAZMOTIP_UNITS 16u                   /* units and groups of an OLT together, at most */
#define JAZMOTIP_LLIDS 4u                    /* LLIDs of a unit, at most; at least 1 */
#define JAZMOTIP_MEMBERS 8u                  /* members of a group, at most; at least 1 */
#define JAZMOTIP_JOINED 4u                   /* groups that a unit joins, at most */
#define JAZMOTIP_SECOND 390625000u           /* ticks of a second; a capture may be sent up to then */
#define JAZMOTIP_MAX_TRIP 1000000u           /* ticks of a round trip, at most */
#define JAZMOTIP_MAX_TIME_CHANGE 1000000u    /* ticks by which LocalTime changes, at most, either way */
#define JAZMOTIP_MAX_CHANGES (INT64_C(1) << 61)   /* ticks that the changes add up to, at most, either way */
#define JAZMOTIP_MAX_INTERVAL (UINT64_C(1) << 47) /* ticks of a key timer, at most; at least 1 */
#define JAZMOTIP_MAX_TICK (UINT64_C(1) << 62)     /* ticks that an end counts, at most: over 370 years */
#define JAZMOTIP_CLOCK_TURN (UINT64_C(1) << 48)   /* clocks and MACs are below this */
#define JAZMOTIP_SETTINGS_OCTETS 41u         /* settings of the capture reader */
#define JAZMOTIP_BLOCK_OCTETS 65536u         /* octets of a capture block, at most */
#define JAZMOTIP_RECORDS 256u                /* records of a capture block, at most */
#define JAZMOTIP_SETS 16u                    /* sets of a class, at most; at least 1 */
#define JAZMOTIP_USERS 16u                   /* users of a class, at most */
#define JAZMOTIP_ENTRIES 512u                /* the output that comparing two blocks needs, an octet for each entry */
#define JAZMOTIP_LISTING_OCTETS 10266u       /* the buffer that a listing needs */

/* ------------------------------------------------------------------------------------------------------------------- Ends
 * Read any field; write none but in a struct that you hand over as an argument. Ahead of its order every call refuses with 1 an
 * end that breaks one of these rules, and no other:
 *   - a flag (flag, noted, acknowledged, captured, sent, marks, synced, held, kept) is 0 or 1
 *   - MACs and the OLT's clock are below 2^48; a tick is at most JAZMOTIP_MAX_TICK
 *   - a channel is free from a tick of at most JAZMOTIP_MAX_TICK + JAZMOTIP_MAX_EQS + 1, 2^62 + 4,194,304
 *   - a unit has 1 to 4 LLIDs, and no LLID stands twice at an end, be it a unit's own, a group's or one that was joined
 *   - at an OLT: at most 16 units and groups together; a round trip of at most JAZMOTIP_MAX_TRIP; a first send that is noted, and a
 *     capture, are not after the tick; an interval of 1 to JAZMOTIP_MAX_INTERVAL, its count below it; C is A or A - 1, O is A or
 *     A + 1, and not both C = A - 1 and O = A + 1; a group has 1 to 8 members, each the place of a unit and none twice
 *   - at an ONU: time is below 2^48 once synced and below 2^32 before; rx is below 2^48; at most 4 groups joined; no key is held at
 *     a = 2^32 - 1, and none kept at a = 0, both for each group too; changes is within JAZMOTIP_MAX_CHANGES either way. The travel of
 *     a first send, spent and bar may be anything
 * Places that are not in use are not judged, and calls carry along what they hold: LLIDs, members and marks past a count, units,
 * groups and joined groups past theirs, the time of a first send or capture that is not noted. A fresh end has zeros there. Any
 * octets are a key. */

typedef struct jazmotip_timer {
    uint64_t interval; /* 1 to JAZMOTIP_MAX_INTERVAL ticks */
    uint64_t count;    /* ticks since the last turn, below interval */
    uint8_t flag;      /* up from a turn until the next switch */
} jazmotip_timer;

/* Two keys: key number n is at index n mod 2. */
typedef struct jazmotip_slots {
    uint8_t even[16];
    uint8_t odd[16];
} jazmotip_slots;

/* The first send under the key in use, by the end's own count: ticks at the OLT, at a unit travel (see jazmotip_travel). */
typedef struct jazmotip_first_send {
    uint8_t noted;
    uint64_t at;
} jazmotip_first_send;

/* The tick from which each channel is free. */
typedef struct jazmotip_channels {
    uint64_t zero;
    uint64_t one;
} jazmotip_channels;

/* A unit's MAC, below 2^48, and its 1 to 4 LLIDs, any 16-bit codes; places past the count are ignored on the way in. */
typedef struct jazmotip_identity {
    uint64_t mac;
    uint16_t llids[4];
    uint8_t count;
} jazmotip_identity;

/* What the OLT sends to a unit, or to a group, under. */
typedef struct jazmotip_unit_keys {
    jazmotip_timer timer;
    uint32_t active;  /* A; 0 before the first key */
    uint32_t offered; /* O: A or A + 1 */
    jazmotip_slots slots;
    jazmotip_first_send first;
} jazmotip_unit_keys;

/* What the unit has shown. */
typedef struct jazmotip_confirmation {
    uint32_t confirmed;   /* C: A or A - 1 */
    uint8_t acknowledged; /* whether O was acknowledged */
} jazmotip_confirmation;

/* The OLT's side of a unit's clock. */
typedef struct jazmotip_unit_clock {
    uint64_t trip; /* round trip, ticks */
    uint8_t captured;
    uint64_t tick; /* of the capture */
    uint8_t sent;
    uint8_t acknowledged;
} jazmotip_unit_clock;

typedef struct jazmotip_unit {
    jazmotip_identity identity;
    jazmotip_unit_keys keys;
    jazmotip_confirmation confirmation;
    jazmotip_unit_clock clock;
} jazmotip_unit;

/* The members of a group: the places of their units, and a mark for each that acknowledged key O. A new offer clears the marks; they
 * hold nothing back. */
typedef struct jazmotip_members {
    uint8_t places[8];
    uint8_t marks[8];
    uint8_t count;
} jazmotip_members;

/* A group at the OLT: downstream envelopes for several units under one LLID and one key. It has no C and no clock of its own. */
typedef struct jazmotip_group {
    jazmotip_unit_keys keys;
    jazmotip_members members;
    uint16_t llid;
} jazmotip_group;

/* What all units and groups share at the OLT. */
typedef struct jazmotip_shared {
    uint64_t mac;
    uint64_t tick;  /* ticks since fresh */
    uint64_t clock; /* cipher clock, below 2^48 */
    jazmotip_channels channels;
} jazmotip_shared;

/* The head end. */
typedef struct jazmotip_olt {
    jazmotip_shared shared;
    uint8_t count; /* units registered */
    jazmotip_unit units[16];
    uint8_t groupcount; /* groups registered */
    jazmotip_group groups[16];
} jazmotip_olt;

/* A unit's keys, its own or those of a group. */
typedef struct jazmotip_onu_keys {
    uint32_t active; /* a; 0 before the first key */
    uint8_t held;    /* whether key a + 1 is held */
    jazmotip_slots slots;
} jazmotip_onu_keys;

/* A unit's own clocks. */
typedef struct jazmotip_onu_clock {
    uint8_t synced; /* whether a clock message was accepted */
    uint64_t time;  /* LocalTime, below 2^32, while unsynced; the Tx clock, whose low 32 bits are LocalTime, once synced */
    uint64_t rx;    /* the Rx clock; 0 while unsynced */
} jazmotip_onu_clock;

/* The travel of a unit's Tx clock: its ticks plus the changes of its LocalTime. Travel is counted from 2^61 below zero, here and in
 * the unit's first send, so it is tick + changes + JAZMOTIP_MAX_CHANGES. */
typedef struct jazmotip_travel {
    int64_t changes; /* the sum of the signed changes of LocalTime */
    uint64_t spent;  /* one past the last end of an enciphered send, which is its travel plus its EQs; 0 before the first */
    uint64_t bar;    /* what spent was at the last change: enciphered sends wait until travel has come to it */
} jazmotip_travel;

/* A group that a unit joined. The message of key n tells that key n - 1 is in use: a is then n - 1, held or not, and older keys are
 * forgotten. */
typedef struct jazmotip_joined {
    jazmotip_onu_keys keys;
    uint8_t kept; /* whether key a is held */
    uint16_t llid;
} jazmotip_joined;

/* The subscriber unit. */
typedef struct jazmotip_onu {
    jazmotip_identity identity;
    uint64_t oltmac;
    uint64_t tick;
    jazmotip_onu_clock clock;
    jazmotip_onu_keys keys;
    jazmotip_first_send first;
    jazmotip_travel travel;
    jazmotip_channels channels;
    uint8_t joinedcount; /* groups joined */
    jazmotip_joined joined[4];
} jazmotip_onu;

/* --------------------------------------------------------------------------------------- What the host carries on the line */

/* A clock message: the OLT's clock at the capture, and that clock plus the round trip. */
typedef struct jazmotip_stamps {
    uint64_t rx;
    uint64_t tx;
} jazmotip_stamps;

typedef struct jazmotip_key_message {
    uint16_t llid;
    uint32_t number;
    uint8_t key[16];
} jazmotip_key_message;

/* What a unit answers; to a group's key message, also who it is. */
typedef struct jazmotip_acknowledgement {
    uint8_t kind;    /* 1 to a clock message, 2 to a key message, 0 none */
    uint8_t named;   /* 1 if unit names the unit, for a group; 0, with unit 0, for the unit's own */
    uint16_t unit;   /* an LLID of the unit's own; a unit names itself by its first */
    uint32_t number; /* the key's number, 0 to a clock message */
} jazmotip_acknowledgement;

/* The members that a group's registration names, each by any LLID of its unit; places past the count are ignored. */
typedef struct jazmotip_roster {
    uint16_t llids[8];
    uint8_t count;
} jazmotip_roster;

/* An envelope's header, start (ESH) or continuation (ECH). */
typedef struct jazmotip_header {
    uint8_t channel;    /* channel index: 0x00, 0x01 downstream, 0x80, 0x81 upstream */
    uint16_t llid;
    uint8_t encenabled;
    uint8_t enckey;     /* the key's number mod 2 */
    uint8_t epam;       /* the low six bits of the sender's clock */
} jazmotip_header;

/* ---------------------------------------------------------------------------------------------------------------- Answers
 * In every answer that has them, here and below: count is the octets enciphered or deciphered; runs is how often the cipher ran, once
 * for each block of two EQs, or a last one of one, that has an octet to encipher, so at most half the EQs, rounded up. A block of
 * control characters alone (control octets 0xff) is not run. Both are 0 for a clear envelope and on refusal. Opening an envelope runs
 * the cipher as often as sealing it did. */

typedef struct jazmotip_olt_answer {
    uint8_t number;
    jazmotip_olt olt;
} jazmotip_olt_answer;

typedef struct jazmotip_clock_sent {
    uint8_t number;
    jazmotip_olt olt;
    jazmotip_stamps message;
} jazmotip_clock_sent;

typedef struct jazmotip_key_sent {
    uint8_t number;
    jazmotip_olt olt;
    jazmotip_key_message message;
} jazmotip_key_sent;

typedef struct jazmotip_olt_sent {
    uint8_t number;
    jazmotip_olt olt;
    jazmotip_header header;
    uint64_t count; /* octets enciphered; 0 for a clear envelope and on refusal */
    uint64_t runs;  /* runs of the cipher; 0 for a clear envelope and on refusal */
} jazmotip_olt_sent;

typedef struct jazmotip_olt_received {
    uint8_t number;
    jazmotip_olt olt;
    uint64_t count; /* octets deciphered; 0 for a clear envelope and on refusal */
    uint64_t runs;  /* runs of the cipher; 0 for a clear envelope and on refusal */
} jazmotip_olt_received;

typedef struct jazmotip_onu_answer {
    uint8_t number;
    jazmotip_onu onu;
} jazmotip_onu_answer;

typedef struct jazmotip_onu_acknowledged {
    uint8_t number;
    jazmotip_onu onu;
    jazmotip_acknowledgement acknowledgement;
} jazmotip_onu_acknowledged;

typedef struct jazmotip_onu_sent {
    uint8_t number;
    jazmotip_onu onu;
    jazmotip_header header;
    uint64_t count; /* octets enciphered; 0 for a clear envelope and on refusal */
    uint64_t runs;  /* runs of the cipher; 0 for a clear envelope and on refusal */
} jazmotip_onu_sent;

typedef struct jazmotip_onu_received {
    uint8_t number;
    jazmotip_onu onu;
    uint64_t count; /* octets deciphered; 0 for a clear envelope and on refusal */
    uint64_t runs;  /* runs of the cipher; 0 for a clear envelope and on refusal */
} jazmotip_onu_received;

/* ------------------------------------------------------------------------------------------------------- Calls of the OLT
 * A unit is named by any of its LLIDs, a group by its one. Ahead of each order below stands 1 for an end that breaks the rules
 * above. */

/* A head end with no units and no groups. Refused (1: MAC or clock not below 2^48), the end is zeros. */
jazmotip_olt_answer jazmotip_olt_fresh(uint64_t mac, uint64_t clock);

/* Registers a unit: MAC and LLIDs; its round trip, delay up plus delay down, of at most JAZMOTIP_MAX_TRIP ticks; the interval of its
 * key timer, of 1 to JAZMOTIP_MAX_INTERVAL ticks, which starts now. Order: 1, 3, 4. */
jazmotip_olt_answer jazmotip_olt_register(jazmotip_olt olt, jazmotip_identity identity, uint64_t trip, uint64_t interval);

/* Registers a group: its LLID, key timer and members, which stay. 1 is for the interval and for no member at all, 21 for more than
 * eight, for an LLID that is no unit's, a group's too, and for a unit that is named twice, under another LLID too. Order: 1, 21, 3,
 * 4. */
jazmotip_olt_answer jazmotip_olt_register_group(jazmotip_olt olt, uint16_t llid, uint64_t interval, jazmotip_roster roster);

/* Moves ticks, clock and timers on by n, in place, and gives the code. Order: 17. */
uint8_t jazmotip_olt_advance(jazmotip_olt *olt, uint64_t n);

/* Captures the clock for a unit; it stays until the next capture. Order: 2, for a group's LLID too. */
jazmotip_olt_answer jazmotip_olt_capture(jazmotip_olt olt, uint16_t llid);

/* Gives a unit a new round trip, where its path changed: capture, clock message and clock acknowledgement so far are forgotten, and
 * enciphered sends to it are refused 5 until a new clock message is acknowledged. Clear ones go on, and so do its groups'. Make this
 * call and jazmotip_onu_new_time at one tick, before anything goes over the new path; where one of the two is refused, keep the other
 * end as it was before its call. Nothing that was under way arrives after it, and no acknowledgement of a clock message from before
 * it, ever: that is for the host to keep. Order: 1, 2, for a group's LLID too. */
jazmotip_olt_answer jazmotip_olt_measure(jazmotip_olt olt, uint16_t llid, uint64_t trip);

/* Hands over the clock message of the capture, any number of times within a second. Order: 2, for a group's LLID too, 8, 16. */
jazmotip_clock_sent jazmotip_olt_clock_send(jazmotip_olt olt, uint16_t llid);

/* Offers a new key and hands over its message. Keys must come from a good random source: the engine only compares the key with
 * the active one. A group's offer needs the clock of every member acknowledged, and may follow the switch at once; its message is
 * for all members. Order: 2, 5, 6, 7, 17. */
jazmotip_key_sent jazmotip_olt_offer(jazmotip_olt olt, uint16_t llid, const uint8_t key[16]);

/* Hands over the key message of the outstanding offer again. Order: 2, 8. */
jazmotip_key_sent jazmotip_olt_retry(jazmotip_olt olt, uint16_t llid);

/* Takes in a unit's acknowledgement, under an LLID of its own or, for a group's key, under the group's: then it names the unit, and
 * marks that member. 8 is also for one to a group that names no unit or no member, and for a unit's own that names one. The key's
 * number in one to a clock message is ignored; a kind other than 1 and 2 fits nothing, 8; a group's LLID with kind 1 is 2. Order: 2,
 * 8. */
jazmotip_olt_answer jazmotip_olt_acknowledge(jazmotip_olt olt, uint16_t llid, jazmotip_acknowledgement acknowledgement);

/* Seals a payload for a unit or a group into output, of the same length, and hands over its header; before the first key the envelope
 * is clear. With the timer's flag up and the offer acknowledged this is the envelope that switches keys; a group's switches
 * acknowledged or not, and its old key is wiped. Index 0x00 or 0x01. A header at tick t with p EQs keeps its channel until t + p;
 * t + p + 1 is free. 5 is for an envelope to a unit that would be enciphered, a switching one included, while the unit's clock is not
 * acknowledged. Order: 14, 1, 2, 5, 12, 13. */
jazmotip_olt_sent jazmotip_olt_send(jazmotip_olt olt, uint16_t llid, uint8_t channel, const uint8_t *payload, size_t payload_length,
                                    uint8_t *output, size_t output_length);

/* Opens an envelope from a unit into output, of the same length, at the tick at which it arrives. The first under key A confirms that
 * key, and the one before it is wiped. Order: 14, 1, 2, 20, 10, 11, 9. */
jazmotip_olt_received jazmotip_olt_receive(jazmotip_olt olt, jazmotip_header header, const uint8_t *octets, size_t octets_length,
                                           uint8_t *output, size_t output_length);

/* ------------------------------------------------------------------------------------------------------- Calls of the ONU
 * Ahead of each order below stands 1 for an end that breaks the rules above. */

/* A unit that is not synced yet: its identity, the OLT's MAC and LocalTime, the low 32 bits of the OLT's clock plus the unit's delay
 * up. Order: 1 (identity, MAC, LocalTime not below 2^32), 3. Refused, the end is zeros. */
jazmotip_onu_answer jazmotip_onu_fresh(jazmotip_identity identity, uint64_t oltmac, uint64_t time);

/* Joins a group by its LLID, any that is neither the unit's own nor joined already. What is promised to a member counts from here.
 * Order: 3, 4. */
jazmotip_onu_answer jazmotip_onu_join(jazmotip_onu onu, uint16_t llid);

/* Moves ticks and clocks on by n, in place, and gives the code. Order: 17. */
uint8_t jazmotip_onu_advance(jazmotip_onu *onu, uint64_t n);

/* Gives a unit its new LocalTime, where its path changed: the low 32 bits of the OLT's clock plus the new delay up, at most
 * JAZMOTIP_MAX_TIME_CHANGE either way from the old, modulo 2^32, else 1. The unit is unsynced again, and refuses what is enciphered,
 * its own sends too, with 5 until it has taken a clock message; then its enciphered sends on both channels are 12 until travel has
 * passed the end of each one made before the change. Keys stay. 17 is for a sum of changes that would pass JAZMOTIP_MAX_CHANGES either
 * way. Order: 1, 17. */
jazmotip_onu_answer jazmotip_onu_new_time(jazmotip_onu onu, uint64_t time);

/* Sets the clocks by a clock message and hands over the acknowledgement. Order: 1. */
jazmotip_onu_acknowledged jazmotip_onu_clock_message(jazmotip_onu onu, jazmotip_stamps message);

/* Takes a key message, its own or of a group that it joined, and hands over the acknowledgement. Of a group any key number above those
 * that it holds is taken, or the same message again. Order: 2, 5, 8. */
jazmotip_onu_acknowledged jazmotip_onu_key_message(jazmotip_onu onu, jazmotip_key_message message);

/* Seals a payload for the head end into output, of the same length, and hands over its header. Index 0x80 or 0x81. The channel is
 * kept as at the OLT, and the key's age is counted in travel. 5 is for an enciphered envelope while unsynced. Order: 14, 1, 2, 20, 5,
 * 12, 13. */
jazmotip_onu_sent jazmotip_onu_send(jazmotip_onu onu, uint16_t llid, uint8_t channel, const uint8_t *payload, size_t payload_length,
                                    uint8_t *output, size_t output_length);

/* Opens an envelope from the head end, for the unit or for a group that it joined, into output, of the same length, at the tick at
 * which it arrives. An envelope under the next key makes that key the active one. Under a group's key that the unit missed nothing is
 * promised: it is refused 9 or, where an older key of the same index is held, opened to noise. Order: 14, 1, 2, 10 (not while
 * unsynced), 5 (sealed ones only), 11, 9. */
jazmotip_onu_received jazmotip_onu_receive(jazmotip_onu onu, jazmotip_header header, const uint8_t *octets, size_t octets_length,
                                           uint8_t *output, size_t output_length);

/* -------------------------------------------------------------------------------------------------- Payloads on their own
 * For a host that keeps clocks and keys itself. The ends above do all this. */

/* What tells one envelope's counter blocks from another's. Never use one twice under one key. */
typedef struct jazmotip_nonce {
    uint8_t channel; /* channel index: 0x00, 0x01, 0x80 or 0x81 */
    uint64_t mac;    /* the sender's, below 2^48 */
    uint64_t clock;  /* the sender's cipher clock at the header, below 2^48 */
} jazmotip_nonce;

/* The eleven round keys of AES-128, 16 octets each. */
typedef struct jazmotip_round_keys {
    uint8_t octets[176];
} jazmotip_round_keys;

typedef struct jazmotip_payload_answer {
    uint8_t number;
    uint64_t count; /* octets enciphered or deciphered; 0 where encenabled is 0 and on refusal */
    uint64_t runs;  /* runs of the cipher; 0 where encenabled is 0 and on refusal */
} jazmotip_payload_answer;

/* Seals input into output, of the same length, or opens it: the two are one act. encenabled 1 enciphers; 0 copies, with count
 * and runs 0. Order: 14, 1. */
jazmotip_payload_answer jazmotip_seal(uint8_t encenabled, const uint8_t key[16], jazmotip_nonce nonce, const uint8_t *input,
                                      size_t input_length, uint8_t *output, size_t output_length);

/* The same under a key that was expanded once, for many short envelopes. */
jazmotip_payload_answer jazmotip_seal_expanded(uint8_t encenabled, jazmotip_round_keys keys, jazmotip_nonce nonce,
                                               const uint8_t *input, size_t input_length, uint8_t *output, size_t output_length);

/* The two in place: the payload is input and output. A clear or refused one stays as it is. Order: 14, 1. */
jazmotip_payload_answer jazmotip_seal_in_place(uint8_t encenabled, const uint8_t key[16], jazmotip_nonce nonce, uint8_t *payload,
                                               size_t payload_length);
jazmotip_payload_answer jazmotip_seal_expanded_in_place(uint8_t encenabled, jazmotip_round_keys keys, jazmotip_nonce nonce,
                                                        uint8_t *payload, size_t payload_length);

/* The round keys of a key, for the two calls that take them expanded; any 16 octets are a key. */
jazmotip_round_keys jazmotip_expand_key(const uint8_t key[16]);

/* The octets that sealing a payload enciphers: over all whole EQs, eight minus the ones in the control octet. */
uint64_t jazmotip_count(const uint8_t *payload, size_t payload_length);

/* --------------------------------------------------------------------------------------------------------- Capture blocks
 * Blocks and records are drawn in docs/GUIDE.md. Settings are 41 octets: presence (bit 0 key 0, bit 1 key 1), key 0 (16), key 1 (16),
 * the sender's MAC (6), LLID (2), big-endian. All records are opened with that MAC, whichever their direction: one of another sender
 * opens to noise. Records and pairs count from 1. In every answer, pair is the first broken pair where the code is 18 or 19, else 0;
 * pairs are judged in order, 18 before 19 at each, so every pair before it is good and a block of those records alone is whole. */

typedef struct jazmotip_block_directory {
    uint8_t number;
    uint16_t pair;
    size_t records; /* how many, 0 if refused */
} jazmotip_block_directory;

typedef struct jazmotip_block_verdict {
    uint8_t number;
    uint8_t encenabled; /* 1 where opening deciphers the record; then enckey and clock are what it uses, else 0 */
    uint8_t enckey;
    uint16_t pair;
    uint64_t clock;
} jazmotip_block_verdict;

typedef struct jazmotip_block_part {
    uint8_t number;
    uint16_t pair;
    size_t offset; /* the payload is block[offset] to block[offset + length - 1] */
    size_t length;
} jazmotip_block_part;

typedef struct jazmotip_block_answer {
    uint8_t number;
    uint8_t expansions; /* keys expanded: each that is present, once, used or not, so 2 at most; 0 on refusal */
    uint16_t pair;
    uint64_t count; /* octets deciphered over all opened records; 0 on refusal */
    uint64_t runs;  /* runs of the cipher over all opened records, clear and refused ones taking none; 0 on refusal */
} jazmotip_block_answer;

/* What the directory of a block is found to be. Order: 15, then 18 and 19. */
jazmotip_block_directory jazmotip_capture_directory(const uint8_t *block, size_t block_length);

/* Whether opening opens record k. Order: 14 and 1 for the settings, 15, 18 and 19, 1 for k, then the record's own 1, 2,
 * 10, 9. */
jazmotip_block_verdict jazmotip_capture_verdict(const uint8_t *settings, size_t settings_length, const uint8_t *block,
                                                size_t block_length, size_t k);

/* The verdicts on all records in one pass: output[k - 1] is the code that jazmotip_capture_verdict gives for record k. The output
 * has JAZMOTIP_RECORDS octets, and those behind the records stay. Order: 14 for the output, 14 and 1 for the settings, 15, then 18
 * and 19. */
jazmotip_block_directory jazmotip_capture_verdicts(const uint8_t *settings, size_t settings_length, const uint8_t *block,
                                                   size_t block_length, uint8_t *output, size_t output_length);

/* Where the payload of record k lies, opened or not. Order: 15, 18 and 19, 1. Refused, offset and length are 0. */
jazmotip_block_part jazmotip_capture_payload(const uint8_t *block, size_t block_length, size_t k);

/* Opens every record that can be into output, of the block's length; the others are copied. Opened records have their flags
 * cleared. Count and runs are sums over opened records. Order: 14, 1, 15, then 18 and 19. */
jazmotip_block_answer jazmotip_capture_open(const uint8_t *settings, size_t settings_length, const uint8_t *block,
                                            size_t block_length, uint8_t *output, size_t output_length);

/* Writes the listing of a block, plain ASCII lines with no 0 at the end, and gives its length; text past it stays. A refused
 * call is the heading and a line such as "refused 15", or "refused 18 2" with the broken pair. */
size_t jazmotip_capture_list(const uint8_t *settings, size_t settings_length, const uint8_t *block, size_t block_length,
                             uint8_t text[JAZMOTIP_LISTING_OCTETS]);

/* The near way, for a reader whose receive clock is known only within 31 ticks, without clock messages. A header is read at the clock,
 * modulo 2^48, nearest to the one expected whose low six bits equal EPAM; a difference of exactly 32, or EPAM above 63, is 10. The
 * correction is that clock less the one expected. At headers past 1, 2 and 10, clear ones and those refused 9 too, corrections add up
 * per channel index, from 0 in each call, and the clock expected is the record's plus the sum of its channel index so far. If the
 * record's clock is within 31 of the sender's at each channel index's first header past 1 and 2, and slips no more than 31 from one of
 * these to the next of that index, each record is read as with the sender's clock in it; clock fields are copied as they are. The
 * calls without _near keep to the record's own clock. */

typedef struct jazmotip_block_near_answer {
    jazmotip_block_answer answer; /* as of jazmotip_capture_open */
    int8_t smallest;              /* correction, -31 to 31; 0 if no header was past 1, 2 and 10, and on refusal */
    int8_t largest;               /* the same */
} jazmotip_block_near_answer;

typedef struct jazmotip_block_near_verdicts {
    jazmotip_block_directory directory; /* as of jazmotip_capture_verdicts */
    int8_t smallest;                    /* as in jazmotip_block_near_answer; 0 on refusal */
    int8_t largest;
} jazmotip_block_near_verdicts;

/* jazmotip_capture_verdict in the near way: the headers before record k are read for their corrections. The clock of a record that
 * opening deciphers is the clock taken. */
jazmotip_block_verdict jazmotip_capture_verdict_near(const uint8_t *settings, size_t settings_length, const uint8_t *block,
                                                     size_t block_length, size_t k);

/* jazmotip_capture_verdicts, jazmotip_capture_open and jazmotip_capture_list in the near way, with the same orders of refusal. */
jazmotip_block_near_verdicts jazmotip_capture_verdicts_near(const uint8_t *settings, size_t settings_length, const uint8_t *block,
                                                            size_t block_length, uint8_t *output, size_t output_length);
jazmotip_block_near_answer jazmotip_capture_open_near(const uint8_t *settings, size_t settings_length, const uint8_t *block,
                                                      size_t block_length, uint8_t *output, size_t output_length);
size_t jazmotip_capture_list_near(const uint8_t *settings, size_t settings_length, const uint8_t *block, size_t block_length,
                                  uint8_t text[JAZMOTIP_LISTING_OCTETS]);

/* ------------------------------------------------------------------------------------------------------------------ A class
 * One reader for a whole class. Its settings are 1 to 16 sets of JAZMOTIP_SETTINGS_OCTETS octets, one for each LLID, back to back;
 * its rights an octet for each user and set, user by user: those of user 1 on each set in order, then those of user 2. Users are
 * numbered from 1.
 *
 * A user gets a record by the rights on its LLID:
 *   - hidden, without the right to see or to open, or with an LLID outside the settings: it is written as zeros but for its EQs,
 *     prints its number and a dash, and adds nothing to count, runs, expansions and corrections
 *   - seen, with the right to see alone: it is copied unchanged and prints "seen", unless 1 or 10 is found; 9 is not asked
 *   - opened, with the right to open, which includes seeing: as jazmotip_capture_open and jazmotip_capture_list have it, with that
 *     LLID's set; 2 falls away
 * It is proved that, among accepted calls, nothing else of a hidden record or set than LLIDs and lengths, and nothing of other
 * users' rights, changes any octet or number of what a user gets. */

/* A user's rights on a set, added up; any other bit is refused 1, in whichever user's octet it is. */
enum {
    JAZMOTIP_MAY_SEE = 1,  /* the header */
    JAZMOTIP_MAY_OPEN = 2, /* the payload, and see the header */
    JAZMOTIP_MAY_LOAD = 4  /* a key; alone it shows nothing */
};

/* Who asks, and of how many sets and users. */
typedef struct jazmotip_caller {
    uint8_t sets;  /* 1 to JAZMOTIP_SETS */
    uint8_t users; /* up to JAZMOTIP_USERS */
    uint8_t user;  /* 1 to users */
} jazmotip_caller;

/* Opens a block for that user into output, of the block's length. Expansions are one for each present key of a set that the user may
 * open, used or not, at most 32. Order: 23; 14 for the counts, the lengths of sets, rights and output; 1 for the presence octet of any
 * set and the rights of any user; 3 for two sets of one LLID; 15, then 18 and 19. A record: hidden, 1, 10, seen, 9. */
jazmotip_block_answer jazmotip_class_open(jazmotip_caller caller, const uint8_t *sets, size_t sets_length, const uint8_t *rights,
                                          size_t rights_length, const uint8_t *block, size_t block_length, uint8_t *output,
                                          size_t output_length);

/* Writes the listing of a block for that user, as jazmotip_capture_list does; a hidden record's line is such as "3 -". Order: the
 * same, without an output. */
size_t jazmotip_class_list(jazmotip_caller caller, const uint8_t *sets, size_t sets_length, const uint8_t *rights,
                           size_t rights_length, const uint8_t *block, size_t block_length,
                           uint8_t text[JAZMOTIP_LISTING_OCTETS]);

/* The two in the near way. Corrections add up over all LLIDs; a seen record's counts, a hidden one's does not. */
jazmotip_block_near_answer jazmotip_class_open_near(jazmotip_caller caller, const uint8_t *sets, size_t sets_length,
                                                    const uint8_t *rights, size_t rights_length, const uint8_t *block,
                                                    size_t block_length, uint8_t *output, size_t output_length);
size_t jazmotip_class_list_near(jazmotip_caller caller, const uint8_t *sets, size_t sets_length, const uint8_t *rights,
                                size_t rights_length, const uint8_t *block, size_t block_length,
                                uint8_t text[JAZMOTIP_LISTING_OCTETS]);

/* Puts key 0 or 1 and its presence bit into the set of an LLID, over one that is there; nothing else of the sets changes, and nothing
 * if it is refused. It needs JAZMOTIP_MAY_LOAD alone. Order: 23; 14 for the counts and the lengths of sets and rights; 1 for an index
 * above 1, presence and rights; 3; 24. */
uint8_t jazmotip_class_load(jazmotip_caller caller, uint8_t *sets, size_t sets_length, const uint8_t *rights, size_t rights_length,
                            uint16_t llid, uint8_t index, const uint8_t key[JAZMOTIP_KEY_OCTETS]);

/* --------------------------------------------------------------------------------------------------------------- The store
 * Octets of one kind side by side may compress better; README has figures. Rearranged, a payload is its planes: all control octets,
 * then data octet 0 of every EQ, then data octet 1, up to 7. Restoring is the inverse; the two undo each other for every number of
 * EQs, 0 too, and what was rearranged and restored opens as it did. */

/* The planes of a payload, or the payload of its planes, into output, of the same length. 0 or 14. */
uint8_t jazmotip_rearrange(const uint8_t *payload, size_t payload_length, uint8_t *output, size_t output_length);
uint8_t jazmotip_restore(const uint8_t *payload, size_t payload_length, uint8_t *output, size_t output_length);

typedef struct jazmotip_store_answer {
    uint8_t number;
    uint16_t pair; /* as in the answers on capture blocks */
} jazmotip_store_answer;

/* All payloads of a capture block, into output, of the block's length; directory and headers stay. Order: 14, 15, then 18 and 19. */
jazmotip_store_answer jazmotip_capture_rearrange(const uint8_t *block, size_t block_length, uint8_t *output, size_t output_length);
jazmotip_store_answer jazmotip_capture_restore(const uint8_t *block, size_t block_length, uint8_t *output, size_t output_length);

/* --------------------------------------------------------------------------------------------------------- Two recordings
 * Two blocks of one line, recorded at its two ends, held against each other. Records pair when channel index, LLID and clock
 * agree; kind, flags and EPAM play no part. */

enum {
    JAZMOTIP_ALONE = 0,    /* no record of the other block pairs with it */
    JAZMOTIP_SAME = 1,     /* it is paired: EQ count, EncKey, and control and data octets of every EQ agree */
    JAZMOTIP_DIFFERENT = 2 /* it is paired, and they do not */
};

typedef struct jazmotip_comparison {
    uint8_t number;
    uint8_t block;    /* the block that is refused, 1 or 2; 0 for 14 and where nothing is refused */
    uint16_t pair;    /* the first broken pair of that block for 18 and 19, else 0 */
    uint16_t entries; /* octets written, 0 if refused */
    uint16_t total;   /* records of the LLID asked for that are alone, in both blocks; 0 if refused */
} jazmotip_comparison;

/* Writes an entry each, JAZMOTIP_ALONE, JAZMOTIP_SAME or JAZMOTIP_DIFFERENT, for the records of the first block in order, then for
 * those of the second that are alone; output past them stays. Order: 14 for an output that is not JAZMOTIP_ENTRIES octets; the
 * first block's 15, 18 and 19, 1 for any of its records (kind, channel index, flags, EncKey without EncEnabled); the second's; 22
 * for the first block, 22 for the second. Refused, output stays as it was. In the other order the same records pair with the same
 * sameness, and the total is the same. */
jazmotip_comparison jazmotip_capture_compare(uint16_t llid, const uint8_t *first, size_t first_length, const uint8_t *second,
                                             size_t second_length, uint8_t *output, size_t output_length);

/* --------------------------------------------------------------------------------------------------------------- Exercises
 * A script: the key timer's interval (8 octets), then at most 64 steps of a kind (1 octet) and ticks (8 octets; 0 but for an advance),
 * all big-endian. It is played on fresh ends with one unit, delays 0, a key of its own for each offer, and envelopes of no EQs. */

enum {
    JAZMOTIP_STEP_CLOCK_MESSAGE = 0, /* captured and sent */
    JAZMOTIP_STEP_OFFER = 1,
    JAZMOTIP_STEP_RETRY = 2,
    JAZMOTIP_STEP_CLOCK_ACKNOWLEDGEMENT = 3, /* of the latest clock message, if the unit took it */
    JAZMOTIP_STEP_KEY_ACKNOWLEDGEMENT = 4,   /* of the latest offer or retry, if the unit took it */
    JAZMOTIP_STEP_ENVELOPE_DOWN = 5,
    JAZMOTIP_STEP_ENVELOPE_UP = 6,
    JAZMOTIP_STEP_ADVANCE = 7 /* can't be lost */
};

typedef struct jazmotip_loss {
    uint8_t number;
    size_t step; /* from 1; 0 where no single loss matters, and if refused */
} jazmotip_loss;

/* The first step whose loss alone changes the final A, C or a. Order: 1 for the interval, 26. */
jazmotip_loss jazmotip_first_loss(const uint8_t *script, size_t script_length);

/* ------------------------------------------------------------------------------------------------ Key exchange on XG-PON
 * The OLT's key exchange with one ONU (ITU-T G.987.3, 15.5.3.2). The host carries the PLOAM messages and keeps the three timers:
 * it hands in each report, each expiry and each decision to begin, sends the message of the answer, and starts and stops the
 * timers that it names; starting one that runs sets it anew. The exchange is a plain value without keys: store the answer's, for
 * acceptance and refusal alike. Key indices are 1 and 2. */

enum {
    JAZMOTIP_XGPON_KL0 = 0, /* Key Inactive */
    JAZMOTIP_XGPON_KL1 = 1, /* Key Request */
    JAZMOTIP_XGPON_KL2 = 2, /* Key Confirm */
    JAZMOTIP_XGPON_KL3 = 3, /* Key Confirm Waiting */
    JAZMOTIP_XGPON_KL4 = 4  /* Key Active */
};

typedef struct jazmotip_xgpon_key_exchange {
    uint8_t state;  /* JAZMOTIP_XGPON_KL0 to KL4 */
    uint8_t oldkey; /* index of the key that was active before the exchange, 0 if there is none */
    uint8_t newkey; /* index of the key that the exchange brings, in KL4 of the active key; 0 in KL0 */
} jazmotip_xgpon_key_exchange;

/* What is handed in. */
enum {
    JAZMOTIP_XGPON_NEW_KEY = 1,      /* Key_Report(NewKey) was received, with the index that it names */
    JAZMOTIP_XGPON_EXISTING_KEY = 2, /* Key_Report(ExistingKey) was received, with the index that it names */
    JAZMOTIP_XGPON_TK1_EXPIRES = 3,
    JAZMOTIP_XGPON_TK2_EXPIRES = 4,
    JAZMOTIP_XGPON_TK3_EXPIRES = 5,
    JAZMOTIP_XGPON_BEGIN = 6,         /* begin key exchange */
    JAZMOTIP_XGPON_BEGIN_TO_SEND = 7, /* begin to send with the new key */
    JAZMOTIP_XGPON_REKEY = 8,
    JAZMOTIP_XGPON_KEY_CHECK = 9
};

typedef struct jazmotip_xgpon_input {
    uint8_t kind;
    uint8_t index; /* of a report; ignored with any other kind */
} jazmotip_xgpon_input;

enum {
    JAZMOTIP_XGPON_GENERATE = 1, /* Key_Control(Generate) */
    JAZMOTIP_XGPON_CONFIRM = 2   /* Key_Control(Confirm) */
};

/* The message to send. */
typedef struct jazmotip_xgpon_key_control {
    uint8_t kind; /* 0 none */
    uint8_t index;
} jazmotip_xgpon_key_control;

/* A flag for each timer. */
typedef struct jazmotip_xgpon_timers {
    uint8_t tk1;
    uint8_t tk2;
    uint8_t tk3;
} jazmotip_xgpon_timers;

typedef struct jazmotip_xgpon_answer {
    uint8_t number;
    jazmotip_xgpon_key_exchange exchange;
    jazmotip_xgpon_key_control message;
    jazmotip_xgpon_timers starts;
    jazmotip_xgpon_timers stops;
} jazmotip_xgpon_answer;

/* The keys that are valid: the index of each, 0 where it is not. With neither, frames go without encryption (Key_Index 0). */
typedef struct jazmotip_xgpon_valid_keys {
    uint8_t number;
    uint8_t oldkey;
    uint8_t newkey;
} jazmotip_xgpon_valid_keys;

/* What the timers start from, in milliseconds. */
#define JAZMOTIP_XGPON_TK1_START_MS 100u
#define JAZMOTIP_XGPON_TK2_START_MS 10u
#define JAZMOTIP_XGPON_TK3_START_MS 10u

typedef struct jazmotip_xgpon_timer_starts {
    uint32_t tk1;
    uint32_t tk2;
    uint32_t tk3;
} jazmotip_xgpon_timer_starts;

/* KL0, without keys. */
jazmotip_xgpon_key_exchange jazmotip_xgpon_fresh(void);

/* Answers an input. One that the state has no move for is accepted and changes nothing. Order: 1 for an exchange outside its values
 * and for an unknown kind, 25 (in KL1, KL3 and KL4). */
jazmotip_xgpon_answer jazmotip_xgpon_step(jazmotip_xgpon_key_exchange exchange, jazmotip_xgpon_input input);

/* The keys that the OLT may send under. Order: 1. */
jazmotip_xgpon_valid_keys jazmotip_xgpon_sent_under(jazmotip_xgpon_key_exchange exchange);

/* The keys that the OLT may receive under. Order: 1. */
jazmotip_xgpon_valid_keys jazmotip_xgpon_received_under(jazmotip_xgpon_key_exchange exchange);

/* The recommended starts: JAZMOTIP_XGPON_TK1_START_MS and so on. */
jazmotip_xgpon_timer_starts jazmotip_xgpon_recommended_starts(void);

/* ----------------------------------------------------------------------------------------------------------------- Layout
 * The archive's layout is the C layout of these structs on x86-64; a compiler that lays them out otherwise stops here. */
#if defined(__cplusplus)
#define JAZMOTIP_LAYOUT(condition) static_assert(condition, #condition)
#else
#define JAZMOTIP_LAYOUT(condition) _Static_assert(condition, #condition)
#endif

JAZMOTIP_LAYOUT(sizeof(jazmotip_timer) == 24);
JAZMOTIP_LAYOUT(offsetof(jazmotip_timer, count) == 8);
JAZMOTIP_LAYOUT(offsetof(jazmotip_timer, flag) == 16);
JAZMOTIP_LAYOUT(sizeof(jazmotip_slots) == 32);
JAZMOTIP_LAYOUT(offsetof(jazmotip_slots, odd) == 16);
JAZMOTIP_LAYOUT(sizeof(jazmotip_first_send) == 16);
JAZMOTIP_LAYOUT(offsetof(jazmotip_first_send, at) == 8);
JAZMOTIP_LAYOUT(sizeof(jazmotip_channels) == 16);
JAZMOTIP_LAYOUT(offsetof(jazmotip_channels, one) == 8);
JAZMOTIP_LAYOUT(sizeof(jazmotip_identity) == 24);
JAZMOTIP_LAYOUT(offsetof(jazmotip_identity, llids) == 8);
JAZMOTIP_LAYOUT(offsetof(jazmotip_identity, count) == 16);
JAZMOTIP_LAYOUT(sizeof(jazmotip_unit_keys) == 80);
JAZMOTIP_LAYOUT(offsetof(jazmotip_unit_keys, active) == 24);
JAZMOTIP_LAYOUT(offsetof(jazmotip_unit_keys, offered) == 28);
JAZMOTIP_LAYOUT(offsetof(jazmotip_unit_keys, slots) == 32);
JAZMOTIP_LAYOUT(offsetof(jazmotip_unit_keys, first) == 64);
JAZMOTIP_LAYOUT(sizeof(jazmotip_confirmation) == 8);
JAZMOTIP_LAYOUT(offsetof(jazmotip_confirmation, acknowledged) == 4);
JAZMOTIP_LAYOUT(sizeof(jazmotip_unit_clock) == 32);
JAZMOTIP_LAYOUT(offsetof(jazmotip_unit_clock, captured) == 8);
JAZMOTIP_LAYOUT(offsetof(jazmotip_unit_clock, tick) == 16);
JAZMOTIP_LAYOUT(offsetof(jazmotip_unit_clock, sent) == 24);
JAZMOTIP_LAYOUT(offsetof(jazmotip_unit_clock, acknowledged) == 25);
JAZMOTIP_LAYOUT(sizeof(jazmotip_unit) == 144);
JAZMOTIP_LAYOUT(offsetof(jazmotip_unit, keys) == 24);
JAZMOTIP_LAYOUT(offsetof(jazmotip_unit, confirmation) == 104);
JAZMOTIP_LAYOUT(offsetof(jazmotip_unit, clock) == 112);
JAZMOTIP_LAYOUT(sizeof(jazmotip_members) == 17);
JAZMOTIP_LAYOUT(offsetof(jazmotip_members, marks) == 8);
JAZMOTIP_LAYOUT(offsetof(jazmotip_members, count) == 16);
JAZMOTIP_LAYOUT(sizeof(jazmotip_group) == 104);
JAZMOTIP_LAYOUT(offsetof(jazmotip_group, members) == 80);
JAZMOTIP_LAYOUT(offsetof(jazmotip_group, llid) == 98);
JAZMOTIP_LAYOUT(sizeof(jazmotip_shared) == 40);
JAZMOTIP_LAYOUT(offsetof(jazmotip_shared, tick) == 8);
JAZMOTIP_LAYOUT(offsetof(jazmotip_shared, clock) == 16);
JAZMOTIP_LAYOUT(offsetof(jazmotip_shared, channels) == 24);
JAZMOTIP_LAYOUT(sizeof(jazmotip_olt) == 4024);
JAZMOTIP_LAYOUT(offsetof(jazmotip_olt, count) == 40);
JAZMOTIP_LAYOUT(offsetof(jazmotip_olt, units) == 48);
JAZMOTIP_LAYOUT(offsetof(jazmotip_olt, groupcount) == 2352);
JAZMOTIP_LAYOUT(offsetof(jazmotip_olt, groups) == 2360);
JAZMOTIP_LAYOUT(sizeof(jazmotip_onu_keys) == 40);
JAZMOTIP_LAYOUT(offsetof(jazmotip_onu_keys, held) == 4);
JAZMOTIP_LAYOUT(offsetof(jazmotip_onu_keys, slots) == 5);
JAZMOTIP_LAYOUT(sizeof(jazmotip_onu_clock) == 24);
JAZMOTIP_LAYOUT(offsetof(jazmotip_onu_clock, time) == 8);
JAZMOTIP_LAYOUT(offsetof(jazmotip_onu_clock, rx) == 16);
JAZMOTIP_LAYOUT(sizeof(jazmotip_travel) == 24);
JAZMOTIP_LAYOUT(offsetof(jazmotip_travel, spent) == 8);
JAZMOTIP_LAYOUT(offsetof(jazmotip_travel, bar) == 16);
JAZMOTIP_LAYOUT(sizeof(jazmotip_joined) == 44);
JAZMOTIP_LAYOUT(offsetof(jazmotip_joined, kept) == 40);
JAZMOTIP_LAYOUT(offsetof(jazmotip_joined, llid) == 42);
JAZMOTIP_LAYOUT(sizeof(jazmotip_onu) == 344);
JAZMOTIP_LAYOUT(offsetof(jazmotip_onu, oltmac) == 24);
JAZMOTIP_LAYOUT(offsetof(jazmotip_onu, tick) == 32);
JAZMOTIP_LAYOUT(offsetof(jazmotip_onu, clock) == 40);
JAZMOTIP_LAYOUT(offsetof(jazmotip_onu, keys) == 64);
JAZMOTIP_LAYOUT(offsetof(jazmotip_onu, first) == 104);
JAZMOTIP_LAYOUT(offsetof(jazmotip_onu, travel) == 120);
JAZMOTIP_LAYOUT(offsetof(jazmotip_onu, channels) == 144);
JAZMOTIP_LAYOUT(offsetof(jazmotip_onu, joinedcount) == 160);
JAZMOTIP_LAYOUT(offsetof(jazmotip_onu, joined) == 164);
JAZMOTIP_LAYOUT(sizeof(jazmotip_stamps) == 16);
JAZMOTIP_LAYOUT(offsetof(jazmotip_stamps, tx) == 8);
JAZMOTIP_LAYOUT(sizeof(jazmotip_key_message) == 24);
JAZMOTIP_LAYOUT(offsetof(jazmotip_key_message, number) == 4);
JAZMOTIP_LAYOUT(offsetof(jazmotip_key_message, key) == 8);
JAZMOTIP_LAYOUT(sizeof(jazmotip_acknowledgement) == 8);
JAZMOTIP_LAYOUT(offsetof(jazmotip_acknowledgement, named) == 1);
JAZMOTIP_LAYOUT(offsetof(jazmotip_acknowledgement, unit) == 2);
JAZMOTIP_LAYOUT(offsetof(jazmotip_acknowledgement, number) == 4);
JAZMOTIP_LAYOUT(sizeof(jazmotip_roster) == 18);
JAZMOTIP_LAYOUT(offsetof(jazmotip_roster, count) == 16);
JAZMOTIP_LAYOUT(sizeof(jazmotip_header) == 8);
JAZMOTIP_LAYOUT(offsetof(jazmotip_header, llid) == 2);
JAZMOTIP_LAYOUT(offsetof(jazmotip_header, encenabled) == 4);
JAZMOTIP_LAYOUT(offsetof(jazmotip_header, enckey) == 5);
JAZMOTIP_LAYOUT(offsetof(jazmotip_header, epam) == 6);
JAZMOTIP_LAYOUT(sizeof(jazmotip_olt_answer) == 4032);
JAZMOTIP_LAYOUT(offsetof(jazmotip_olt_answer, olt) == 8);
JAZMOTIP_LAYOUT(sizeof(jazmotip_clock_sent) == 4048);
JAZMOTIP_LAYOUT(offsetof(jazmotip_clock_sent, olt) == 8);
JAZMOTIP_LAYOUT(offsetof(jazmotip_clock_sent, message) == 4032);
JAZMOTIP_LAYOUT(sizeof(jazmotip_key_sent) == 4056);
JAZMOTIP_LAYOUT(offsetof(jazmotip_key_sent, olt) == 8);
JAZMOTIP_LAYOUT(offsetof(jazmotip_key_sent, message) == 4032);
JAZMOTIP_LAYOUT(sizeof(jazmotip_olt_sent) == 4056);
JAZMOTIP_LAYOUT(offsetof(jazmotip_olt_sent, olt) == 8);
JAZMOTIP_LAYOUT(offsetof(jazmotip_olt_sent, header) == 4032);
JAZMOTIP_LAYOUT(offsetof(jazmotip_olt_sent, count) == 4040);
JAZMOTIP_LAYOUT(offsetof(jazmotip_olt_sent, runs) == 4048);
JAZMOTIP_LAYOUT(sizeof(jazmotip_olt_received) == 4048);
JAZMOTIP_LAYOUT(offsetof(jazmotip_olt_received, olt) == 8);
JAZMOTIP_LAYOUT(offsetof(jazmotip_olt_received, count) == 4032);
JAZMOTIP_LAYOUT(offsetof(jazmotip_olt_received, runs) == 4040);
JAZMOTIP_LAYOUT(sizeof(jazmotip_onu_answer) == 352);
JAZMOTIP_LAYOUT(offsetof(jazmotip_onu_answer, onu) == 8);
JAZMOTIP_LAYOUT(sizeof(jazmotip_onu_acknowledged) == 360);
JAZMOTIP_LAYOUT(offsetof(jazmotip_onu_acknowledged, onu) == 8);
JAZMOTIP_LAYOUT(offsetof(jazmotip_onu_acknowledged, acknowledgement) == 352);
JAZMOTIP_LAYOUT(sizeof(jazmotip_onu_sent) == 376);
JAZMOTIP_LAYOUT(offsetof(jazmotip_onu_sent, onu) == 8);
JAZMOTIP_LAYOUT(offsetof(jazmotip_onu_sent, header) == 352);
JAZMOTIP_LAYOUT(offsetof(jazmotip_onu_sent, count) == 360);
JAZMOTIP_LAYOUT(offsetof(jazmotip_onu_sent, runs) == 368);
JAZMOTIP_LAYOUT(sizeof(jazmotip_onu_received) == 368);
JAZMOTIP_LAYOUT(offsetof(jazmotip_onu_received, onu) == 8);
JAZMOTIP_LAYOUT(offsetof(jazmotip_onu_received, count) == 352);
JAZMOTIP_LAYOUT(offsetof(jazmotip_onu_received, runs) == 360);
JAZMOTIP_LAYOUT(sizeof(jazmotip_nonce) == 24);
JAZMOTIP_LAYOUT(offsetof(jazmotip_nonce, mac) == 8);
JAZMOTIP_LAYOUT(offsetof(jazmotip_nonce, clock) == 16);
JAZMOTIP_LAYOUT(sizeof(jazmotip_round_keys) == 176);
JAZMOTIP_LAYOUT(sizeof(jazmotip_payload_answer) == 24);
JAZMOTIP_LAYOUT(offsetof(jazmotip_payload_answer, count) == 8);
JAZMOTIP_LAYOUT(offsetof(jazmotip_payload_answer, runs) == 16);
JAZMOTIP_LAYOUT(sizeof(jazmotip_block_directory) == 16);
JAZMOTIP_LAYOUT(offsetof(jazmotip_block_directory, pair) == 2);
JAZMOTIP_LAYOUT(offsetof(jazmotip_block_directory, records) == 8);
JAZMOTIP_LAYOUT(sizeof(jazmotip_block_verdict) == 16);
JAZMOTIP_LAYOUT(offsetof(jazmotip_block_verdict, encenabled) == 1);
JAZMOTIP_LAYOUT(offsetof(jazmotip_block_verdict, enckey) == 2);
JAZMOTIP_LAYOUT(offsetof(jazmotip_block_verdict, pair) == 4);
JAZMOTIP_LAYOUT(offsetof(jazmotip_block_verdict, clock) == 8);
JAZMOTIP_LAYOUT(sizeof(jazmotip_block_part) == 24);
JAZMOTIP_LAYOUT(offsetof(jazmotip_block_part, pair) == 2);
JAZMOTIP_LAYOUT(offsetof(jazmotip_block_part, offset) == 8);
JAZMOTIP_LAYOUT(offsetof(jazmotip_block_part, length) == 16);
JAZMOTIP_LAYOUT(sizeof(jazmotip_block_answer) == 24);
JAZMOTIP_LAYOUT(offsetof(jazmotip_block_answer, expansions) == 1);
JAZMOTIP_LAYOUT(offsetof(jazmotip_block_answer, pair) == 2);
JAZMOTIP_LAYOUT(offsetof(jazmotip_block_answer, count) == 8);
JAZMOTIP_LAYOUT(offsetof(jazmotip_block_answer, runs) == 16);
JAZMOTIP_LAYOUT(sizeof(jazmotip_block_near_answer) == 32);
JAZMOTIP_LAYOUT(offsetof(jazmotip_block_near_answer, smallest) == 24);
JAZMOTIP_LAYOUT(offsetof(jazmotip_block_near_answer, largest) == 25);
JAZMOTIP_LAYOUT(sizeof(jazmotip_block_near_verdicts) == 24);
JAZMOTIP_LAYOUT(offsetof(jazmotip_block_near_verdicts, smallest) == 16);
JAZMOTIP_LAYOUT(offsetof(jazmotip_block_near_verdicts, largest) == 17);
JAZMOTIP_LAYOUT(sizeof(jazmotip_caller) == 3);
JAZMOTIP_LAYOUT(offsetof(jazmotip_caller, users) == 1);
JAZMOTIP_LAYOUT(offsetof(jazmotip_caller, user) == 2);
JAZMOTIP_LAYOUT(sizeof(jazmotip_store_answer) == 4);
JAZMOTIP_LAYOUT(offsetof(jazmotip_store_answer, pair) == 2);
JAZMOTIP_LAYOUT(sizeof(jazmotip_comparison) == 8);
JAZMOTIP_LAYOUT(offsetof(jazmotip_comparison, block) == 1);
JAZMOTIP_LAYOUT(offsetof(jazmotip_comparison, pair) == 2);
JAZMOTIP_LAYOUT(offsetof(jazmotip_comparison, entries) == 4);
JAZMOTIP_LAYOUT(offsetof(jazmotip_comparison, total) == 6);
JAZMOTIP_LAYOUT(sizeof(jazmotip_loss) == 16);
JAZMOTIP_LAYOUT(offsetof(jazmotip_loss, step) == 8);
JAZMOTIP_LAYOUT(sizeof(jazmotip_xgpon_key_exchange) == 3);
JAZMOTIP_LAYOUT(offsetof(jazmotip_xgpon_key_exchange, oldkey) == 1);
JAZMOTIP_LAYOUT(offsetof(jazmotip_xgpon_key_exchange, newkey) == 2);
JAZMOTIP_LAYOUT(sizeof(jazmotip_xgpon_input) == 2);
JAZMOTIP_LAYOUT(offsetof(jazmotip_xgpon_input, index) == 1);
JAZMOTIP_LAYOUT(sizeof(jazmotip_xgpon_key_control) == 2);
JAZMOTIP_LAYOUT(offsetof(jazmotip_xgpon_key_control, index) == 1);
JAZMOTIP_LAYOUT(sizeof(jazmotip_xgpon_timers) == 3);
JAZMOTIP_LAYOUT(offsetof(jazmotip_xgpon_timers, tk2) == 1);
JAZMOTIP_LAYOUT(offsetof(jazmotip_xgpon_timers, tk3) == 2);
JAZMOTIP_LAYOUT(sizeof(jazmotip_xgpon_answer) == 12);
JAZMOTIP_LAYOUT(offsetof(jazmotip_xgpon_answer, exchange) == 1);
JAZMOTIP_LAYOUT(offsetof(jazmotip_xgpon_answer, message) == 4);
JAZMOTIP_LAYOUT(offsetof(jazmotip_xgpon_answer, starts) == 6);
JAZMOTIP_LAYOUT(offsetof(jazmotip_xgpon_answer, stops) == 9);
JAZMOTIP_LAYOUT(sizeof(jazmotip_xgpon_valid_keys) == 3);
JAZMOTIP_LAYOUT(offsetof(jazmotip_xgpon_valid_keys, oldkey) == 1);
JAZMOTIP_LAYOUT(offsetof(jazmotip_xgpon_valid_keys, newkey) == 2);
JAZMOTIP_LAYOUT(sizeof(jazmotip_xgpon_timer_starts) == 12);
JAZMOTIP_LAYOUT(offsetof(jazmotip_xgpon_timer_starts, tk2) == 4);
JAZMOTIP_LAYOUT(offsetof(jazmotip_xgpon_timer_starts, tk3) == 8);
#undef JAZMOTIP_LAYOUT

#ifdef __cplusplus
}
#endif

#endif
