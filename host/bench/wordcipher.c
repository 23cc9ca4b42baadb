/*
 * wordcipher.c: sealing with rows of one block or of two in words (FIPS 197; 01, Counter block and mask). Word r has row r, its octets
 * column by column, the first block's lowest. A file of its own, so that nothing is inlined into the measuring loop.
 *
 * A block of control characters alone is copied and not run, and the runs are told (02, C-17), as the engine does; the functions whose
 * names end in _every run every block.
 */
#include "wordcipher.h"

#include <string.h>

#define sbox bytecipher_sbox

struct rows {
    uint64_t a, b, c, d;
};

/* A cipher block: octets 0 to 7 and 8 to 15. */
struct block {
    uint64_t low, high;
};

/* Each octet times x (FIPS 197, 4.2). */
static inline uint64_t double_octets(uint64_t x)
{
    return (x & 0x7f7f7f7f7f7f7f7f) << 1 ^ (x >> 7 & 0x0101010101010101) * 0x1b;
}

/* Octet j of x, substituted. The word is turned by two octets at a time, so that gcc has the two lowest of what it turned without a shift more. */
static inline uint64_t substituted(uint64_t x, int j)
{
    int k = 16 * (j / 2);
    uint64_t turned = x >> k | x << (64 - k) % 64;
    return sbox[turned >> 8 * (j % 2) & 0xff];
}

static inline uint64_t four(uint64_t a, uint64_t b, uint64_t c, uint64_t d)
{
    return a | b << 8 | c << 16 | d << 24;
}

/* Row k of state z after SubBytes and ShiftRows. */
static inline uint64_t shifted_row(uint64_t x, int k, int z)
{
    return four(substituted(x, 4 * z + k % 4), substituted(x, 4 * z + (k + 1) % 4), substituted(x, 4 * z + (k + 2) % 4),
                substituted(x, 4 * z + (k + 3) % 4));
}

static inline uint64_t shifted_rows(uint64_t x, int k)
{
    return shifted_row(x, k, 0) | shifted_row(x, k, 1) << 32;
}

/* MixColumns and AddRoundKey. */
static inline struct rows mixed(struct rows s, struct rows k)
{
    uint64_t ab = s.a ^ s.b, cd = s.c ^ s.d;
    uint64_t x = double_octets(ab), y = double_octets(s.b ^ s.c), z = double_octets(cd);
    return (struct rows){x ^ s.b ^ cd ^ k.a, y ^ s.a ^ cd ^ k.b, z ^ s.d ^ ab ^ k.c, x ^ y ^ z ^ s.c ^ ab ^ k.d};
}

/* Octet j of x and an octet of a round key, added and substituted. */
static inline uint64_t keyed(uint64_t x, int j, uint8_t key)
{
    return sbox[(uint8_t)(x >> 8 * j) ^ key];
}

/* Row k of one state after AddRoundKey, SubBytes and ShiftRows: adding the key's octets here is faster than gathering its rows. */
static inline uint64_t keyed_row(const uint8_t *key, uint64_t x, int k)
{
    return four(keyed(x, k, key[5 * k]), keyed(x, (k + 1) % 4, key[k + 4 * ((k + 1) % 4)]),
                keyed(x, (k + 2) % 4, key[k + 4 * ((k + 2) % 4)]), keyed(x, (k + 3) % 4, key[k + 4 * ((k + 3) % 4)]));
}

/* AddRoundKey, and a round up to its own AddRoundKey. */
static inline struct rows lone_round(const uint8_t *key, struct rows s)
{
    struct rows t = {keyed_row(key, s.a, 0), keyed_row(key, s.b, 1), keyed_row(key, s.c, 2), keyed_row(key, s.d, 3)};
    return mixed(t, (struct rows){0, 0, 0, 0});
}

static inline struct rows pair_round(struct rows s, struct rows k)
{
    struct rows t = {shifted_rows(s.a, 0), shifted_rows(s.b, 1), shifted_rows(s.c, 2), shifted_rows(s.d, 3)};
    return mixed(t, k);
}

static inline struct rows rows_of(const uint8_t *s)
{
    return (struct rows){four(s[0], s[4], s[8], s[12]), four(s[1], s[5], s[9], s[13]), four(s[2], s[6], s[10], s[14]),
                         four(s[3], s[7], s[11], s[15])};
}

static inline struct rows rows_of_two(struct rows s, struct rows t)
{
    return (struct rows){s.a | t.a << 32, s.b | t.b << 32, s.c | t.c << 32, s.d | t.d << 32};
}

static inline struct rows added(struct rows s, struct rows k)
{
    return (struct rows){s.a ^ k.a, s.b ^ k.b, s.c ^ k.c, s.d ^ k.d};
}

/* The columns i and i + 1 after SubBytes and ShiftRows. */
static inline uint64_t shifted_columns(struct rows s, int i)
{
    return four(substituted(s.a, i % 4), substituted(s.b, (i + 1) % 4), substituted(s.c, (i + 2) % 4), substituted(s.d, (i + 3) % 4)) |
           four(substituted(s.a, (i + 1) % 4), substituted(s.b, (i + 2) % 4), substituted(s.c, (i + 3) % 4), substituted(s.d, i % 4))
               << 32;
}

static inline struct block last_round(const uint8_t *round_keys, struct rows s)
{
    uint64_t low, high;
    memcpy(&low, round_keys + 160, 8);
    memcpy(&high, round_keys + 168, 8);
    return (struct block){shifted_columns(s, 0) ^ low, shifted_columns(s, 2) ^ high};
}

/* Column i after AddRoundKey, SubBytes and ShiftRows. */
static inline uint64_t keyed_column(const uint8_t *key, struct rows s, int i)
{
    return four(keyed(s.a, i, key[4 * i]), keyed(s.b, (i + 1) % 4, key[1 + 4 * ((i + 1) % 4)]),
                keyed(s.c, (i + 2) % 4, key[2 + 4 * ((i + 2) % 4)]), keyed(s.d, (i + 3) % 4, key[3 + 4 * ((i + 3) % 4)]));
}

static inline struct block encrypt_lone(const uint8_t *round_keys, const uint8_t *block)
{
    struct rows s = rows_of(block);
    for (int n = 0; n < 9; n++)
        s = lone_round(round_keys + 16 * n, s);
    const uint8_t *ninth = round_keys + 144;
    uint64_t low, high;
    memcpy(&low, round_keys + 160, 8);
    memcpy(&high, round_keys + 168, 8);
    return (struct block){(keyed_column(ninth, s, 0) | keyed_column(ninth, s, 1) << 32) ^ low,
                          (keyed_column(ninth, s, 2) | keyed_column(ninth, s, 3) << 32) ^ high};
}

/* What varies of a row of two blocks after SubBytes and ShiftRows of round 1: an octet of each block's index. */
static inline uint64_t varying(uint8_t key, size_t i, size_t j)
{
    return sbox[(uint8_t)i ^ key] | (uint64_t)sbox[(uint8_t)j ^ key] << 32;
}

static inline void encrypt_pair(const uint8_t *round_keys, const struct rows *keys, struct rows kept, size_t i, size_t j,
                                struct block *blocks)
{
    struct rows t = {kept.a, kept.b ^ varying(round_keys[13], i >> 16, j >> 16) << 16,
                     kept.c ^ varying(round_keys[14], i >> 8, j >> 8) << 8, kept.d ^ varying(round_keys[15], i, j)};
    struct rows s = mixed(t, keys[1]);
    for (int n = 2; n < 10; n++)
        s = pair_round(s, keys[n]);
    blocks[0] = last_round(round_keys, s);
    blocks[1] = last_round(round_keys, (struct rows){s.a >> 32, s.b >> 32, s.c >> 32, s.d >> 32});
}

static inline void set_index(uint8_t *counter, size_t i)
{
    counter[13] = (uint8_t)(i >> 16);
    counter[14] = (uint8_t)(i >> 8);
    counter[15] = (uint8_t)i;
}

/* The one or two EQs of block i; gives a mark for each octet that is enciphered. */
static inline uint64_t mask_block(struct block block, const uint8_t *input, uint8_t *output, size_t i, size_t eqs)
{
    uint64_t marks = bytecipher_mark_eq(block.low, input + 18 * i, output + 18 * i);
    if (2 * i + 1 < eqs)
        marks += bytecipher_mark_eq(block.high, input + 18 * i + 9, output + 18 * i + 9);
    return marks;
}

/* The blocks i and j; gives the octets enciphered. */
static inline uint64_t mask_two(const struct block *two, const uint8_t *input, uint8_t *output, size_t i, size_t j, size_t eqs)
{
    uint64_t marks = mask_block(two[0], input, output, i, eqs);
    marks += mask_block(two[1], input, output, j, eqs);
    return bytecipher_added_up(marks);
}

/* Whether a block has an octet to encipher. */
static inline int needs_run(const uint8_t *input, size_t i, size_t eqs)
{
    return (2 * i + 1 < eqs ? input[18 * i] & input[18 * i + 9] : input[18 * i]) != 0xff;
}

struct work_done {
    uint64_t count, runs;
};

static inline __attribute__((always_inline)) struct work_done seal(int every, const uint8_t *round_keys,
                                                                   struct bytecipher_nonce nonce, const uint8_t *input,
                                                                   uint8_t *output, size_t eqs)
{
    uint8_t one[16];
    struct work_done done = {0, 0};
    size_t blocks = (eqs + 1) / 2, waiting = blocks; /* for another to be run with */
    bytecipher_counter(nonce, one);
    if (blocks > 1) {
        struct rows keys[10];
        struct block two[2];
        for (int n = 0; n < 10; n++) {
            struct rows k = rows_of(round_keys + 16 * n);
            keys[n] = rows_of_two(k, k);
        }
        struct rows first = added(rows_of(one), rows_of(round_keys)), kept;
        first = rows_of_two(first, first);
        kept = (struct rows){shifted_rows(first.a, 0), shifted_rows(first.b, 1) & 0xff00ffffff00ffff,
                             shifted_rows(first.c, 2) & 0xffff00ffffff00ff, shifted_rows(first.d, 3) & 0xffffff00ffffff00};
        if (every) {
            size_t i = 0;
            for (; i + 1 < blocks; i += 2) {
                encrypt_pair(round_keys, keys, kept, i, i + 1, two);
                done.count += mask_two(two, input, output, i, i + 1, eqs);
            }
            done.runs = i;
            waiting = i;
        } else {
            for (size_t i = 0; i < blocks; i++) {
                if (!needs_run(input, i, eqs)) {
                    memcpy(output + 18 * i, input + 18 * i, 2 * i + 1 < eqs ? 18 : 9);
                } else if (waiting == blocks) {
                    waiting = i;
                } else {
                    encrypt_pair(round_keys, keys, kept, waiting, i, two);
                    done.count += mask_two(two, input, output, waiting, i, eqs);
                    done.runs += 2;
                    waiting = blocks;
                }
            }
        }
    } else if (blocks == 1) {
        if (every || needs_run(input, 0, eqs))
            waiting = 0;
        else
            memcpy(output, input, 9 * eqs);
    }
    if (waiting < blocks) {
        set_index(one, waiting);
        done.count += bytecipher_added_up(mask_block(encrypt_lone(round_keys, one), input, output, waiting, eqs));
        done.runs++;
    }
    return done;
}

uint64_t wordcipher_seal_eqs(const void *round_keys, struct bytecipher_nonce nonce, const uint8_t *input, uint8_t *output,
                             size_t eqs)
{
    return seal(0, round_keys, nonce, input, output, eqs).count;
}

static __attribute__((noinline)) struct work_done seal_needed(const uint8_t *round_keys, struct bytecipher_nonce nonce,
                                                              const uint8_t *input, uint8_t *output, size_t eqs)
{
    return seal(0, round_keys, nonce, input, output, eqs);
}

static __attribute__((noinline)) struct work_done seal_every(const uint8_t *round_keys, struct bytecipher_nonce nonce,
                                                             const uint8_t *input, uint8_t *output, size_t eqs)
{
    return seal(1, round_keys, nonce, input, output, eqs);
}

typedef struct work_done sealer(const uint8_t *round_keys, struct bytecipher_nonce nonce, const uint8_t *input, uint8_t *output,
                                size_t eqs);

static inline __attribute__((always_inline)) struct wordcipher_answer under(sealer *seal_by, const uint8_t *round_keys,
                                                                            const uint8_t *key, struct bytecipher_nonce nonce,
                                                                            const uint8_t *input, size_t input_length,
                                                                            uint8_t *output, size_t output_length)
{
    struct wordcipher_answer answer = {bytecipher_judge(nonce, input_length, output_length), 0, 0};
    if (answer.number == 0) {
        uint8_t expanded[176];
        if (round_keys == NULL)
            bytecipher_expand(key, expanded);
        struct work_done done = seal_by(round_keys != NULL ? round_keys : expanded, nonce, input, output, input_length / 9);
        answer.count = done.count;
        answer.runs = done.runs;
    }
    return answer;
}

struct wordcipher_answer wordcipher_seal_expanded(const uint8_t round_keys[176], struct bytecipher_nonce nonce,
                                                  const uint8_t *input, size_t input_length, uint8_t *output,
                                                  size_t output_length)
{
    return under(seal_needed, round_keys, NULL, nonce, input, input_length, output, output_length);
}

struct wordcipher_answer wordcipher_seal(const uint8_t key[16], struct bytecipher_nonce nonce, const uint8_t *input,
                                         size_t input_length, uint8_t *output, size_t output_length)
{
    return under(seal_needed, NULL, key, nonce, input, input_length, output, output_length);
}

struct wordcipher_answer wordcipher_seal_expanded_every(const uint8_t round_keys[176], struct bytecipher_nonce nonce,
                                                        const uint8_t *input, size_t input_length, uint8_t *output,
                                                        size_t output_length)
{
    return under(seal_every, round_keys, NULL, nonce, input, input_length, output, output_length);
}

struct wordcipher_answer wordcipher_seal_every(const uint8_t key[16], struct bytecipher_nonce nonce, const uint8_t *input,
                                               size_t input_length, uint8_t *output, size_t output_length)
{
    return under(seal_every, NULL, key, nonce, input, input_length, output, output_length);
}
