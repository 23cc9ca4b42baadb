/*
 * bytecipher.h: the engine's sealing with the same byte-table cipher, written anew in C, to be measured against.
 */
#ifndef BYTECIPHER_H
#define BYTECIPHER_H

#include <stddef.h>
#include <stdint.h>
#include <string.h>

struct bytecipher_nonce {
    uint8_t channel;
    uint64_t mac;
    uint64_t clock;
};

struct bytecipher_answer {
    uint8_t number; /* 0, or the refusal's */
    uint64_t count; /* octets enciphered */
};

/* FIPS 197, 5.1.1. */
extern const uint8_t bytecipher_sbox[256];

/* 0, 14 or 1. */
uint8_t bytecipher_judge(struct bytecipher_nonce nonce, size_t input_length, size_t output_length);

/* One EQ under eight cipher octets, the first lowest; gives 1 in the octet of each that is enciphered. */
static inline uint64_t bytecipher_mark_eq(uint64_t half, const uint8_t *input, uint8_t *output)
{
    uint8_t control = input[0];
    uint64_t spread = control, marks, word;
    spread = (spread | spread << 28) & 0x0000000f0000000f;
    spread = (spread | spread << 14) & 0x0003000300030003;
    marks = ~(spread | spread << 7) & 0x0101010101010101;
    memcpy(&word, input + 1, 8);
    word ^= half & marks * 255;
    output[0] = control;
    memcpy(output + 1, &word, 8);
    return marks;
}

/* The eight octets of marks added up: faster than to count the ones in control octets. */
static inline uint64_t bytecipher_added_up(uint64_t marks)
{
    return marks * 0x0101010101010101 >> 56;
}

/* The same EQ; gives the octets enciphered. */
static inline uint64_t bytecipher_mask_eq(uint64_t half, const uint8_t *input, uint8_t *output)
{
    return bytecipher_added_up(bytecipher_mark_eq(half, input, output));
}

/* The eleven round keys of a key. */
void bytecipher_expand(const uint8_t key[16], uint8_t round_keys[176]);

/* Counter block 0 of an envelope. */
void bytecipher_counter(struct bytecipher_nonce nonce, uint8_t block[16]);

/* Masks EQs with a key stream of eight octets for each, and gives the octets enciphered. */
uint64_t bytecipher_mask(const uint8_t *stream, const uint8_t *input, uint8_t *output, size_t eqs);

/* Seals or opens input into output; order of refusals 14, 1. */
struct bytecipher_answer bytecipher_seal(const uint8_t key[16], struct bytecipher_nonce nonce, const uint8_t *input,
                                         size_t input_length, uint8_t *output, size_t output_length);

/* The same under a key that was expanded before. */
struct bytecipher_answer bytecipher_seal_expanded(const uint8_t round_keys[176], struct bytecipher_nonce nonce,
                                                  const uint8_t *input, size_t input_length, uint8_t *output,
                                                  size_t output_length);

/* Seals or opens whole EQs under a key that is set up, and gives the octets enciphered. */
typedef uint64_t bytecipher_sealer(const void *key, struct bytecipher_nonce nonce, const uint8_t *input, uint8_t *output,
                                   size_t eqs);

/* Opens a capture block into output, of the block's length, with two keys that are set up; order of refusals 14, 1, 15. */
struct bytecipher_answer bytecipher_open_block(bytecipher_sealer *seal, const void *key0, const void *key1,
                                               const uint8_t *settings, size_t settings_length, const uint8_t *block,
                                               size_t block_length, uint8_t *output, size_t output_length);

/* A sealer on 176 octets of round keys. */
bytecipher_sealer bytecipher_seal_eqs;

#endif
