/*
 * wordcipher.h: the engine's sealing with the engine's form of the cipher, written anew in C, to be measured against: one table, the
 * substitution; doublings worked out, eight octets at once; the rows of two blocks in four words; blocks with nothing to encipher not run.
 */
#ifndef WORDCIPHER_H
#define WORDCIPHER_H

#include "bytecipher.h"

struct wordcipher_answer {
    uint8_t number; /* 0, or the refusal's */
    uint64_t count; /* octets enciphered */
    uint64_t runs;  /* of the cipher (02, C-17) */
};

/* Seals or opens input into output; order of refusals 14, 1. */
struct wordcipher_answer wordcipher_seal(const uint8_t key[16], struct bytecipher_nonce nonce, const uint8_t *input,
                                         size_t input_length, uint8_t *output, size_t output_length);

/* The same under a key that was expanded before. */
struct wordcipher_answer wordcipher_seal_expanded(const uint8_t round_keys[176], struct bytecipher_nonce nonce,
                                                  const uint8_t *input, size_t input_length, uint8_t *output,
                                                  size_t output_length);

/* The same two with every block run, whether it has an octet to encipher or not: what the cipher costs without 02, C-17. */
struct wordcipher_answer wordcipher_seal_every(const uint8_t key[16], struct bytecipher_nonce nonce, const uint8_t *input,
                                               size_t input_length, uint8_t *output, size_t output_length);
struct wordcipher_answer wordcipher_seal_expanded_every(const uint8_t round_keys[176], struct bytecipher_nonce nonce,
                                                        const uint8_t *input, size_t input_length, uint8_t *output,
                                                        size_t output_length);

/* A sealer on 176 octets of round keys. */
bytecipher_sealer wordcipher_seal_eqs;

#endif
