/*
 * bytecipher.c: the engine's sealing with the same byte-table cipher, written anew in C (FIPS 197; 01, Counter block and mask).
 *
 * Two tables of 256 octets, the state in 16 octets, the round keys in 176. A file of its own, so that nothing is inlined into the
 * measuring loop.
 */
#include "bytecipher.h"

#include <string.h>

#define sbox bytecipher_sbox

/* FIPS 197, 5.1.1. */
const uint8_t bytecipher_sbox[256] = {
    0x63, 0x7c, 0x77, 0x7b, 0xf2, 0x6b, 0x6f, 0xc5, 0x30, 0x01, 0x67, 0x2b, 0xfe, 0xd7, 0xab, 0x76,
    0xca, 0x82, 0xc9, 0x7d, 0xfa, 0x59, 0x47, 0xf0, 0xad, 0xd4, 0xa2, 0xaf, 0x9c, 0xa4, 0x72, 0xc0,
    0xb7, 0xfd, 0x93, 0x26, 0x36, 0x3f, 0xf7, 0xcc, 0x34, 0xa5, 0xe5, 0xf1, 0x71, 0xd8, 0x31, 0x15,
    0x04, 0xc7, 0x23, 0xc3, 0x18, 0x96, 0x05, 0x9a, 0x07, 0x12, 0x80, 0xe2, 0xeb, 0x27, 0xb2, 0x75,
    0x09, 0x83, 0x2c, 0x1a, 0x1b, 0x6e, 0x5a, 0xa0, 0x52, 0x3b, 0xd6, 0xb3, 0x29, 0xe3, 0x2f, 0x84,
    0x53, 0xd1, 0x00, 0xed, 0x20, 0xfc, 0xb1, 0x5b, 0x6a, 0xcb, 0xbe, 0x39, 0x4a, 0x4c, 0x58, 0xcf,
    0xd0, 0xef, 0xaa, 0xfb, 0x43, 0x4d, 0x33, 0x85, 0x45, 0xf9, 0x02, 0x7f, 0x50, 0x3c, 0x9f, 0xa8,
    0x51, 0xa3, 0x40, 0x8f, 0x92, 0x9d, 0x38, 0xf5, 0xbc, 0xb6, 0xda, 0x21, 0x10, 0xff, 0xf3, 0xd2,
    0xcd, 0x0c, 0x13, 0xec, 0x5f, 0x97, 0x44, 0x17, 0xc4, 0xa7, 0x7e, 0x3d, 0x64, 0x5d, 0x19, 0x73,
    0x60, 0x81, 0x4f, 0xdc, 0x22, 0x2a, 0x90, 0x88, 0x46, 0xee, 0xb8, 0x14, 0xde, 0x5e, 0x0b, 0xdb,
    0xe0, 0x32, 0x3a, 0x0a, 0x49, 0x06, 0x24, 0x5c, 0xc2, 0xd3, 0xac, 0x62, 0x91, 0x95, 0xe4, 0x79,
    0xe7, 0xc8, 0x37, 0x6d, 0x8d, 0xd5, 0x4e, 0xa9, 0x6c, 0x56, 0xf4, 0xea, 0x65, 0x7a, 0xae, 0x08,
    0xba, 0x78, 0x25, 0x2e, 0x1c, 0xa6, 0xb4, 0xc6, 0xe8, 0xdd, 0x74, 0x1f, 0x4b, 0xbd, 0x8b, 0x8a,
    0x70, 0x3e, 0xb5, 0x66, 0x48, 0x03, 0xf6, 0x0e, 0x61, 0x35, 0x57, 0xb9, 0x86, 0xc1, 0x1d, 0x9e,
    0xe1, 0xf8, 0x98, 0x11, 0x69, 0xd9, 0x8e, 0x94, 0x9b, 0x1e, 0x87, 0xe9, 0xce, 0x55, 0x28, 0xdf,
    0x8c, 0xa1, 0x89, 0x0d, 0xbf, 0xe6, 0x42, 0x68, 0x41, 0x99, 0x2d, 0x0f, 0xb0, 0x54, 0xbb, 0x16,
};

/* Each octet times x (FIPS 197, 4.2). */
static const uint8_t doubles[256] = {
    0x00, 0x02, 0x04, 0x06, 0x08, 0x0a, 0x0c, 0x0e, 0x10, 0x12, 0x14, 0x16, 0x18, 0x1a, 0x1c, 0x1e,
    0x20, 0x22, 0x24, 0x26, 0x28, 0x2a, 0x2c, 0x2e, 0x30, 0x32, 0x34, 0x36, 0x38, 0x3a, 0x3c, 0x3e,
    0x40, 0x42, 0x44, 0x46, 0x48, 0x4a, 0x4c, 0x4e, 0x50, 0x52, 0x54, 0x56, 0x58, 0x5a, 0x5c, 0x5e,
    0x60, 0x62, 0x64, 0x66, 0x68, 0x6a, 0x6c, 0x6e, 0x70, 0x72, 0x74, 0x76, 0x78, 0x7a, 0x7c, 0x7e,
    0x80, 0x82, 0x84, 0x86, 0x88, 0x8a, 0x8c, 0x8e, 0x90, 0x92, 0x94, 0x96, 0x98, 0x9a, 0x9c, 0x9e,
    0xa0, 0xa2, 0xa4, 0xa6, 0xa8, 0xaa, 0xac, 0xae, 0xb0, 0xb2, 0xb4, 0xb6, 0xb8, 0xba, 0xbc, 0xbe,
    0xc0, 0xc2, 0xc4, 0xc6, 0xc8, 0xca, 0xcc, 0xce, 0xd0, 0xd2, 0xd4, 0xd6, 0xd8, 0xda, 0xdc, 0xde,
    0xe0, 0xe2, 0xe4, 0xe6, 0xe8, 0xea, 0xec, 0xee, 0xf0, 0xf2, 0xf4, 0xf6, 0xf8, 0xfa, 0xfc, 0xfe,
    0x1b, 0x19, 0x1f, 0x1d, 0x13, 0x11, 0x17, 0x15, 0x0b, 0x09, 0x0f, 0x0d, 0x03, 0x01, 0x07, 0x05,
    0x3b, 0x39, 0x3f, 0x3d, 0x33, 0x31, 0x37, 0x35, 0x2b, 0x29, 0x2f, 0x2d, 0x23, 0x21, 0x27, 0x25,
    0x5b, 0x59, 0x5f, 0x5d, 0x53, 0x51, 0x57, 0x55, 0x4b, 0x49, 0x4f, 0x4d, 0x43, 0x41, 0x47, 0x45,
    0x7b, 0x79, 0x7f, 0x7d, 0x73, 0x71, 0x77, 0x75, 0x6b, 0x69, 0x6f, 0x6d, 0x63, 0x61, 0x67, 0x65,
    0x9b, 0x99, 0x9f, 0x9d, 0x93, 0x91, 0x97, 0x95, 0x8b, 0x89, 0x8f, 0x8d, 0x83, 0x81, 0x87, 0x85,
    0xbb, 0xb9, 0xbf, 0xbd, 0xb3, 0xb1, 0xb7, 0xb5, 0xab, 0xa9, 0xaf, 0xad, 0xa3, 0xa1, 0xa7, 0xa5,
    0xdb, 0xd9, 0xdf, 0xdd, 0xd3, 0xd1, 0xd7, 0xd5, 0xcb, 0xc9, 0xcf, 0xcd, 0xc3, 0xc1, 0xc7, 0xc5,
    0xfb, 0xf9, 0xff, 0xfd, 0xf3, 0xf1, 0xf7, 0xf5, 0xeb, 0xe9, 0xef, 0xed, 0xe3, 0xe1, 0xe7, 0xe5,
};

static const uint8_t round_constants[10] = {0x01, 0x02, 0x04, 0x08, 0x10, 0x20, 0x40, 0x80, 0x1b, 0x36};

struct state {
    uint8_t octets[16];
};

/* SubBytes, MixColumns and AddRoundKey for one column. */
static inline void round_column(uint8_t *column, const uint8_t *key, uint8_t a, uint8_t b, uint8_t c, uint8_t d)
{
    a = sbox[a];
    b = sbox[b];
    c = sbox[c];
    d = sbox[d];
    uint8_t a2 = doubles[a], b2 = doubles[b], c2 = doubles[c], d2 = doubles[d];
    uint8_t ab = a ^ b, cd = c ^ d;
    column[0] = a2 ^ b2 ^ b ^ cd ^ key[0];
    column[1] = a ^ b2 ^ c2 ^ cd ^ key[1];
    column[2] = ab ^ c2 ^ d2 ^ d ^ key[2];
    column[3] = a2 ^ ab ^ c ^ d2 ^ key[3];
}

static inline struct state round_step(struct state s, const uint8_t *key)
{
    struct state t;
    round_column(t.octets, key, s.octets[0], s.octets[5], s.octets[10], s.octets[15]);
    round_column(t.octets + 4, key + 4, s.octets[4], s.octets[9], s.octets[14], s.octets[3]);
    round_column(t.octets + 8, key + 8, s.octets[8], s.octets[13], s.octets[2], s.octets[7]);
    round_column(t.octets + 12, key + 12, s.octets[12], s.octets[1], s.octets[6], s.octets[11]);
    return t;
}

static inline void encrypt(const uint8_t *round_keys, const uint8_t *block, uint8_t *cipher)
{
    struct state s;
    for (int i = 0; i < 16; i++)
        s.octets[i] = block[i] ^ round_keys[i];
    for (int n = 1; n < 10; n++)
        s = round_step(s, round_keys + 16 * n);
    for (int i = 0; i < 16; i++)
        cipher[i] = sbox[s.octets[5 * i % 16]] ^ round_keys[160 + i];
}

void bytecipher_expand(const uint8_t key[16], uint8_t round_keys[176])
{
    memcpy(round_keys, key, 16);
    for (int n = 0; n < 10; n++) {
        const uint8_t *last = round_keys + 16 * n;
        uint8_t *next = round_keys + 16 * (n + 1);
        next[0] = last[0] ^ sbox[last[13]] ^ round_constants[n];
        next[1] = last[1] ^ sbox[last[14]];
        next[2] = last[2] ^ sbox[last[15]];
        next[3] = last[3] ^ sbox[last[12]];
        for (int i = 4; i < 16; i++)
            next[i] = last[i] ^ next[i - 4];
    }
}

void bytecipher_counter(struct bytecipher_nonce nonce, uint8_t block[16])
{
    block[0] = nonce.channel;
    for (int i = 0; i < 6; i++) {
        block[1 + i] = (uint8_t)(nonce.mac >> (40 - 8 * i));
        block[7 + i] = (uint8_t)(nonce.clock >> (40 - 8 * i));
    }
    block[13] = block[14] = block[15] = 0;
}

static inline uint64_t half_of(const uint8_t *stream)
{
    uint64_t half;
    memcpy(&half, stream, 8);
    return half;
}

uint64_t bytecipher_mask(const uint8_t *stream, const uint8_t *input, uint8_t *output, size_t eqs)
{
    uint64_t count = 0;
    for (size_t i = 0; i < eqs; i++)
        count += bytecipher_mask_eq(half_of(stream + 8 * i), input + 9 * i, output + 9 * i);
    return count;
}

uint64_t bytecipher_seal_eqs(const void *round_keys, struct bytecipher_nonce nonce, const uint8_t *input, uint8_t *output,
                             size_t eqs)
{
    uint8_t counter[16], stream[16];
    uint64_t count = 0;
    bytecipher_counter(nonce, counter);
    for (size_t i = 0; 2 * i < eqs; i++) {
        counter[13] = (uint8_t)(i >> 16);
        counter[14] = (uint8_t)(i >> 8);
        counter[15] = (uint8_t)i;
        encrypt(round_keys, counter, stream);
        count += bytecipher_mask_eq(half_of(stream), input + 18 * i, output + 18 * i);
        if (2 * i + 1 < eqs)
            count += bytecipher_mask_eq(half_of(stream + 8), input + 18 * i + 9, output + 18 * i + 9);
    }
    return count;
}

uint8_t bytecipher_judge(struct bytecipher_nonce nonce, size_t input_length, size_t output_length)
{
    if (input_length % 9 != 0 || input_length > 37748727 || output_length != input_length)
        return 14;
    if ((nonce.channel & 0x7e) != 0 || nonce.mac >> 48 != 0 || nonce.clock >> 48 != 0)
        return 1;
    return 0;
}

struct bytecipher_answer bytecipher_seal_expanded(const uint8_t round_keys[176], struct bytecipher_nonce nonce,
                                                  const uint8_t *input, size_t input_length, uint8_t *output,
                                                  size_t output_length)
{
    struct bytecipher_answer answer = {bytecipher_judge(nonce, input_length, output_length), 0};
    if (answer.number == 0)
        answer.count = bytecipher_seal_eqs(round_keys, nonce, input, output, input_length / 9);
    return answer;
}

struct bytecipher_answer bytecipher_seal(const uint8_t key[16], struct bytecipher_nonce nonce, const uint8_t *input,
                                         size_t input_length, uint8_t *output, size_t output_length)
{
    struct bytecipher_answer answer = {bytecipher_judge(nonce, input_length, output_length), 0};
    if (answer.number == 0) {
        uint8_t round_keys[176];
        bytecipher_expand(key, round_keys);
        answer.count = bytecipher_seal_eqs(round_keys, nonce, input, output, input_length / 9);
    }
    return answer;
}

/* ---------------------------------------------------------------------------------------------------------- Capture blocks */

static uint64_t number(const uint8_t *octets, int n)
{
    uint64_t value = 0;
    for (int i = 0; i < n; i++)
        value = value << 8 | octets[i];
    return value;
}

static int directory_good(const uint8_t *block, size_t length)
{
    if (length < 2 || length > 65536)
        return 0;
    size_t n = number(block, 2);
    if (n > 256 || 2 + 8 * n > length || (n == 0 && length != 2))
        return 0;
    size_t due = 2 + 8 * n;
    for (size_t i = 0; i < n; i++) {
        size_t offset = number(block + 2 + 8 * i, 4), octets = number(block + 6 + 8 * i, 4);
        if (offset != due || offset + octets > length || (i + 1 == n && offset + octets != length))
            return 0;
        if (octets < 16 || octets != 16 + 9 * number(block + offset + 12, 4))
            return 0;
        due += octets;
    }
    return 1;
}

/* Whether a record is opened: kind, channel index, flags, LLID and EPAM, and a key that is present. */
static int opens(const uint8_t *settings, const uint8_t *record)
{
    return record[0] < 2 && (record[1] & 0x7e) == 0 && (record[4] == 1 || record[4] == 3) &&
           memcmp(record + 2, settings + 39, 2) == 0 && record[5] == (record[11] & 0x3f) && (settings[0] >> (record[4] >> 1) & 1);
}

struct bytecipher_answer bytecipher_open_block(bytecipher_sealer *seal, const void *key0, const void *key1,
                                               const uint8_t *settings, size_t settings_length, const uint8_t *block,
                                               size_t block_length, uint8_t *output, size_t output_length)
{
    struct bytecipher_answer answer = {0, 0};
    if (settings_length != 41 || output_length != block_length)
        answer.number = 14;
    else if (settings[0] >= 4)
        answer.number = 1;
    else if (!directory_good(block, block_length))
        answer.number = 15;
    if (answer.number != 0)
        return answer;
    memcpy(output, block, block_length);
    size_t n = number(block, 2);
    for (size_t i = 0; i < n; i++) {
        size_t offset = number(block + 2 + 8 * i, 4);
        const uint8_t *record = block + offset;
        if (!opens(settings, record))
            continue;
        struct bytecipher_nonce nonce = {record[1], number(settings + 33, 6), number(record + 6, 6)};
        const void *key = record[4] >> 1 ? key1 : key0;
        output[offset + 4] = 0;
        answer.count += seal(key, nonce, record + 16, output + offset + 16, number(record + 12, 4));
    }
    return answer;
}
