/*
 * capture.c: reads settings, 41 octets, then a capture block from standard input. Prints the listing, then what each call on the
 * block answers, and seals every opened payload again to see that it gives back what was captured.
 */
#include "jazmotip.h"

#include <inttypes.h>
#include <stdio.h>
#include <string.h>

static uint8_t input[JAZMOTIP_SETTINGS_OCTETS + JAZMOTIP_BLOCK_OCTETS + 1];
static uint8_t opened[JAZMOTIP_BLOCK_OCTETS + 1];
static uint8_t again[JAZMOTIP_BLOCK_OCTETS + 1];
static uint8_t text[JAZMOTIP_LISTING_OCTETS];

static uint64_t big_endian(const uint8_t *octets, size_t length)
{
    uint64_t number = 0;
    for (size_t i = 0; i < length; i++)
        number = number << 8 | octets[i];
    return number;
}

/* Whether sealing the opened payload of a record gives the captured one. */
static int seals_back(const uint8_t *settings, const uint8_t *block, jazmotip_block_verdict verdict, jazmotip_block_part part)
{
    jazmotip_round_keys keys = jazmotip_expand_key(settings + 1 + 16 * verdict.enckey);
    /* The channel index is the second of the sixteen octets ahead of the payload. */
    jazmotip_nonce nonce = {
        .channel = block[part.offset - 15], .mac = big_endian(settings + 33, 6), .clock = verdict.clock};
    jazmotip_payload_answer sealed = jazmotip_seal_expanded(verdict.encenabled, keys, nonce, opened + part.offset, part.length,
                                                            again + part.offset, part.length);
    return sealed.number == JAZMOTIP_ACCEPTED && sealed.count == jazmotip_count(block + part.offset, part.length) &&
           memcmp(again + part.offset, block + part.offset, part.length) == 0;
}

int main(void)
{
    size_t length = fread(input, 1, sizeof input, stdin);
    size_t settings_length = length < JAZMOTIP_SETTINGS_OCTETS ? length : JAZMOTIP_SETTINGS_OCTETS;
    const uint8_t *settings = input, *block = input + settings_length;
    size_t block_length = length - settings_length;

    fwrite(text, 1, jazmotip_capture_list(settings, settings_length, block, block_length, text), stdout);
    jazmotip_block_directory directory = jazmotip_capture_directory(block, block_length);
    printf("directory %u pair %u records %zu\n", directory.number, directory.pair, directory.records);
    jazmotip_block_answer open = jazmotip_capture_open(settings, settings_length, block, block_length, opened, block_length);
    printf("open %u pair %u count %" PRIu64 "\n", open.number, open.pair, open.count);
    printf("runs %" PRIu64 " expansions %u\n", open.runs, open.expansions);
    jazmotip_block_near_answer near =
        jazmotip_capture_open_near(settings, settings_length, block, block_length, again, block_length);
    printf("open near %u count %" PRIu64 " corrections %d to %d\n", near.answer.number, near.answer.count, near.smallest,
           near.largest);
    uint8_t numbers[JAZMOTIP_RECORDS];
    jazmotip_block_directory judged =
        jazmotip_capture_verdicts(settings, settings_length, block, block_length, numbers, sizeof numbers);
    for (size_t k = 1; k <= directory.records; k++) {
        /* Only of a record that opens are the key and the clock asked for. */
        jazmotip_block_verdict verdict = {.number = judged.number ? judged.number : numbers[k - 1]};
        if (verdict.number == JAZMOTIP_ACCEPTED)
            verdict = jazmotip_capture_verdict(settings, settings_length, block, block_length, k);
        jazmotip_block_part part = jazmotip_capture_payload(block, block_length, k);
        printf("record %zu: %u key %u %u clock %" PRIu64 " payload %u %zu %zu", k, verdict.number, verdict.encenabled,
               verdict.enckey, verdict.clock, part.number, part.offset, part.length);
        if (verdict.encenabled == 1)
            printf("%s", seals_back(settings, block, verdict, part) ? ", seals back" : ", does not seal back");
        printf("\n");
    }
    return 0;
}
