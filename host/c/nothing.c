/*
 * nothing.c: NULL with length 0, as C programs pass it for nothing, to every call that takes octets.
 *
 * Prints each call with its code, and with what else it gives.
 */
#include "jazmotip.h"

#include <inttypes.h>
#include <stdio.h>

static const uint8_t key[JAZMOTIP_KEY_OCTETS] = {1, 2, 3};
static const uint8_t settings[JAZMOTIP_SETTINGS_OCTETS];
static const uint8_t empty_block[2];
static uint8_t eq[JAZMOTIP_EQ_OCTETS];

static void payloads(void)
{
    const jazmotip_nonce nonce = {.channel = 0x80, .mac = 1, .clock = 2};
    const jazmotip_round_keys keys = jazmotip_expand_key(key);
    for (uint8_t encenabled = 0; encenabled < 3; encenabled++) {
        jazmotip_payload_answer a = jazmotip_seal(encenabled, key, nonce, NULL, 0, NULL, 0);
        jazmotip_payload_answer b = jazmotip_seal_expanded(encenabled, keys, nonce, NULL, 0, NULL, 0);
        jazmotip_payload_answer c = jazmotip_seal_in_place(encenabled, key, nonce, NULL, 0);
        jazmotip_payload_answer d = jazmotip_seal_expanded_in_place(encenabled, keys, nonce, NULL, 0);
        printf("seal %u: %u %u %u %u, count %" PRIu64 "\n", encenabled, a.number, b.number, c.number, d.number,
               a.count + b.count + c.count + d.count);
    }
    printf("seal into nothing: %u\n", jazmotip_seal(1, key, nonce, eq, sizeof eq, NULL, 0).number);
    printf("seal of nothing: %u\n", jazmotip_seal(1, key, nonce, NULL, 0, eq, sizeof eq).number);
    printf("count: %" PRIu64 "\n", jazmotip_count(NULL, 0));
    printf("rearrange: %u %u\n", jazmotip_rearrange(NULL, 0, NULL, 0), jazmotip_rearrange(eq, sizeof eq, NULL, 0));
    printf("restore: %u %u\n", jazmotip_restore(NULL, 0, NULL, 0), jazmotip_restore(NULL, 0, eq, sizeof eq));
}

/* An envelope of no EQs each way. */
static void ends(void)
{
    const jazmotip_identity unit = {.mac = 2, .llids = {5}, .count = 1};
    jazmotip_olt olt = jazmotip_olt_register(jazmotip_olt_fresh(1, 0).olt, unit, 0, 1).olt;
    jazmotip_onu onu = jazmotip_onu_fresh(unit, 1, 0).onu;
    jazmotip_olt_sent down = jazmotip_olt_send(olt, 5, 0x00, NULL, 0, NULL, 0);
    printf("olt send: %u, count %" PRIu64 "\n", down.number, down.count);
    printf("onu receive: %u\n", jazmotip_onu_receive(onu, down.header, NULL, 0, NULL, 0).number);
    jazmotip_onu_sent up = jazmotip_onu_send(onu, 5, 0x80, NULL, 0, NULL, 0);
    printf("onu send: %u, count %" PRIu64 "\n", up.number, up.count);
    printf("olt receive: %u\n", jazmotip_olt_receive(olt, up.header, NULL, 0, NULL, 0).number);
}

static void blocks(void)
{
    jazmotip_block_directory directory = jazmotip_capture_directory(NULL, 0);
    printf("directory: %u pair %u\n", directory.number, directory.pair);
    printf("verdict: %u", jazmotip_capture_verdict(NULL, 0, NULL, 0, 1).number);
    printf(" %u\n", jazmotip_capture_verdict(settings, sizeof settings, NULL, 0, 1).number);
    static uint8_t numbers[JAZMOTIP_RECORDS];
    printf("verdicts: %u", jazmotip_capture_verdicts(settings, sizeof settings, NULL, 0, NULL, 0).number);
    printf(" %u\n", jazmotip_capture_verdicts(settings, sizeof settings, NULL, 0, numbers, sizeof numbers).number);
    printf("payload: %u\n", jazmotip_capture_payload(NULL, 0, 1).number);
    printf("open: %u", jazmotip_capture_open(NULL, 0, NULL, 0, NULL, 0).number);
    printf(" %u", jazmotip_capture_open(settings, sizeof settings, NULL, 0, NULL, 0).number);
    printf(" %u\n", jazmotip_capture_open(settings, sizeof settings, empty_block, sizeof empty_block, NULL, 0).number);
    printf("open near: %u", jazmotip_capture_open_near(NULL, 0, NULL, 0, NULL, 0).answer.number);
    printf(" %u", jazmotip_capture_open_near(settings, sizeof settings, NULL, 0, NULL, 0).answer.number);
    printf(" %u\n", jazmotip_capture_open_near(settings, sizeof settings, empty_block, sizeof empty_block, NULL, 0).answer.number);
    const jazmotip_caller caller = {.sets = 1, .users = 1, .user = 1};
    const uint8_t rights[] = {JAZMOTIP_MAY_OPEN};
    printf("class open: %u", jazmotip_class_open((jazmotip_caller){0}, NULL, 0, NULL, 0, NULL, 0, NULL, 0).number);
    printf(" %u", jazmotip_class_open(caller, NULL, 0, NULL, 0, NULL, 0, NULL, 0).number);
    printf(" %u\n", jazmotip_class_open(caller, settings, sizeof settings, rights, sizeof rights, NULL, 0, NULL, 0).number);
    printf("class load: %u\n", jazmotip_class_load(caller, NULL, 0, NULL, 0, 5, 0, key));
    printf("rearrange: %u", jazmotip_capture_rearrange(NULL, 0, NULL, 0).number);
    printf(" %u\n", jazmotip_capture_rearrange(empty_block, sizeof empty_block, NULL, 0).number);
    printf("restore: %u", jazmotip_capture_restore(NULL, 0, NULL, 0).number);
    printf(" %u\n", jazmotip_capture_restore(empty_block, sizeof empty_block, NULL, 0).number);
    static uint8_t text[JAZMOTIP_LISTING_OCTETS];
    size_t length = jazmotip_capture_list(NULL, 0, NULL, 0, text);
    printf("list: %.*s", (int)length, (const char *)text);
}

int main(void)
{
    payloads();
    ends();
    blocks();
    return 0;
}
