/*
 * xgpon.c: plays the OLT's key exchange of an XG-PON line. Reads inputs from standard input, two octets each, a kind and a key
 * index, and prints what each is answered and which keys are valid after it.
 */
#include "jazmotip.h"

#include <inttypes.h>
#include <stdio.h>

static void print_timers(const char *name, jazmotip_xgpon_timers timers)
{
    printf(" %s %u%u%u", name, timers.tk1, timers.tk2, timers.tk3);
}

static void print_keys(const char *name, jazmotip_xgpon_valid_keys keys)
{
    printf(" %s %u %u", name, keys.oldkey, keys.newkey);
}

int main(void)
{
    jazmotip_xgpon_key_exchange exchange = jazmotip_xgpon_fresh();
    jazmotip_xgpon_timer_starts starts = jazmotip_xgpon_recommended_starts();
    uint8_t octets[2];

    printf("starts %" PRIu32 " %" PRIu32 " %" PRIu32 "\n", starts.tk1, starts.tk2, starts.tk3);
    while (fread(octets, 1, sizeof octets, stdin) == sizeof octets) {
        jazmotip_xgpon_input input = {.kind = octets[0], .index = octets[1]};
        jazmotip_xgpon_answer answer = jazmotip_xgpon_step(exchange, input);
        exchange = answer.exchange; /* right for acceptance and refusal alike */
        printf("%u: KL%u %u %u message %u %u", answer.number, exchange.state, exchange.oldkey, exchange.newkey, answer.message.kind,
               answer.message.index);
        print_timers("starts", answer.starts);
        print_timers("stops", answer.stops);
        print_keys("send", jazmotip_xgpon_sent_under(exchange));
        print_keys("receive", jazmotip_xgpon_received_under(exchange));
        printf("\n");
    }
    return 0;
}
