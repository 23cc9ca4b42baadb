/* Firmware that seals and opens payloads. */
#include "calls.h"

KEEPS(jazmotip_seal, jazmotip_seal_expanded, jazmotip_expand_key, jazmotip_count)
