/* Firmware that is an OLT or an ONU. */
#include "calls.h"

KEEPS(jazmotip_olt_fresh, jazmotip_olt_register, jazmotip_olt_register_group, jazmotip_olt_advance, jazmotip_olt_capture,
      jazmotip_olt_measure, jazmotip_olt_clock_send, jazmotip_olt_offer, jazmotip_olt_retry, jazmotip_olt_acknowledge,
      jazmotip_olt_send, jazmotip_olt_receive,
      jazmotip_onu_fresh, jazmotip_onu_join, jazmotip_onu_advance, jazmotip_onu_new_time, jazmotip_onu_clock_message,
      jazmotip_onu_key_message, jazmotip_onu_send, jazmotip_onu_receive)
