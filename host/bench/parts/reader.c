/* Firmware that reads captures in the usual way. */
#include "calls.h"

KEEPS(jazmotip_capture_directory, jazmotip_capture_verdict, jazmotip_capture_payload, jazmotip_capture_open, jazmotip_capture_list)
