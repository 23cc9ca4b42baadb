/* Links no call: what a program has by itself. */
#include "calls.h"

KEEPS(0, 0)
