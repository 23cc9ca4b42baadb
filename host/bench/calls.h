/* calls.h: what each call costs and the stack that it takes. */
#ifndef CALLS_H
#define CALLS_H

/* Prints a table for each part of jazmotip.h. */
void calls_print(void);

#endif
