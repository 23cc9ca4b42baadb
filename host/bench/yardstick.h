/*
 * yardstick.h: what the OLT's calls cost beside the same calls in C (pointer_olt.c).
 */
#ifndef YARDSTICK_H
#define YARDSTICK_H

/* Prints how fast the engine is as a part of the C, on empty and full tables, and how many calls of both were compared. */
void yardstick_print(void);

/* Prints how often a call copies the record: for a program whose memcpy is linked to the counting one. */
void yardstick_print_copies(void);

#endif
