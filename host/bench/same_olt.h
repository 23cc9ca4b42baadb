/*
 * same_olt.h: holds the OLT in C (pointer_olt.c) equal to the engine on random calls.
 */
#ifndef SAME_OLT_H
#define SAME_OLT_H

/* Plays random calls of advance, capture and send on valid and on damaged ends, by the engine, by pointer and by value, and
 * compares numbers, ends, headers, counts and outputs. Ends the program at the first difference; else gives the calls compared. */
long same_olt_check(void);

#endif
