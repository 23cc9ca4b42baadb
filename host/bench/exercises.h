/* exercises.h: what the first loss of a script costs. */
#ifndef EXERCISES_H
#define EXERCISES_H

/* Prints a table: a script of one advance, and the longest, of which no single loss matters. */
void exercises_print(void);

#endif
