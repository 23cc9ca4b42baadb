/* groups.h: what the calls on groups cost and the stack that they take. */
#ifndef GROUPS_H
#define GROUPS_H

/* Prints a table for each end. */
void groups_print(void);

#endif
