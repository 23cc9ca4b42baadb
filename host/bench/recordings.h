/* recordings.h: what comparing two capture blocks costs. */
#ifndef RECORDINGS_H
#define RECORDINGS_H

/* Prints a table: two empty blocks, and two full ones with all, half and none of their records paired. */
void recordings_print(void);

#endif
