/*
 * planes.h: what rearranging a payload for the store costs, and restoring it.
 */
#ifndef PLANES_H
#define PLANES_H

/* Prints both calls beside the same loops in C, memcpy, and Blosc's shuffle where its library is there, and whether the goals are met.
 * The outputs of all are compared first. */
void planes_print(void);

#endif
