/*
 * Around each call that takes the next tag of a queue: submits.c notes what is known of the tags there.
 */
#ifndef SUBMITS_H
#define SUBMITS_H

#include <stdint.h>

void begin_next(int me, uint32_t queue);
/* Checks what the call returned, and returns that. */
int32_t end_next(int me, uint32_t queue, int32_t tag);

#endif
