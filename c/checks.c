/*
 * What ends a program that breaks the rules of tags.h, if it asks for that. Two threads on one hand are found
 * by a write to a member of the hand, not by a lock, which would hide the mistake and cost every call.
 */
#include "tags.h"

#include <stdio.h>
#include <stdlib.h>

void tags_library_end_shared(void)
{
	fputs("tags: two threads use one hand at once: each needs a hand of its own\n", stderr);
	abort();
}

void tags_library_end_refused(int32_t status, const char *call)
{
	fprintf(stderr, "tags: %s: %s\n", call, tags_strerror(status));
	abort();
}
