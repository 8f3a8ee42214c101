/*
 * Included before each file that is explored. It has the two things that can't be put in place of
 * others by their names in the object file (names.txt): macros.
 */
#ifndef _GNU_SOURCE
#define _GNU_SOURCE
#endif
#include <pthread.h>

/* A look more or less before the sleep for a lock would only be more states. */
#define TAGS_LOOKS 1

/* A stack has no room for many notes, and with one at a time a report of two tags is two looks. */
#define TAGS_AT_ONCE 1

/* tags.h is not to report to the thread sanitizer, whose functions accesses.c has. */
#undef __SANITIZE_THREAD__

struct shim_cleanup {
	void (*routine)(void *argument);
	void *argument;
	void *previous;
};

#ifndef __cplusplus
void kernel_push_cleanup(struct shim_cleanup *cleanup);
void kernel_pop_cleanup(struct shim_cleanup *cleanup, int runs);

#undef pthread_cleanup_push
#undef pthread_cleanup_pop
#define pthread_cleanup_push(routine, argument) \
	{ \
		struct shim_cleanup shim_cleanup = { routine, argument, NULL }; \
		kernel_push_cleanup(&shim_cleanup);
#define pthread_cleanup_pop(runs) \
		kernel_pop_cleanup(&shim_cleanup, runs); \
	}
#endif
