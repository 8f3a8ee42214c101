// pin.c: gives each thread of a program a processor of its own, as far as there are enough: the first thread the first processor,
// and each new one the next of the others in turn. kernel.sh loads it before the programs that it measures (LD_PRELOAD), since a
// scheduler may leave several threads on one processor for as long as a run lasts.
#define _GNU_SOURCE
#include <dlfcn.h>
#include <pthread.h>
#include <sched.h>
#include <stdatomic.h>
#include <stddef.h>

typedef int create_fn(pthread_t *, const pthread_attr_t *, void *(*)(void *), void *);

// The processors that the program may use, and how many.
static int processors[CPU_SETSIZE];
static unsigned int count;

static cpu_set_t only(int processor)
{
	cpu_set_t set;

	CPU_ZERO(&set);
	CPU_SET(processor, &set);
	return set;
}

__attribute__((constructor)) static void pin_first(void)
{
	cpu_set_t all;

	if (sched_getaffinity(0, sizeof(all), &all))
		return;
	for (int processor = 0; processor < CPU_SETSIZE; processor++)
		if (CPU_ISSET(processor, &all))
			processors[count++] = processor;
	cpu_set_t first = only(processors[0]);
	sched_setaffinity(0, sizeof(first), &first);
}

int pthread_create(pthread_t *thread, const pthread_attr_t *attr, void *(*start)(void *), void *arg)
{
	static atomic_uint created;
	create_fn *create = (create_fn *)dlsym(RTLD_NEXT, "pthread_create");
	int error = create(thread, attr, start, arg);

	if (!error && count > 1) {
		unsigned int turn = atomic_fetch_add(&created, 1) % (count - 1);
		cpu_set_t own = only(processors[1 + turn]);

		pthread_setaffinity_np(*thread, sizeof(own), &own);
	}
	return error;
}
