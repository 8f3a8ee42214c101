/*
 * Loaded before a program (LD_PRELOAD), it refuses one allocation: the call of
 * malloc() or realloc() whose number is REFUSE, counted from 1 over all threads
 * from the start of main. The count is kept in the file ALLOCATIONS, eight bytes
 * of it, since a program may end by _exit() and so run nothing at its end.
 */
#include <errno.h>
#include <fcntl.h>
#include <stdatomic.h>
#include <stdint.h>
#include <stdlib.h>
#include <sys/mman.h>
#include <unistd.h>

/* glibc's own functions under names that nobody replaces */
void *__libc_malloc(size_t size);
void *__libc_realloc(void *start, size_t size);

static _Atomic uint64_t unseen;
static _Atomic uint64_t *calls = &unseen;
/* 0 refuses none */
static uint64_t number;

static int is_refused(void)
{
	if (atomic_fetch_add(calls, 1) + 1 != number)
		return 0;
	errno = ENOMEM;
	return 1;
}

void *malloc(size_t size)
{
	return is_refused() ? NULL : __libc_malloc(size);
}

void *realloc(void *start, size_t size)
{
	return is_refused() ? NULL : __libc_realloc(start, size);
}

__attribute__((constructor)) static void begin(void)
{
	const char *file = getenv("ALLOCATIONS"), *text = getenv("REFUSE");
	int opened = file ? open(file, O_RDWR | O_CREAT | O_TRUNC, 0600) : -1;
	void *kept;

	if (opened < 0 || ftruncate(opened, sizeof(*calls)) != 0)
		_exit(99);
	kept = mmap(NULL, sizeof(*calls), PROT_READ | PROT_WRITE, MAP_SHARED, opened, 0);
	if (kept == MAP_FAILED)
		_exit(99);
	close(opened);
	number = text ? strtoull(text, NULL, 10) : 0;
	calls = kept;
}
