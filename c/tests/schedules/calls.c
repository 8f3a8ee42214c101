/*
 * The system calls of the explored code: futexes and eventfds.
 */
#include "kernel.h"

#include "scenario.h"

#include <errno.h>
#include <linux/futex.h>
#include <stdarg.h>
#include <sys/syscall.h>

static long fail(int error)
{
	*kernel_errno() = error;
	return -1;
}

/* A sleep ends by a wake, or, if the explorer chooses so, by its limit, a signal, for no reason or by a cancel. */
int fall_asleep(const void *address, bool has_limit, void *pc)
{
	struct thread *me = &world->thread[current];
	int how;

	me->has_limit = has_limit;
	tell_step("falls asleep");
	how = pause_before(OP_ASLEEP, address, 1, 1, pc);
	if (how < ALT_CANCEL)
		how = 0;
	me->is_late |= how == ALT_TIMEOUT;
	me->signals -= how == ALT_SIGNAL || how == ALT_SPURIOUS;
	tell_step(how == 0 ? "wakes up" : how == ALT_TIMEOUT ? "the sleep times out" : "the sleep ends");
	return how;
}

uint32_t wake_some(const void *address, uint32_t most)
{
	uint32_t sleep = 0, woken = 0;

	for (uint32_t i = 0; i < world->threads; i++) {
		struct thread *thread = &world->thread[i];

		if (thread->kind != OP_ASLEEP || thread->is_done || thread->is_woken ||
		    thread->address != (uintptr_t)address)
			continue;
		sleep++;
		thread->is_woken = woken < most;
		woken += thread->is_woken;
	}
	return most > 0 ? woken : sleep;
}

/* The kernel compares the word and queues the thread in one step. */
static long futex_wait(const uint32_t *word, uint32_t expected, void *pc)
{
	if (current < 0) {
		fault("a sleep outside of all threads");
		return fail(EINVAL);
	}
	pause_before(OP_SLEEP, word, sizeof(*word), 1, pc);
	if (*word != expected) {
		tell_step("futex wait: the word is %u", *word);
		return fail(EAGAIN);
	}
	return fall_asleep(word, false, pc) == ALT_SIGNAL ? fail(EINTR) : 0;
}

static long futex_wake(const uint32_t *word, uint32_t most, void *pc)
{
	uint32_t woken;

	pause_before(OP_WAKE, word, sizeof(*word), 1, pc);
	woken = wake_some(word, most);
	tell_step("futex wake of %s: %u", name_of((uintptr_t)word), woken);
	return woken;
}

static long futex(va_list rest, void *pc)
{
	const uint32_t *word = va_arg(rest, const uint32_t *);
	int how = va_arg(rest, int);
	uint32_t value = va_arg(rest, uint32_t);

	if (!(how & FUTEX_PRIVATE_FLAG))
		fault("a futex call that is not private");
	switch (how & FUTEX_CMD_MASK) {
	case FUTEX_WAKE:
		return futex_wake(word, value, pc);
	case FUTEX_WAIT:
		return futex_wait(word, value, pc);
	default:
		fault("an unknown futex call");
		return fail(ENOSYS);
	}
}

/* The real one may set errno, which calls of the library must keep. */
static long write_event(va_list rest, void *pc)
{
	int descriptor = va_arg(rest, int);
	const uint64_t *number = va_arg(rest, const uint64_t *);
	struct event *event = &world->event[descriptor];

	pause_before(OP_EVENT_WRITE, event, sizeof(*event), 1, pc);
	tell_step("writes eventfd %d", descriptor);
	if (event->is_broken)
		return fail(EBADF);
	if (!event->is_open) {
		fault("eventfd %d is written after its wait has ended", descriptor);
		return fail(EBADF);
	}
	event->count += (uint32_t)*number;
	*kernel_errno() = EAGAIN;
	return sizeof(*number);
}

long kernel_syscall(long number, ...)
{
	va_list rest;
	long answer = 0;

	va_start(rest, number);
	if (number == SYS_futex)
		answer = futex(rest, PC);
	else if (number == SYS_write)
		answer = write_event(rest, PC);
	else
		fault("an unknown system call");
	va_end(rest);
	return answer;
}
