/*
 * The C library as the explored code sees it: cancels, mutexes, clocks, and memory. Each call that
 * another thread can see stops before it acts, so that the explorer may let another thread go
 * first. names.txt says which call each function takes the place of.
 */
#include "kernel.h"

#include "scenario.h"

#include <errno.h>
#include <string.h>

static int own_errno;

static struct thread *self(void)
{
	return &world->thread[current];
}

int *kernel_errno(void)
{
	return current < 0 ? &own_errno : &self()->error;
}

/* Each thread has a processor of its own. As a call that succeeds may, it changes errno. */
int kernel_getcpu(void)
{
	*kernel_errno() = ENOSYS;
	return current < 0 ? 0 : current;
}

/* Who looks again and again for what another thread is about to do need not look before that makes a step. */
int kernel_yield(void)
{
	pause_before(OP_YIELD, NULL, 0, 1, PC);
	tell_step("looks again");
	return 0;
}

/*
 * The value of the one key, by thread
 */

static const void *value_outside;

int kernel_key_create(pthread_key_t *key, void (*end)(void *value))
{
	(void)end;
	*key = 0;
	return 0;
}

static const void **own_value(void)
{
	return current < 0 ? &value_outside : &self()->own;
}

void *kernel_getspecific(pthread_key_t key)
{
	(void)key;
	return (void *)(uintptr_t)*own_value();
}

int kernel_setspecific(pthread_key_t key, const void *value)
{
	(void)key;
	*own_value() = value;
	return 0;
}

/*
 * Memory
 */

void *kernel_calloc(size_t count, size_t size)
{
	return take_memory(count * size);
}

void *kernel_realloc(void *start, size_t size)
{
	return renew_memory(start, size);
}

/*
 * Cancels
 */

/* The thread's handlers run, the latest first, on its own stack, and then it ends. */
void cancel_thread(void)
{
	struct thread *me = self();

	tell_step("is cancelled");
	me->is_cancellable = false;
	me->may_be_cancelled = false;
	me->was_cancelled = true;
	while (me->cleanups) {
		struct cleanup *last = me->cleanups;

		me->cleanups = last->previous;
		last->routine(last->argument);
	}
	end_thread();
}

/* No function of a scenario is a cancellation point. */
int kernel_setcancelstate(int state, int *former)
{
	(void)state;
	*former = PTHREAD_CANCEL_ENABLE;
	return 0;
}

void kernel_push_cleanup(struct cleanup *cleanup)
{
	if (current < 0)
		return;
	cleanup->previous = self()->cleanups;
	self()->cleanups = cleanup;
}

void kernel_pop_cleanup(struct cleanup *cleanup, int runs)
{
	if (current < 0)
		return;
	self()->cleanups = cleanup->previous;
	if (runs)
		cleanup->routine(cleanup->argument);
}

/*
 * Mutexes. The first word is 0, or 1 + the thread that has it, or DESTROYED.
 *
 * An unlock is no stop: whatever another thread does between the last step of a section and its
 * unlock it could do after the unlock, as it can't have the lock. So too a lock is one step with
 * the first one after it.
 */
enum { DESTROYED = 99 };

static int *owner_of(pthread_mutex_t *mutex)
{
	return (int *)(void *)mutex;
}

int kernel_mutex_init(pthread_mutex_t *mutex, const pthread_mutexattr_t *attributes)
{
	(void)attributes;
	memset(mutex, 0, sizeof(*mutex));
	return 0;
}

int kernel_mutex_destroy(pthread_mutex_t *mutex)
{
	if (is_freed(mutex) || *owner_of(mutex) != 0)
		fault("a mutex is destroyed that somebody has");
	*owner_of(mutex) = DESTROYED;
	return 0;
}

int kernel_mutex_lock(pthread_mutex_t *mutex)
{
	if (current < 0)
		return 0;
	if (*owner_of(mutex) == current + 1)
		fault("a thread locks what it has locked");
	if (is_freed(mutex) || *owner_of(mutex) == DESTROYED)
		fault("a thread locks a mutex that is no more");
	pause_before(OP_LOCK, mutex, sizeof(*mutex), 1, PC);
	*owner_of(mutex) = current + 1;
	self()->runs_on = !finds_races;
	tell_step("locks %s", name_of((uintptr_t)mutex));
	return 0;
}

int kernel_mutex_unlock(pthread_mutex_t *mutex)
{
	if (current < 0)
		return 0;
	if (*owner_of(mutex) != current + 1)
		fault("a thread unlocks what it has not locked");
	*owner_of(mutex) = 0;
	self()->runs_on = false;
	tell_step("unlocks %s", name_of((uintptr_t)mutex));
	return 0;
}

/*
 * Condition variables. Nothing is in one: who sleeps on it is asleep at its address. A wait leaves the
 * lock in the step in which it falls asleep. It alone acts on a cancel, with the lock again.
 */

static int *own_mutex(pthread_mutex_t *mutex)
{
	if (*owner_of(mutex) != current + 1)
		fault("a thread sleeps without the lock");
	return owner_of(mutex);
}

static int sleep_on(pthread_cond_t *cond, pthread_mutex_t *mutex, bool has_limit, void *pc)
{
	int how = ALT_CANCEL;

	self()->is_cancellable = true;
	if (pause_before(OP_SLEEP, cond, 1, 1, pc) != ALT_CANCEL) {
		*own_mutex(mutex) = 0;
		how = fall_asleep(cond, has_limit, pc);
		self()->is_cancellable = false;
		kernel_mutex_lock(mutex);
	}
	if (how == ALT_CANCEL)
		cancel_thread();
	self()->is_cancellable = false;
	return how == ALT_TIMEOUT ? ETIMEDOUT : 0;
}

int kernel_cond_init(pthread_cond_t *cond, const pthread_condattr_t *attributes)
{
	(void)attributes;
	memset(cond, 0, sizeof(*cond));
	return 0;
}

int kernel_cond_destroy(pthread_cond_t *cond)
{
	if (wake_some(cond, 0) > 0)
		fault("a condition variable is destroyed on which somebody sleeps");
	return 0;
}

int kernel_cond_signal(pthread_cond_t *cond)
{
	uint32_t woken;

	pause_before(OP_WAKE, cond, 1, 1, PC);
	if (is_freed(cond))
		fault("memory is used after it was freed: %s", name_of((uintptr_t)cond));
	woken = wake_some(cond, 1);
	tell_step("signals %s: %u", name_of((uintptr_t)cond), woken);
	return 0;
}

int kernel_cond_wait(pthread_cond_t *cond, pthread_mutex_t *mutex)
{
	return sleep_on(cond, mutex, false, PC);
}

int kernel_cond_timedwait(pthread_cond_t *cond, pthread_mutex_t *mutex, const struct timespec *end)
{
	(void)end;
	return sleep_on(cond, mutex, true, PC);
}

/*
 * Clocks. The deadline of each thread is 100 s and 500 ns, and it may have passed at any call. The time of a
 * note is none that another note has.
 */
int kernel_clock_gettime(clockid_t clock, struct timespec *now)
{
	const struct timespec times[] = { { 100, 499 }, { 100, 500 }, { 101, 0 } };
	int at = 1;

	(void)clock;
	if (has_notes()) {
		*now = next_time_of_note();
		return 0;
	}
	if (current >= 0 && !self()->is_late) {
		at = pause_before(OP_LOCAL, NULL, 0, 3, PC);
		self()->is_late = at > 0;
		tell_step(at ? "the deadline has passed" : "the deadline has not passed");
	}
	*now = times[at];
	return 0;
}

/*
 * A rest: any number of steps of other threads may come before whatever is next. One that is this short stands
 * between two looks for what another thread is about to do, in queues.c: kernel_yield().
 */
int kernel_nanosleep(const struct timespec *time, struct timespec *left)
{
	enum { BETWEEN_LOOKS = 50000 };

	(void)left;
	return time->tv_nsec == BETWEEN_LOOKS ? kernel_yield() : 0;
}
