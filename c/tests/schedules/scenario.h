/*
 * What a scenario is, and what its parts share: the table, the programs of its threads, and the
 * rules that are checked.
 */
#ifndef SCENARIO_H
#define SCENARIO_H

#include "explorer.h"

#include <time.h>

#ifdef __cplusplus
extern "C" {
#endif

struct tags_hand;
struct tags_hands;
struct tags_pool;

struct scenario {
	const char *name;
	const char *what;
	/* of the pool, as in struct tags_options */
	uint32_t tags;
	uint32_t reserved;
	uint32_t queues;
	uint32_t cache;
	uint32_t flags;
	/* the largest one where it is 0 */
	int32_t shift;
	/* the tags that nobody gives back: an extra hand holds them */
	uint32_t taken;
	/* the hands that threads share: in place of those of the first threads */
	uint32_t shared;
	/* the pool's hands, which thread 0 has; 0 for one for each thread and one more */
	uint32_t hands;
	/* the tags that the pool had before it was resized; 0 if it was not */
	uint32_t former_tags;
	/* what each thread does, and how often at most */
	void (*program[MAX_THREADS])(int me);
	uint8_t rounds[MAX_THREADS];
	/* whoever holds a tag may hold it for ever */
	bool forever;
	/* the threads that may be cancelled, as a mask */
	uint8_t cancels;
	/* the sleeps of each thread that may end for no reason */
	uint8_t signals;
	/* with the model: a get is one step */
	bool whole;
	/* with the model: the turns of a get in its first word */
	uint8_t turns;
	/* with the model: the gets of the first hand may be refused from some time on */
	bool limited;
	/* takes what the model lacks, so it is explored over the library alone */
	bool needs_library;
	/* too large to be explored completely, or not in the minutes of the gate */
	bool is_large;
	/* make and end the pool of programs in C++, in place of set_up() and the end in rules.c */
	void (*open)(void);
	void (*close)(void);
};

extern const struct scenario scenarios[];
extern const struct scenario *scenario;
/* each thread makes at most so many rounds */
extern int most_rounds;

const char *name_of_program(int thread);

/*
 * stage.c: the pool of a scenario, which the programs share
 */
extern struct tags_pool *pool;
/* one for each thread, and one that holds what nobody gives back */
extern struct tags_hand *hands[MAX_THREADS + 1];
/* those that threads share, if any, whose first ones are in `hands`, too */
extern struct tags_hands *shared_hands;
/* a second one for each thread, which it waits for */
extern struct tags_hand *second_hands[MAX_THREADS];

/* Makes the pool and its hands, outside of all threads. */
void set_up(void);
/* Opens a pool in the handle. */
void open_pool(void);
bool is_closed(void);
/* Memory of the scenario's own, which is not freed at the end; and how much of it there is. */
void *take_own(size_t size);
extern uint32_t own_allocations;
bool has_program(void (*program)(int me));
/* Notes who has a tag. */
void take_tag(int me, int32_t tag);
void drop_tag(int32_t tag);
/* Gives a tag back. */
void clear_tag(int me, int32_t tag);
/* Ends a round with what a wait returned. Returns whether the thread goes on. */
bool use_tag(int me, int32_t tag);
/* Ends a program. A thread that keeps tags gives them back before it goes idle, or is busy for ever. */
void end_program(int me);
/* A wait may end so only where a thread stops the pool. */
void may_be_stopped(int32_t answer);
bool holds_for_ever(void);
/* Whether the thread makes another round. */
bool goes_on(int me, int round);

void open_event(int event);
void close_event(int event);
/* Closes one for which a hand waits. Returns whether it had been notified. */
bool break_event(int event);
/* poll() and read() */
void wait_event(int event);

/* Runs a call of the library, and checks that it keeps errno. */
#define CALL(expression) \
	({ \
		int32_t answer_; \
		errno = 4711; \
		answer_ = (expression); \
		if (errno != 4711) \
			fault("%s changed errno", #expression); \
		answer_; \
	})

/* Runs a call that has to return this. */
#define EXPECT(answer, expression) \
	({ \
		int32_t got_ = CALL(expression); \
		if (got_ != (answer)) \
			fault("%s returned %d", #expression, (int)got_); \
	})

/* noted.c: whether tags have notes; and the time of the next note of the thread that runs, where nobody waits for a time. */
bool has_notes(void);
struct timespec next_time_of_note(void);

/*
 * rules.c: what must hold in each state; where no thread can go on unless a deadline passes, a
 * signal comes or a thread is cancelled; and at the end
 */
void check_state(void);
void check_quiet(void);
void check_end(void);
/* Called before a stop: those that wait now must not wait for ever, also if the pool is resumed at once. */
void note_stop(void);
/* Whether a thread waits: it sleeps, or polls an eventfd. */
bool is_asleep(const struct thread *thread);

/*
 * bell_rules.c: what must hold inside c/bell.c, and the names of its words. Nothing else knows
 * how that is made.
 */
void check_bell(void);
void check_quiet_bell(uint32_t asleep, uint32_t drains, uint32_t lists);
/*
 * What must hold of threads that wait for a hand, for tags, or for the turn of shared hands; and
 * whether one sleeps at a gate.
 */
void check_quiet_gate(uint32_t hirers, uint32_t drains, uint32_t lists, uint32_t sharers);
/* What must hold of a queue, in which so many wait. */
void check_quiet_queue(uint32_t queue, uint32_t asleep);
/* A hand that threads share. */
struct tags_hand *shared_hand(uint32_t number);
bool is_at_gate(const struct thread *thread);
void check_closed_bell(void);
void check_idle_place(uint32_t thread);
/* Whether the word tells that a hand is in a call: it is written by whoever uses the hand. */
bool is_of_hand(const volatile void *address);
/* Called before each atomic load, and before each look of the model at all who wait. */
void before_load(const volatile void *address);
/* Whether this thread has the bell's lock, or that of a hand or of the futures behind it. */
bool has_lock(int thread);
const char *name_of(uintptr_t address);

/*
 * Of the library, for tests alone: 0 if the hand is listed for an ordinary tag, and 1 if not. No call
 * tells that of reserved tags, nor whether it is a listener: @listens makes no difference.
 */
int32_t tags_library_is_told(struct tags_hand *hand, uint32_t listens);

/* The two sets of a pool's tags: enum tags_kind. */
enum { SETS = 2 };

/*
 * map.c alone: the tags that a hand keeps, where all stand who wait for an ordinary tag; and of a set of tags the hands that
 * are listed as sleepers or as listeners, the sleepers that were told and are not up yet, and the turn of a hand that waits,
 * 0 if it does not
 */
__attribute__((weak)) uint64_t map_keeps(const void *object);
__attribute__((weak)) const void *map_waiters(const void *object);
__attribute__((weak)) uint64_t map_listed(const void *object, uint32_t kind, bool listens);
__attribute__((weak)) uint64_t map_coming(const void *object, uint32_t kind);
__attribute__((weak)) uint64_t map_turn(const void *object, uint32_t kind, uint32_t number);

#ifdef __cplusplus
}
#endif

#endif
