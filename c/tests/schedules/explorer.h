/*
 * The explorer: it runs the threads of a scenario as coroutines, one step at a time, and tries
 * every order of their steps. README.md says how. This is what its parts share: the engine, the
 * kernel as the explored code sees it, the model of the library, and the scenarios.
 */
#ifndef EXPLORER_H
#define EXPLORER_H

#include <stdbool.h>
#include <stddef.h>
#include <stdint.h>

#ifdef __cplusplus
extern "C" {
#endif

#ifndef STACK_SIZE
#define STACK_SIZE 8192
#endif

enum { MAX_THREADS = 4, HEAP_SIZE = 131072, MAX_EVENTS = 8, MAX_TAGS = 64 };

/* What a thread is about to do when it has stopped. */
enum kind {
	OP_LOAD, /* atomic, as the next two */
	OP_STORE,
	OP_CHANGE, /* read and write in one step */
	OP_READ, /* not atomic; only with --races */
	OP_WRITE,
	OP_LOCK,
	OP_SLEEP, /* is about to fall asleep, on a futex or a condition variable */
	OP_ASLEEP,
	OP_WAKE,
	OP_EVENT_WRITE,
	OP_EVENT_CLOSE,
	OP_POLL,
	OP_JOIN, /* waits for the end of another thread */
	OP_YIELD, /* has looked for what another thread is about to do, and looks again after any step of another one */
	OP_LIBRARY, /* a step of the library, or of its model */
	OP_LOCAL, /* a choice that no other thread can see */
};

/* How a step goes on. Numbers below these are the alternatives of a choice. */
enum { ALT_CANCEL = 10, ALT_TIMEOUT, ALT_SIGNAL, ALT_SPURIOUS };

struct cleanup {
	void (*routine)(void *argument);
	void *argument;
	struct cleanup *previous;
};

struct thread {
	/* where its registers are, on its stack */
	void *sp;
	/* of the step that comes next: what it touches, and the code that makes it */
	uintptr_t address;
	uintptr_t pc;
	struct cleanup *cleanups;
	/* what it has set for the one key of the library's */
	const void *own;
	/* its errno */
	int error;
	uint8_t size;
	uint8_t kind;
	/* the alternatives of the step, and the one that was chosen */
	uint8_t choices;
	uint8_t chosen;
	bool is_done;
	bool is_woken;
	/* it is in a call that acts on a cancel */
	bool is_cancellable;
	bool may_be_cancelled;
	bool was_cancelled;
	/* its sleep may time out, and its deadline has passed */
	bool has_limit;
	bool is_late;
	/* has just got a lock, and makes the next step at once */
	bool runs_on;
	/* sleeps that may still end for no reason */
	uint8_t signals;
};

struct event {
	uint32_t count;
	bool is_open;
	/* it was closed though a hand waits for it, so writes to it fail */
	bool is_broken;
};

/* A tag that was submitted, as far as the program knows. */
struct submitted {
	/* 1 + the queue that it is in; 0 if in none */
	uint8_t queue;
	/* how often it was submitted */
	uint8_t count;
	/* the submit has returned */
	bool has_returned;
	/* tags of the queue whose submits had returned before this one began, as a mask */
	uint8_t before;
	/* the threads that may take it, as a mask; ANYONE is 1 until one that was submitted later was taken */
	uint8_t heirs;
};

enum { MAX_SUBMITTED = 3, ANYONE = 1 << MAX_THREADS };
/* Waits in queues, as a mask, and beside them for a free tag. */
enum { FOR_A_TAG = 0x80 };

/* What the scenario keeps about itself, and so is part of a state. */
struct notes {
	/* 1 + the thread that holds it, by tag */
	uint8_t holder[MAX_TAGS];
	/* the tag that one thread hands over to another */
	uint32_t handed;
	/* how many takes of a mask were refused */
	uint32_t refused;
	/* of each place's wait: bell_rules.c */
	uint64_t turn[2 * MAX_THREADS];
	/* the places that were listed when the thread last looked after a clear, and still wait */
	uint64_t listed[MAX_THREADS];
	/* it is in a clear */
	bool clears[MAX_THREADS];
	/* the threads that wait for a reserved tag, or will if they wait, as a mask */
	uint32_t reserving;
	/* the threads that have begun to drain it, and have not ended that unless they were cancelled */
	uint32_t drains;
	/* the tags for which the thread waits, or waited last, as a mask */
	uint32_t awaited[MAX_THREADS];
	/* the threads whose wait a stop has to end, as a mask */
	uint32_t stopped;
	/* of each tag: the note of its user, until that is about to end it, or 0; how often that was; and all of its user's notes */
	uint32_t note[MAX_TAGS];
	uint32_t note_ends[MAX_TAGS];
	uint64_t noted[MAX_TAGS];
	/* notes whose tags have gone back; and how often each thread has looked at the clock for one */
	uint64_t note_is_over;
	uint32_t note_times[MAX_THREADS];
	struct submitted submitted[MAX_SUBMITTED];
	/* 1 + the queue from which the thread takes; 0 if it is in no such call */
	uint8_t takes[MAX_THREADS];
	/* the queues in which the thread waits between two calls, and FOR_A_TAG */
	uint8_t queue_waits[MAX_THREADS];
	/* the threads that are in a call on queues, as a mask; and of each whether no other one has been since its call began */
	uint8_t in_queue_call;
	bool is_alone[MAX_THREADS];
	/* the tags that were in a queue before a stop, as a mask */
	uint8_t before_stop;
	/* how often the pool was closed, and another one opened in its handle */
	uint32_t closes;
	/* a thread has closed the pool */
	bool is_closed;
	/* the threads that run a function of nests.c, and the hands whose function runs, as masks */
	uint8_t in_function;
	uint8_t runs;
};

struct world {
	struct thread thread[MAX_THREADS];
	struct event event[MAX_EVENTS];
	struct notes notes;
	uint32_t threads;
	uint32_t heap_used;
	/* with a limit of preemptions alone: the thread that ran last, and how many there were */
	uint8_t last;
	uint8_t preempted;
};

extern struct world *const world;
/* the thread that runs, or -1 outside of all */
extern int current;
extern bool finds_races;

/* Stops before a step, and returns the alternative that was chosen. */
int pause_before(enum kind kind, const volatile void *address, size_t size, int choices, void *pc);
/* A choice of the scenario: 0 to n - 1. */
int choose(int n);
/* Reports a fault of what is explored. It does not return to a thread. */
void fault(const char *format, ...) __attribute__((format(printf, 1, 2)));
/* Tells what the step did, if the schedule is printed. */
void tell_step(const char *format, ...) __attribute__((format(printf, 1, 2)));
/* Ends the thread that runs. */
void end_thread(void) __attribute__((noreturn));

/* The memory of what is explored. It is never used again once it is freed. */
void *take_memory(size_t size);
void give_memory(void *start);
void *renew_memory(void *start, size_t size);
bool is_in_heap(const volatile void *address);
bool is_freed(const volatile void *address);
/* How many allocations were not freed. */
uint32_t count_allocations(void);

#define PC __builtin_return_address(0)

#ifdef __cplusplus
}
#endif

#endif
