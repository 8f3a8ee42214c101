/*
 * What the parts of the engine share: threads, memory, states, steps, searches.
 */
#ifndef ENGINE_H
#define ENGINE_H

#include "explorer.h"

enum { MAX_CHOICES = 24, MAX_BLOCKS = 256, MAX_FAULT = 512 };

struct block {
	uint32_t start, size;
	uint64_t is_freed;
};

/*
 * All that the explored code can change but its few variables (states.c), so a state can be copied, compared by its hash and
 * restored, however the code came to it.
 */
struct arena {
	struct world world;
	/* of the heap */
	uint64_t blocks;
	struct block block[MAX_BLOCKS];
	char heap[HEAP_SIZE] __attribute__((aligned(64)));
	char stack[MAX_THREADS][STACK_SIZE] __attribute__((aligned(64)));
};

extern struct arena arena;

/* A step that a thread may make, in one of its ways. */
struct choice {
	uint8_t thread;
	uint8_t alternative;
};

/* What a search came to; what the program exits with. */
enum outcome { EXPLORED, FAULTY, PARTLY };

/*
 * threads.c
 */
extern bool is_faulty;
extern char fault_text[MAX_FAULT];
/* The thread is about to begin its program. */
void make_thread(uint32_t thread);
/* Runs a thread to its next stop. */
void run_thread(uint32_t thread, uint8_t alternative);

/*
 * memory.c
 */
struct block *block_of(const volatile void *address);

/*
 * states.c
 */
enum found { NEW, SEEN, ON_PATH };

size_t size_of_state(void);
void save_state(char *to);
void restore_state(const char *from);
uint64_t hash_state(void);

/*
 * seen.c: the states that were met, by their hashes
 */
extern uint64_t seen_count;
void forget_states(void);
/* Adds a state, which is on the path that is explored now. Returns whether it was met before. */
enum found add_state(uint64_t hash);
void leave_path(uint64_t hash);

/*
 * steps.c
 */
/* the most preemptions of a schedule, or -1 for any number */
extern int most_preemptions;
/* The steps that may come next, in all ways that have to be tried. Returns how many. */
int all_choices(struct choice *choices);
/* Whether no other thread can see a thread's next step, or make it impossible. */
bool is_own(const struct thread *thread);
/* Whether nothing can happen unless a deadline passes, a signal comes or a thread is cancelled. */
bool is_quiet(const struct choice *choices, int n);
void make_step(struct choice choice);
/* Checks the state that a step led to. */
void look(void);
/* Checks what must hold where these are the next steps. Returns whether there are none. */
bool look_ahead(const struct choice *choices, int n);

/*
 * trace.c
 */
void print_schedule(const struct choice *path, size_t length);

/*
 * search.c and wander.c
 */
struct totals {
	uint64_t steps;
	/* schedules that ended, and steps that led back to a state of their own schedule */
	uint64_t ends, circles;
	size_t deepest;
};

extern struct totals totals;
extern uint64_t most_states;
extern double most_seconds;
/* that of the scenario before its threads begin */
extern char *first_state;

/* Seconds of the processor since the start. */
double seconds(void);
/* Prints the schedule of the fault that was found, and tells it. */
void report_fault(const struct choice *path, size_t length);
/* Explores every schedule from the state that the arena has. */
enum outcome search(void);
/* Runs schedules at random. */
enum outcome wander(uint64_t runs, uint64_t seed, bool shows);

/*
 * assembly.c, where the library itself is explored
 */
__attribute__((weak)) void assembly_start(const void *heap);
/* A word turned out to be shared, and loads of it were no steps before: the search begins again. */
__attribute__((weak)) extern bool has_learned;

#endif
