/*
 * The full search. It goes depth first through all states: from each it tries each thread that
 * can go on, in each way, unless the state was met before.
 */
#include "engine.h"

#include <stdio.h>
#include <stdlib.h>
#include <sys/mman.h>
#include <time.h>

enum { MOST_DEPTH = 4000000 };
#define STATES_ROOM ((size_t)1 << 35)

/* A state on the path. It is saved if there are several steps to try from it. */
struct node {
	struct choice choices[MAX_CHOICES];
	uint64_t hash;
	size_t saved;
	uint8_t count, next;
	bool is_saved;
};

struct path {
	struct node *nodes;
	size_t depth;
	char *states;
	size_t used;
	/* the arena has the state of the last node */
	bool is_present;
	double end;
};

struct totals totals;
uint64_t most_states = 20000000;
double most_seconds = 1e9;

double seconds(void)
{
	struct timespec now;

	clock_gettime(CLOCK_PROCESS_CPUTIME_ID, &now);
	return (double)now.tv_sec + (double)now.tv_nsec * 1e-9;
}

/* Room that takes memory only where it is used. */
static void *reserve(size_t size)
{
	const int flags = MAP_PRIVATE | MAP_ANONYMOUS | MAP_NORESERVE;
	void *room = mmap(NULL, size, PROT_READ | PROT_WRITE, flags, -1, 0);

	if (room == MAP_FAILED) {
		perror("mmap");
		exit(PARTLY);
	}
	return room;
}

/* Puts the node whose steps are known on the path. Returns whether there is room. */
static bool push(struct path *path)
{
	struct node *node = &path->nodes[path->depth];

	node->next = 0;
	node->saved = path->used;
	node->is_saved = node->count > 1;
	if (node->is_saved) {
		size_t size = size_of_state();

		if (path->used + size > STATES_ROOM)
			return false;
		save_state(path->states + path->used);
		path->used += size;
	}
	path->is_present = true;
	if (++path->depth > totals.deepest)
		totals.deepest = path->depth;
	return true;
}

static void pop(struct path *path)
{
	struct node *node = &path->nodes[--path->depth];

	if (node->is_saved)
		path->used = node->saved;
	leave_path(node->hash);
	path->is_present = false;
}

static bool is_too_much(const struct path *path)
{
	return seen_count > most_states || path->depth == MOST_DEPTH ||
	       ((totals.steps & 0xfff) == 0 && seconds() > path->end);
}

/* Looks at the state that a step led to, and puts it on the path if there is more to try. */
static enum outcome visit(struct path *path)
{
	struct node *node = &path->nodes[path->depth];
	enum found found;

	node->hash = hash_state();
	found = add_state(node->hash);
	totals.circles += found == ON_PATH;
	if (found != NEW)
		return EXPLORED;
	if (is_too_much(path))
		return PARTLY;
	node->count = (uint8_t)all_choices(node->choices);
	if (look_ahead(node->choices, node->count)) {
		leave_path(node->hash);
		return is_faulty ? FAULTY : EXPLORED;
	}
	if (is_faulty)
		return FAULTY;
	return push(path) ? EXPLORED : PARTLY;
}

/* Makes the next step from the last state of the path. */
static enum outcome advance(struct path *path)
{
	struct node *top = &path->nodes[path->depth - 1];

	if (!path->is_present)
		restore_state(path->states + top->saved);
	path->is_present = false;
	make_step(top->choices[top->next++]);
	totals.steps++;
	look();
	return is_faulty ? FAULTY : visit(path);
}

static bool is_outdated(void)
{
	return assembly_start && has_learned;
}

static enum outcome explore(struct path *path)
{
	enum outcome outcome = visit(path);

	while (outcome == EXPLORED && path->depth > 0 && !is_outdated()) {
		const struct node *top = &path->nodes[path->depth - 1];

		if (top->next == top->count)
			pop(path);
		else
			outcome = advance(path);
	}
	return outcome;
}

/* The steps by which the search came to where it is. */
static void report_path(const struct path *path)
{
	struct choice *steps = calloc(path->depth + 1, sizeof(*steps));

	for (size_t i = 0; i < path->depth; i++)
		steps[i] = path->nodes[i].choices[path->nodes[i].next - 1];
	report_fault(steps, path->depth);
	free(steps);
}

static enum outcome search_once(void)
{
	struct path path = { .end = seconds() + most_seconds };
	enum outcome outcome;

	path.nodes = reserve(MOST_DEPTH * sizeof(*path.nodes));
	path.states = reserve(STATES_ROOM);
	outcome = explore(&path);
	if (outcome == FAULTY)
		report_path(&path);
	munmap(path.states, STATES_ROOM);
	munmap(path.nodes, MOST_DEPTH * sizeof(*path.nodes));
	return outcome;
}

enum outcome search(void)
{
	enum outcome outcome;

	do {
		forget_states();
		totals = (struct totals){ 0 };
		if (assembly_start)
			has_learned = false;
		restore_state(first_state);
		outcome = search_once();
	} while (outcome == EXPLORED && is_outdated());
	return outcome;
}
