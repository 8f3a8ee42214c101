/*
 * explore: explores a scenario. It prints a line, after the schedule of a fault if there is one,
 * and exits with 0 if it explored all that it was to, 1 for a fault, 2 if a limit ended it.
 */
#include "engine.h"
#include "scenario.h"

#include <stdio.h>
#include <stdlib.h>
#include <string.h>

/* Schedules at random that learn which words of the library are shared, before a full search. */
enum { LEARNING = 3000 };

static struct {
	uint64_t runs, seed;
	bool shows, is_silent;
} options;

static const char usage[] =
	"usage: explore [option..] SCENARIO\n"
	"       explore --list | --list-large: the scenarios\n"
	"  --races        each access to memory is a step, and two that conflict are a fault\n"
	"  --preempt N    only schedules in which at most N times a thread is left that could go on\n"
	"  --rounds N     each thread makes at most N rounds\n"
	"  --random N     N schedules at random; --seed N makes others, --show prints each\n"
	"  --states N     at most N states, 20 million if not set\n"
	"  --seconds N    at most N seconds of the processor\n"
	"  --quiet        prints no schedule\n";

const struct scenario *scenario;
int most_rounds = 255;
char *first_state;

void report_fault(const struct choice *path, size_t length)
{
	char text[MAX_FAULT];

	memcpy(text, fault_text, sizeof(text));
	if (!options.is_silent) {
		print_schedule(path, length);
		printf("fault: %s\n", text);
	}
	memcpy(fault_text, text, sizeof(text));
	is_faulty = true;
}

/* Those that the explorer was built for: the model lacks some calls of the library. */
static bool is_here(const struct scenario *it)
{
	return assembly_start || !it->needs_library;
}

static void list(bool is_large)
{
	for (const struct scenario *it = scenarios; it->name; it++)
		if (it->is_large == is_large && is_here(it))
			printf("%-22s %s\n", it->name, it->what);
	exit(EXPLORED);
}

static void fail(const char *what, const char *which)
{
	fprintf(stderr, "explore: %s%s\n%s", what, which, usage);
	exit(PARTLY);
}

static void find(const char *name)
{
	for (const struct scenario *it = scenarios; it->name; it++)
		if (strcmp(it->name, name) == 0 && is_here(it))
			scenario = it;
	if (!scenario)
		fail("there is no scenario ", name);
}

static bool take_flag(const char *word)
{
	if (strcmp(word, "--list") == 0)
		list(false);
	if (strcmp(word, "--list-large") == 0)
		list(true);
	if (strcmp(word, "--races") == 0)
		return finds_races = true;
	if (strcmp(word, "--show") == 0)
		return options.shows = true;
	if (strcmp(word, "--quiet") == 0)
		return options.is_silent = true;
	return false;
}

static bool take_number(const char *word, const char *value)
{
	uint64_t number = strtoull(value, NULL, 10);

	if (strcmp(word, "--preempt") == 0)
		most_preemptions = (int)number;
	else if (strcmp(word, "--rounds") == 0)
		most_rounds = (int)number;
	else if (strcmp(word, "--random") == 0)
		options.runs = number;
	else if (strcmp(word, "--seed") == 0)
		options.seed = number;
	else if (strcmp(word, "--states") == 0)
		most_states = number;
	else if (strcmp(word, "--seconds") == 0)
		most_seconds = (double)number;
	else
		return false;
	return true;
}

static void read_options(int argc, char **argv)
{
	for (int i = 1; i < argc; i++) {
		if (take_flag(argv[i]))
			continue;
		if (i + 1 < argc && take_number(argv[i], argv[i + 1]))
			i++;
		else if (argv[i][0] == '-')
			fail("what is ", argv[i]);
		else
			find(argv[i]);
	}
	if (!scenario)
		fail("which scenario?", "");
}

/* Makes the pool, and brings each thread to where it begins. */
static void start(void)
{
	if (assembly_start)
		assembly_start(arena.heap);
	world->last = MAX_THREADS;
	set_up();
	for (uint32_t i = 0; i < world->threads; i++)
		make_thread(i);
	for (uint32_t i = 0; i < world->threads && !is_faulty; i++)
		run_thread(i, 0);
	first_state = malloc(size_of_state());
	if (!first_state)
		fail("no memory", "");
	save_state(first_state);
}

static enum outcome explore(void)
{
	start();
	if (is_faulty)
		return FAULTY;
	if (options.runs)
		return wander(options.runs, options.seed, options.shows);
	if (assembly_start && wander(LEARNING, options.seed, false) == FAULTY)
		return FAULTY;
	return search();
}

static const char *told(enum outcome outcome)
{
	if (outcome != EXPLORED)
		return outcome == FAULTY ? "FAULT" : "partly";
	return options.runs ? "random" : most_preemptions >= 0 ? "bounded" : "all";
}

int main(int argc, char **argv)
{
	enum outcome outcome;

	read_options(argc, argv);
	outcome = explore();
	printf("%-22s %-7s %10lu states %11lu steps %9lu ends %lu circles %5zu deep %6.1f s%s%s%s\n", scenario->name,
	       told(outcome), (unsigned long)seen_count, (unsigned long)totals.steps, (unsigned long)totals.ends,
	       (unsigned long)totals.circles, totals.deepest, seconds(), finds_races ? ", races" : "",
	       outcome == FAULTY ? "  " : "", outcome == FAULTY ? fault_text : "");
	return (int)outcome;
}
