/*
 * Printed schedules: for each step the thread, its program, what it did, and where in the code.
 */
#include "engine.h"
#include "scenario.h"

#include <stdarg.h>
#include <stdio.h>
#include <stdlib.h>
#include <string.h>
#include <unistd.h>

enum { MAX_LINES = 64, MAX_PLACES = 512 };

static bool is_tracing;

/* Kept until the thread has stopped, as printing needs more stack than a thread has. */
static struct line {
	char text[128];
	uintptr_t pc;
	int thread;
} lines[MAX_LINES];
static int line_count;

void tell_step(const char *format, ...)
{
	struct line *line = &lines[line_count];
	va_list rest;

	if (!is_tracing || current < 0 || line_count == MAX_LINES)
		return;
	va_start(rest, format);
	vsnprintf(line->text, sizeof(line->text), format, rest);
	va_end(rest);
	line->thread = current;
	line->pc = world->thread[current].pc;
	line_count++;
}

struct place {
	uintptr_t pc;
	char text[128];
};

/* What addr2line says of a place: pairs of lines, a function and its file, the innermost first. */
static FILE *ask(uintptr_t pc)
{
	char program[256], command[512];
	ssize_t length = readlink("/proc/self/exe", program, sizeof(program) - 1);

	program[length < 0 ? 0 : length] = 0;
	snprintf(command, sizeof(command), "addr2line -f -i -e %s 0x%lx 2>/dev/null", program, (unsigned long)pc - 1);
	return popen(command, "r");
}

/* Sets the text to the first function that is none of the helpers in bell.h. */
static void find_place(struct place *place)
{
	char function[256], file[512];
	FILE *from = ask(place->pc);

	while (from && fgets(function, sizeof(function), from) && fgets(file, sizeof(file), from)) {
		const char *slash = strrchr(file, '/');
		const char *base = slash ? slash + 1 : file;

		function[strcspn(function, "\n")] = 0;
		file[strcspn(file, " \n")] = 0;
		snprintf(place->text, sizeof(place->text), "%.60s %.60s", function, base);
		if (strncmp(base, "bell.h", strlen("bell.h")) != 0)
			break;
	}
	if (from)
		pclose(from);
}

static const char *place_of(uintptr_t pc)
{
	static struct place known[MAX_PLACES];
	static int count;

	for (int i = 0; i < count; i++)
		if (known[i].pc == pc)
			return known[i].text;
	if (count == MAX_PLACES)
		return "";
	known[count].pc = pc;
	find_place(&known[count]);
	return known[count++].text;
}

static void print_lines(void)
{
	for (int i = 0; i < line_count; i++) {
		const struct line *line = &lines[i];

		printf("  %d %-10s %-48s %s\n", line->thread, name_of_program(line->thread), line->text,
		       place_of(line->pc));
	}
	line_count = 0;
}

void print_schedule(const struct choice *path, size_t length)
{
	restore_state(first_state);
	is_faulty = false;
	printf("schedule:\n");
	is_tracing = true;
	for (size_t i = 0; i < length; i++) {
		make_step(path[i]);
		print_lines();
	}
	is_tracing = false;
}
