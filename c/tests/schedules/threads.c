/*
 * The threads of a scenario, as coroutines with stacks in the arena.
 */
#include "engine.h"
#include "scenario.h"

#include <stdarg.h>
#include <stdio.h>
#include <stdlib.h>
#include <string.h>

/*
 * The end of a stack stays unused: an overflow shows there before it does harm. As much as most
 * calls need is 0 when a thread goes on, so that what they leave there does not tell states apart.
 */
enum { STACK_RESERVE = 256, STACK_CLEAN = 8192 };

struct arena arena __attribute__((aligned(4096)));
struct world *const world = &arena.world;
int current = -1;
bool finds_races;
bool is_faulty;
char fault_text[MAX_FAULT];

static void *own_sp;

/*
 * Saves what a call keeps, and goes on at another stack. What a call may change is 0 there, so
 * that it does not tell states apart.
 */
void switch_stack(void **from, void *to);
#define ZERO(n) "	xorps %xmm" #n ", %xmm" #n "\n"
__asm__(".text\n"
	".globl switch_stack\n"
	".type switch_stack,@function\n"
	"switch_stack:\n"
	"	pushq %rbp\n"
	"	pushq %rbx\n"
	"	pushq %r12\n"
	"	pushq %r13\n"
	"	pushq %r14\n"
	"	pushq %r15\n"
	"	movq %rsp, (%rdi)\n"
	"	movq %rsi, %rsp\n"
	"	popq %r15\n"
	"	popq %r14\n"
	"	popq %r13\n"
	"	popq %r12\n"
	"	popq %rbx\n"
	"	popq %rbp\n"
	"	xorl %eax, %eax\n"
	"	xorl %ecx, %ecx\n"
	"	xorl %edx, %edx\n"
	"	xorl %esi, %esi\n"
	"	xorl %edi, %edi\n"
	"	xorl %r8d, %r8d\n"
	"	xorl %r9d, %r9d\n"
	"	xorl %r10d, %r10d\n"
	"	xorl %r11d, %r11d\n"
	ZERO(0) ZERO(1) ZERO(2) ZERO(3) ZERO(4) ZERO(5) ZERO(6) ZERO(7)
	ZERO(8) ZERO(9) ZERO(10) ZERO(11) ZERO(12) ZERO(13) ZERO(14) ZERO(15)
	"	ret\n"
	".size switch_stack,.-switch_stack\n");

static void leave_thread(void)
{
	switch_stack(&world->thread[current].sp, own_sp);
}

void end_thread(void)
{
	world->thread[current].is_done = true;
	tell_step("ends");
	leave_thread();
	abort();
}

static void begin_thread(void)
{
	pause_before(OP_LOCAL, NULL, 0, 1, NULL);
	scenario->program[current](current);
	end_thread();
}

void make_thread(uint32_t thread)
{
	uint64_t *top = (uint64_t *)(void *)(arena.stack[thread] + STACK_SIZE);

	/* the return into begin_thread() leaves the stack as a call does; below it are six registers */
	top -= 2;
	*top = (uint64_t)(uintptr_t)begin_thread;
	world->thread[thread].sp = top - 6;
}

static bool has_overflowed(const char *stack)
{
	static const char unused[STACK_RESERVE];

	return memcmp(stack, unused, sizeof(unused)) != 0;
}

static void clean_stack(char *stack, char *sp)
{
	size_t room = (size_t)(sp - stack);

	if (room > STACK_CLEAN)
		room = STACK_CLEAN;
	memset(sp - room, 0, room);
}

/* Whoever gave way may look again, as another thread makes a step. */
static void wake_yielding(uint32_t besides)
{
	for (uint32_t i = 0; i < world->threads; i++)
		if (i != besides && world->thread[i].kind == OP_YIELD)
			world->thread[i].is_woken = true;
}

void run_thread(uint32_t i, uint8_t alternative)
{
	struct thread *thread = &world->thread[i];

	wake_yielding(i);
	current = (int)i;
	thread->chosen = alternative;
	clean_stack(arena.stack[i], thread->sp);
	switch_stack(&own_sp, thread->sp);
	current = -1;
	if (has_overflowed(arena.stack[i])) {
		fprintf(stderr, "the stacks are too small\n");
		exit(PARTLY);
	}
}

/* Whether a step is one with the lock that the thread has just got. */
static bool runs_on(struct thread *thread, enum kind kind, int choices)
{
	const bool may = thread->runs_on;

	thread->runs_on = false;
	return may && choices == 1 && kind != OP_LOCK && kind != OP_ASLEEP && kind != OP_POLL && kind != OP_YIELD;
}

int pause_before(enum kind kind, const volatile void *address, size_t size, int choices, void *pc)
{
	struct thread *thread;

	if (current < 0)
		return 0;
	thread = &world->thread[current];
	thread->pc = (uintptr_t)pc;
	if (runs_on(thread, kind, choices))
		return 0;
	thread->kind = (uint8_t)kind;
	thread->address = (uintptr_t)address;
	thread->size = (uint8_t)size;
	thread->choices = (uint8_t)choices;
	thread->is_woken = false;
	leave_thread();
	return thread->chosen;
}

int choose(int n)
{
	return pause_before(OP_LOCAL, NULL, 0, n, PC);
}

void fault(const char *format, ...)
{
	va_list rest;

	va_start(rest, format);
	if (!is_faulty)
		vsnprintf(fault_text, sizeof(fault_text), format, rest);
	va_end(rest);
	is_faulty = true;
	if (current >= 0)
		leave_thread();
}
