/*
 * The library itself in place of the model: its assembly, with a call before each access to memory
 * (instrument.py). What threads share of the library are words of its tables, which it changes by
 * locked instructions alone. So a word counts as shared from the first locked instruction on it,
 * and each access to a shared word is a step. Loads before that were no steps, so a search that
 * learns of a word begins again.
 */
#include "engine.h"

static uint8_t is_shared[HEAP_SIZE / 8];
static const char *heap_start;
bool has_learned;

bool assembly_touches(const char *address, bool is_atomic);
void assembly_pause(const char *address, bool is_atomic, void *pc);

void assembly_start(const void *heap)
{
	heap_start = heap;
}

/* Whether the access is a step. It is built without vector registers, which are not saved yet. */
bool assembly_touches(const char *address, bool is_atomic)
{
	size_t at = (size_t)(address - heap_start) / 8;

	if (current < 0 || address < heap_start || at >= HEAP_SIZE / 8)
		return false;
	if (is_atomic && !is_shared[at]) {
		is_shared[at] = 1;
		has_learned = true;
	}
	return is_shared[at];
}

void assembly_pause(const char *address, bool is_atomic, void *pc)
{
	const unsigned long *word = (const unsigned long *)(const void *)address;

	pause_before(OP_LIBRARY, address, 8, 1, pc);
	if (is_freed(address))
		fault("the library uses memory after it was freed");
	tell_step("library: %s word %ld: %lx", is_atomic ? "changes" : "loads", (long)(address - heap_start) / 8,
		  *word);
}

/*
 * touch(), touch_atomic(): the address is in %rdi, whose own value the caller has saved. All other
 * registers and the flags are as they were. Where assembly_touches() answers yes, the vector
 * registers are saved, too, and assembly_pause() lets the explorer go on with another thread.
 */
#define EACH_VECTOR(each) \
	each(0) each(1) each(2) each(3) each(4) each(5) each(6) each(7) \
	each(8) each(9) each(10) each(11) each(12) each(13) each(14) each(15)
#define SAVE(n) "	movups %xmm" #n ", 16*" #n "(%rsp)\n"
#define RESTORE(n) "	movups 16*" #n "(%rsp), %xmm" #n "\n"

__asm__(".text\n"
	".globl touch, touch_atomic\n"
	"touch:\n"
	"	pushfq\n"
	"	pushq %rsi\n"
	"	xorl %esi, %esi\n"
	"	jmp 1f\n"
	"touch_atomic:\n"
	"	pushfq\n"
	"	pushq %rsi\n"
	"	movl $1, %esi\n"
	"1:	pushq %rax\n"
	"	pushq %rcx\n"
	"	pushq %rdx\n"
	"	pushq %r8\n"
	"	pushq %r9\n"
	"	pushq %r10\n"
	"	pushq %r11\n"
	"	pushq %rbp\n"
	"	movq %rsp, %rbp\n"
	"	andq $-16, %rsp\n"
	"	pushq %rdi\n"
	"	pushq %rsi\n"
	"	cld\n"
	"	callq assembly_touches\n"
	"	popq %rsi\n"
	"	popq %rdi\n"
	"	testb %al, %al\n"
	"	je 2f\n"
	"	subq $256, %rsp\n"
	EACH_VECTOR(SAVE)
	/* the return address is above the ten registers pushed */
	"	movq 80(%rbp), %rdx\n"
	"	callq assembly_pause\n"
	EACH_VECTOR(RESTORE)
	"2:	movq %rbp, %rsp\n"
	"	popq %rbp\n"
	"	popq %r11\n"
	"	popq %r10\n"
	"	popq %r9\n"
	"	popq %r8\n"
	"	popq %rdx\n"
	"	popq %rcx\n"
	"	popq %rax\n"
	"	popq %rsi\n"
	"	popfq\n"
	"	ret\n");
