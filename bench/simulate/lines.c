/*
 * Processors that share memory, simulated: lines CONTENDER WORKLOAD DEPTH PROCESSORS ROUNDS
 *
 * Each processor is a coroutine that runs the real code of a contender, in which touch.S is called before each access to
 * memory (instrument.py). The processor whose clock is least goes on, and the access takes as long as the line's way to
 * it: lines of 64 bytes, in caches without end, on two sockets. All else takes no time. It prints the nanoseconds of a
 * round, the mean over the processors. `kernel`, `c` and `c-cache` are the contenders, `pair` and `full` the workloads.
 */
#include <stdbool.h>
#include <stdio.h>
#include <stdlib.h>
#include <string.h>
#include <ucontext.h>

#include "../../c/tags.h"
#include "../kernel/sbitmap_user.h"

/*
 * Nanoseconds of an access: to a line that the processor has, without and with a lock, and by a line from another cache of
 * the same socket, and of the other one. The first makes up for instructions that touch no memory: with it a processor
 * alone takes about what was measured.
 */
static const double HIT = 0.3, LOCKED = 8, NEAR = 75, FAR = 150;

enum { PROCESSORS = 64, STACK = 1 << 18, LINES = 1 << 20, SOCKETS = 2 };
/* As touch.S has them. */
enum kind { LOAD, STORE, ATOMIC };

struct line {
	uintptr_t number;
	/* Who has it. It was changed by one processor if no other has it. */
	uint64_t holders;
	bool is_changed;
	/* When it will have come to who asked last. */
	double free_at;
};

struct processor {
	ucontext_t context;
	double clock;
	bool is_done;
	struct tags_hand hand;
	struct sbitmap_user kernel;
};

static struct line lines[LINES];
static struct processor processors[PROCESSORS];
static unsigned int count;
static int current = -1;
static ucontext_t outside;

static volatile uint64_t slots[TAGS_MAX_TOTAL];
static uint32_t held[PROCESSORS][TAGS_MAX_TOTAL];
static uint64_t hold, rounds;
static const char *contender;

uint64_t c_tags_beside_pairs(struct tags_hand *hand, volatile uint64_t *slots, uint64_t rounds);
uint64_t c_tags_beside_ring(struct tags_hand *hand, volatile uint64_t *slots, uint32_t *held, uint64_t hold,
			    uint64_t rounds);
struct sbitmap_queue *sbitmap_tags_open(unsigned int depth);
void sbitmap_tags_enter(struct sbitmap_queue *queue, unsigned int processor, unsigned int hint);
uint64_t sbitmap_tags_pairs(struct sbitmap_user *user, volatile uint64_t *slots, uint64_t rounds);
uint64_t sbitmap_tags_ring(struct sbitmap_user *user, volatile uint64_t *slots, uint32_t *held, uint64_t hold,
			   uint64_t rounds);
extern __thread unsigned int this_processor;

static struct line *line_of(const void *address)
{
	uintptr_t number = (uintptr_t)address / 64;
	size_t at = (size_t)(number * 0x9e3779b97f4a7c15u >> 44) % LINES;

	while (lines[at].number && lines[at].number != number)
		at = (at + 1) % LINES;
	lines[at].number = number;
	return &lines[at];
}

/* The processors of the socket that has this one: the first half of all, or the rest. */
static uint64_t socket_of(unsigned int processor)
{
	unsigned int half = (count + SOCKETS - 1) / SOCKETS;
	uint64_t first = half == PROCESSORS ? UINT64_MAX : (UINT64_C(1) << half) - 1;

	return processor < half ? first : ~first;
}

/* The processor whose turn is next: of those that are not done the one with the least clock. */
static int next_turn(void)
{
	int next = -1;

	for (unsigned int i = 0; i < count; i++)
		if (!processors[i].is_done && (next < 0 || processors[i].clock < processors[next].clock))
			next = (int)i;
	return next;
}

static void turn_to(int next)
{
	ucontext_t *from = current < 0 ? &outside : &processors[current].context;

	current = next;
	this_processor = (unsigned int)next;
	swapcontext(from, &processors[next].context);
}

static double way(const struct line *line, uint64_t self, uint64_t near, enum kind kind)
{
	uint64_t others = line->holders & ~self;

	if (kind == LOAD)
		return line->holders & near ? NEAR : line->holders ? FAR : NEAR;
	return others & ~near ? FAR : NEAR;
}

/* touch.S calls it before an access. */
void line_touched(const void *address, enum kind kind)
{
	struct processor *me;
	struct line *line;
	uint64_t self;
	int self_at = current, next;
	bool has_it;

	if (self_at < 0)
		return;
	next = next_turn();
	if (next != self_at && processors[next].clock < processors[self_at].clock)
		turn_to(next);
	me = &processors[self_at];
	self = UINT64_C(1) << self_at;
	line = line_of(address);
	has_it = kind == LOAD ? (line->holders & self) != 0 : line->holders == self;
	if (!has_it) {
		if (me->clock < line->free_at)
			me->clock = line->free_at;
		me->clock += way(line, self, socket_of((unsigned int)self_at), kind);
		if (kind != LOAD || line->is_changed)
			line->free_at = me->clock;
	}
	me->clock += kind == ATOMIC ? LOCKED : HIT;
	line->is_changed = kind != LOAD || (line->is_changed && has_it);
	line->holders = kind == LOAD ? line->holders | self : self;
}

static void work(void)
{
	struct processor *me = &processors[current];
	unsigned int self = (unsigned int)current;
	bool is_kernel = strcmp(contender, "kernel") == 0;

	if (hold)
		is_kernel ? sbitmap_tags_ring(&me->kernel, slots, held[self], hold, rounds)
			  : c_tags_beside_ring(&me->hand, slots, held[self], hold, rounds);
	else
		is_kernel ? sbitmap_tags_pairs(&me->kernel, slots, rounds) : c_tags_beside_pairs(&me->hand, slots, rounds);
	me->is_done = true;
	if (next_turn() < 0)
		setcontext(&outside);
	turn_to(next_turn());
}

static void open_tags(uint32_t depth)
{
	static struct tags_pool pool = TAGS_EMPTY;
	struct tags_options options = TAGS_OPTIONS_INIT;
	struct sbitmap_queue *queue = sbitmap_tags_open(depth);

	options.total = depth;
	options.hands = count;
	options.cache = strcmp(contender, "c-cache") == 0 ? 8 : 0;
	if (!queue || tags_open(&pool, &options) != TAGS_OK)
		exit(1);
	for (unsigned int i = 0; i < count; i++) {
		processors[i].kernel.queue = queue;
		processors[i].kernel.processor = i;
		this_processor = i;
		sbitmap_tags_enter(queue, i, i * (depth / count));
		if (tags_join(&pool, &processors[i].hand, 0) != TAGS_OK)
			exit(1);
	}
}

int main(int argc, char **argv)
{
	double clock = 0;
	uint32_t depth;

	if (argc != 6)
		return 2;
	contender = argv[1];
	depth = (uint32_t)strtoul(argv[3], NULL, 10);
	count = (unsigned int)strtoul(argv[4], NULL, 10);
	rounds = strtoull(argv[5], NULL, 10);
	if (count < 1 || count > PROCESSORS || depth < count || depth > TAGS_MAX_TOTAL)
		return 2;
	hold = strcmp(argv[2], "full") == 0 ? depth / count : 0;
	open_tags(depth);
	for (unsigned int i = 0; i < count; i++) {
		getcontext(&processors[i].context);
		processors[i].context.uc_stack.ss_sp = malloc(STACK);
		processors[i].context.uc_stack.ss_size = STACK;
		makecontext(&processors[i].context, work, 0);
	}
	turn_to(0);
	for (unsigned int i = 0; i < count; i++)
		clock += processors[i].clock;
	printf("%.1f\n", clock / count / (double)(rounds + hold));
	return 0;
}
