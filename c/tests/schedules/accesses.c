/*
 * Accesses to memory: the functions that the compiler calls with -fsanitize=thread.
 *
 * An atomic step is one of the schedule, and has to ask for sequential consistency. The one
 * exception is a count of owners: it may rise by relaxed steps and fall by ones that acquire and
 * release, if no other step ever touches it. Then each such step finds what the one before it
 * left, in any memory model, and the last owner sees what all others did before they let go.
 * A relaxed store of a hand's own word, by which its call ends, is taken for one that is plain.
 */
#include "explorer.h"
#include "scenario.h"

#include <string.h>

enum { MAX_OWNED = 8, BELOW = 256 };

/* The counts of owners that were found. */
static const volatile void *owned[MAX_OWNED];

static bool is_owned(const volatile void *address)
{
	for (int i = 0; i < MAX_OWNED; i++)
		if (owned[i] == address)
			return true;
	return false;
}

static void note_owned(const volatile void *address)
{
	for (int i = 0; i < MAX_OWNED && !is_owned(address); i++)
		if (!owned[i])
			owned[i] = address;
}

/*
 * Makes what a call here left below the explored code's stack 0 again. A frame that is made there next may have gaps,
 * which nothing writes, and what lies in them would tell states apart.
 */
static __attribute__((noinline)) void clean_below(void)
{
	char below[BELOW];

	memset(below, 0, sizeof(below));
	__asm__ volatile("" : : "r"(below) : "memory");
}

static void check_address(const volatile void *address)
{
	if (is_freed(address))
		fault("memory is used after it was freed: %s", name_of((uintptr_t)address));
}

static void check_order(const volatile void *address, int order, int least)
{
	if (order == least && least != __ATOMIC_SEQ_CST)
		note_owned(address);
	else if (order != __ATOMIC_SEQ_CST)
		fault("an atomic step that is not sequentially consistent, but of order %d", order);
	else if (is_owned(address))
		fault("a count of owners is touched by another step");
}

static void before_atomic(enum kind kind, const volatile void *address, size_t size, int order, int least, void *pc)
{
	check_order(address, order, least);
	pause_before(kind, address, size, 1, pc);
	/* another thread may have freed it meanwhile */
	check_address(address);
}

/* Steps of the schedule with --races alone, and then only in the heap, where threads meet. */
static void before_plain(enum kind kind, const volatile void *address, size_t size, void *pc)
{
	if (current < 0 || !finds_races || !is_in_heap(address))
		return;
	pause_before(kind, address, size, 1, pc);
	check_address(address);
	tell_step("%s %s", kind == OP_READ ? "reads" : "writes", name_of((uintptr_t)address));
}

#define ATOMIC_LOAD(bits, type) \
	type __tsan_atomic##bits##_load(const volatile type *address, int order); \
	type __tsan_atomic##bits##_load(const volatile type *address, int order) \
	{ \
		before_atomic(OP_LOAD, address, sizeof(type), order, __ATOMIC_SEQ_CST, PC); \
		before_load(address); \
		tell_step("loads %s: %ld", name_of((uintptr_t)address), (long)*address); \
		clean_below(); \
		return *address; \
	}

#define ATOMIC_STORE(bits, type) \
	void __tsan_atomic##bits##_store(volatile type *address, type value, int order); \
	void __tsan_atomic##bits##_store(volatile type *address, type value, int order) \
	{ \
		if (order == __ATOMIC_RELAXED && is_of_hand(address)) \
			before_plain(OP_WRITE, address, sizeof(type), PC); \
		else \
			before_atomic(OP_STORE, address, sizeof(type), order, __ATOMIC_SEQ_CST, PC); \
		tell_step("stores %s: %ld", name_of((uintptr_t)address), (long)value); \
		*address = value; \
		clean_below(); \
	}

#define ATOMIC_CHANGE(bits, type, name, what, least, changed) \
	type __tsan_atomic##bits##_##name(volatile type *address, type value, int order); \
	type __tsan_atomic##bits##_##name(volatile type *address, type value, int order) \
	{ \
		type former; \
\
		before_atomic(OP_CHANGE, address, sizeof(type), order, least, PC); \
		former = *address; \
		tell_step(what " %s: %ld, by %ld", name_of((uintptr_t)address), (long)former, (long)value); \
		*address = (type)(changed); \
		clean_below(); \
		return former; \
	}

#define ATOMIC_COMPARE(bits, type, name) \
	int __tsan_atomic##bits##_##name(volatile type *address, type *expected, type value, int order, int other); \
	int __tsan_atomic##bits##_##name(volatile type *address, type *expected, type value, int order, int other) \
	{ \
		const type former = *expected; \
\
		(void)other; \
		before_atomic(OP_CHANGE, address, sizeof(type), order, __ATOMIC_SEQ_CST, PC); \
		*expected = *address; \
		tell_step("compares %s: %ld, with %ld", name_of((uintptr_t)address), (long)*expected, (long)former); \
		if (*expected == former) \
			*address = value; \
		clean_below(); \
		return *expected == former; \
	}

#define ATOMICS(bits, type) \
	ATOMIC_LOAD(bits, type) \
	ATOMIC_STORE(bits, type) \
	ATOMIC_CHANGE(bits, type, fetch_add, "raises", __ATOMIC_RELAXED, former + value) \
	ATOMIC_CHANGE(bits, type, fetch_sub, "lowers", __ATOMIC_ACQ_REL, former - value) \
	ATOMIC_CHANGE(bits, type, exchange, "swaps", __ATOMIC_SEQ_CST, value) \
	ATOMIC_COMPARE(bits, type, compare_exchange_weak) \
	ATOMIC_COMPARE(bits, type, compare_exchange_strong)

ATOMICS(8, uint8_t)
ATOMICS(32, uint32_t)
ATOMICS(64, uint64_t)

#define PLAIN(name, kind, size) \
	void __tsan_##name(void *address); \
	void __tsan_##name(void *address) \
	{ \
		before_plain(kind, address, size, PC); \
		clean_below(); \
	}

#define PLAINS(size) \
	PLAIN(read##size, OP_READ, size) \
	PLAIN(write##size, OP_WRITE, size) \
	PLAIN(unaligned_read##size, OP_READ, size) \
	PLAIN(unaligned_write##size, OP_WRITE, size)

PLAINS(1)
PLAINS(2)
PLAINS(4)
PLAINS(8)
PLAINS(16)

/* Of objects in C++. */
PLAIN(vptr_read, OP_READ, sizeof(void *))

void __tsan_vptr_update(void *address, void *value);
void __tsan_vptr_update(void *address, void *value)
{
	(void)value;
	before_plain(OP_WRITE, address, sizeof(void *), PC);
}

void __tsan_read_range(void *address, size_t size);
void __tsan_write_range(void *address, size_t size);
void *seen_memset(void *start, int value, size_t size);
void *seen_memcpy(void *to, const void *from, size_t size);
void __tsan_init(void);
void __tsan_func_entry(void *caller);
void __tsan_func_exit(void);

/* A step touches at most 255 bytes: a longer range is several. */
static void before_range(enum kind kind, const char *start, size_t size, void *pc)
{
	for (size_t at = 0; at < size; at += UINT8_MAX)
		before_plain(kind, start + at, size - at < UINT8_MAX ? size - at : UINT8_MAX, pc);
}

void __tsan_read_range(void *address, size_t size)
{
	before_range(OP_READ, address, size, PC);
}

void __tsan_write_range(void *address, size_t size)
{
	before_range(OP_WRITE, address, size, PC);
}

void *seen_memset(void *start, int value, size_t size)
{
	before_range(OP_WRITE, start, size, PC);
	return memset(start, value, size);
}

void *seen_memcpy(void *to, const void *from, size_t size)
{
	before_range(OP_READ, from, size, PC);
	before_range(OP_WRITE, to, size, PC);
	return memcpy(to, from, size);
}

void __tsan_init(void)
{
}

void __tsan_func_entry(void *caller)
{
	(void)caller;
}

void __tsan_func_exit(void)
{
}
