// What lib/sbitmap.c, lib/find_bit.c and their two headers ask of the kernel, for x86-64 in user space.
//
// A thread stands for a processor: it names its own in `this_processor`. Atomic steps are the compiler's, which come to
// the locked instructions that an x86-64 kernel has. Nobody waits here, so wait queues are empty and print nothing.
// What a kernel does beyond that is left out, in its favour: interrupts stay on under the word's lock, preemption is not
// counted, and returns are plain.
#pragma once
#include <limits.h>
#include <stdbool.h>
#include <stddef.h>
#include <stdint.h>
#include <stdlib.h>
#include <string.h>

// find.h wants to be included by bitmap.h alone.
#define __LINUX_BITMAP_H

// Types, words of the language and error numbers.
typedef uint8_t u8;
typedef uint32_t u32;
typedef uint64_t u64;
typedef unsigned int gfp_t;
enum { GFP_KERNEL = 0, NUMA_NO_NODE = -1, ENOMEM = 12, EINVAL = 22 };
#undef __always_inline
#define __always_inline inline __attribute__((always_inline))
#define noinline __attribute__((noinline))
#define __percpu
#define ____cacheline_aligned_in_smp __attribute__((aligned(64)))
#define EXPORT_SYMBOL(name) struct exported_##name
#define EXPORT_SYMBOL_GPL(name) struct exported_##name
#define likely(condition) __builtin_expect((condition) != 0, 1)
#define unlikely(condition) __builtin_expect((condition) != 0, 0)
#define BUILD_BUG_ON(condition) _Static_assert(!(condition), "holds at build time")
#define WARN_ON_ONCE(condition) ({ bool warned_ = (condition); unlikely(warned_); })

// Numbers.
#define BITS_PER_BYTE CHAR_BIT
#define BITS_PER_LONG 64
#define BIT(place) (1ul << (place))
#define BIT_WORD(place) ((place) / BITS_PER_LONG)
#define BITMAP_FIRST_WORD_MASK(first) (ULONG_MAX << ((first) % BITS_PER_LONG))
#define BITMAP_LAST_WORD_MASK(count) (ULONG_MAX >> (-(count) % BITS_PER_LONG))
#define GENMASK(high, low) (BITMAP_FIRST_WORD_MASK(low) & (ULONG_MAX >> (BITS_PER_LONG - 1 - (high))))
#define small_const_nbits(count) (__builtin_constant_p(count) && (count) >= 1 && (count) <= BITS_PER_LONG)
#define DIV_ROUND_UP(all, each) (((all) + (each) - 1) / (each))
#define round_down(number, power) ((number) & ~((__typeof__(number))(power) - 1))
#define min_t(type, left, right) ((type)(left) < (type)(right) ? (type)(left) : (type)(right))
#define max_t(type, left, right) ((type)(left) > (type)(right) ? (type)(left) : (type)(right))
#define min(left, right) min_t(__typeof__(left), left, right)
#define max(left, right) max_t(__typeof__(left), left, right)
#define clamp_t(type, number, low, high) min_t(type, max_t(type, number, low), high)
#define clamp_val(number, low, high) clamp_t(__typeof__(number), number, low, high)
#define do_div(number, by) ({ u32 remainder_ = (number) % (by); (number) /= (by); remainder_; })
#define ilog2(number) (BITS_PER_LONG - 1 - __builtin_clzl(number))
#define __ffs(word) ((unsigned long)__builtin_ctzl(word))
#define __fls(word) ((unsigned long)ilog2(word))
#define ffz(word) __ffs(~(word))
#define hweight_long(word) ((unsigned long)__builtin_popcountl(word))
#define swab(word) __builtin_bswap64(word)

static inline unsigned int bitmap_weight(const unsigned long *word, unsigned int count)
{
	return count == 0 ? 0 : (unsigned int)hweight_long(*word & BITMAP_LAST_WORD_MASK(count));
}

// The place of the set bit with so many set bits below it, for find.h.
static inline unsigned long fns(unsigned long word, unsigned int below)
{
	for (; below > 0; below--)
		word &= word - 1;
	return word == 0 ? BITS_PER_LONG : __ffs(word);
}

// find_bit.c asks for it, in a function that sbitmap.c does not call.
static inline unsigned long bitmap_get_value8(const unsigned long *map, unsigned long start)
{
	return map[start / BITS_PER_LONG] >> start % BITS_PER_LONG & 0xff;
}

// Memory between threads.
#define READ_ONCE(place) (*(const volatile __typeof__(place) *)&(place))
#define WRITE_ONCE(place, value) (*(volatile __typeof__(place) *)&(place) = (value))
#define data_race(statement) (statement)
#define smp_mb() __atomic_thread_fence(__ATOMIC_SEQ_CST)
#define smp_mb__before_atomic() __atomic_signal_fence(__ATOMIC_SEQ_CST)
#define smp_mb__after_atomic() __atomic_signal_fence(__ATOMIC_SEQ_CST)
#define xchg(place, value) __atomic_exchange_n(place, value, __ATOMIC_SEQ_CST)

typedef struct { int counter; } atomic_t;
typedef struct { long counter; } atomic_long_t;
#define atomic_read(atomic) READ_ONCE((atomic)->counter)
#define atomic_set(atomic, value) WRITE_ONCE((atomic)->counter, value)
#define atomic_add(value, atomic) ((void)__atomic_fetch_add(&(atomic)->counter, value, __ATOMIC_SEQ_CST))
#define atomic_inc(atomic) atomic_add(1, atomic)
#define atomic_dec(atomic) atomic_add(-1, atomic)
#define atomic_long_andnot(mask, atomic) ((void)__atomic_fetch_and(&(atomic)->counter, ~(mask), __ATOMIC_SEQ_CST))
#define exchange_if(atomic, found, value) \
	__atomic_compare_exchange_n(&(atomic)->counter, found, value, false, __ATOMIC_SEQ_CST, __ATOMIC_SEQ_CST)
#define atomic_try_cmpxchg(atomic, found, value) exchange_if(atomic, found, value)
#define atomic_long_try_cmpxchg(atomic, found, value) exchange_if(atomic, (long *)(found), value)
#define atomic_cmpxchg(atomic, expected, value) \
	({ int found_ = (expected); (void)exchange_if(atomic, &found_, value); found_; })

static inline bool test_bit(long place, const volatile unsigned long *words)
{
	return words[BIT_WORD(place)] >> place % BITS_PER_LONG & 1;
}

static inline void set_bit(long place, volatile unsigned long *words)
{
	(void)__atomic_fetch_or(&words[BIT_WORD(place)], BIT(place % BITS_PER_LONG), __ATOMIC_SEQ_CST);
}

static inline void clear_bit(long place, volatile unsigned long *words)
{
	(void)__atomic_fetch_and(&words[BIT_WORD(place)], ~BIT(place % BITS_PER_LONG), __ATOMIC_SEQ_CST);
}

static inline bool test_and_set_bit_lock(long place, volatile unsigned long *words)
{
	unsigned long bit = BIT(place % BITS_PER_LONG);

	return (__atomic_fetch_or(&words[BIT_WORD(place)], bit, __ATOMIC_SEQ_CST) & bit) != 0;
}
#define clear_bit_unlock(place, words) clear_bit(place, words)

// A lock that spins, for the word's sweep. `guard` holds it to the end of the block.
typedef struct { int taken; } raw_spinlock_t;

static inline void raw_spin_lock_init(raw_spinlock_t *lock)
{
	lock->taken = 0;
}

static inline raw_spinlock_t *spin_until_locked(raw_spinlock_t *lock)
{
	for (;;) {
		int free = 0;

		if (__atomic_compare_exchange_n(&lock->taken, &free, 1, false, __ATOMIC_ACQUIRE, __ATOMIC_RELAXED))
			return lock;
		while (READ_ONCE(lock->taken))
			__builtin_ia32_pause();
	}
}

static inline void spin_unlock_at(raw_spinlock_t **lock)
{
	__atomic_store_n(&(*lock)->taken, 0, __ATOMIC_RELEASE);
}
#define guard(kind) guard_##kind
#define guard_raw_spinlock_irqsave(lock) \
	raw_spinlock_t *held_ __attribute__((cleanup(spin_unlock_at))) = spin_until_locked(lock); (void)held_

// What each processor has of its own lies on lines of its own.
enum { PROCESSORS = 64, PROCESSOR_BYTES = 128 };
extern __thread unsigned int this_processor;
#define for_each_possible_cpu(number) for (number = 0; number < PROCESSORS; number++)
#define per_cpu_ptr(base, number) ((__typeof__(base))((char *)(base) + (size_t)(number) * PROCESSOR_BYTES))
#define raw_cpu_ptr(base) per_cpu_ptr(base, this_processor)
#define this_cpu_read(place) READ_ONCE(*raw_cpu_ptr(&(place)))
#define this_cpu_write(place, value) WRITE_ONCE(*raw_cpu_ptr(&(place)), value)
#define raw_smp_processor_id() this_processor
#define get_cpu() this_processor
#define put_cpu() ((void)0)

// Memory of zeros, whose first byte begins a line.
static inline void *zeroed(size_t bytes)
{
	size_t whole = (bytes + PROCESSOR_BYTES - 1) / PROCESSOR_BYTES * PROCESSOR_BYTES;
	void *memory = aligned_alloc(PROCESSOR_BYTES, whole);

	return memory == NULL ? NULL : memset(memory, 0, whole);
}
#define kzalloc_node(bytes, flags, node) zeroed(bytes)
#define kvzalloc_node(bytes, flags, node) zeroed(bytes)
#define kfree(memory) free(memory)
#define kvfree(memory) free(memory)
#define alloc_percpu_gfp(type, flags) ((type *)zeroed((size_t)PROCESSORS * PROCESSOR_BYTES))
#define free_percpu(memory) free(memory)

// Hints are placed by whoever opens a map, so none is drawn.
#define get_random_u32_below(limit) ((limit) - (limit))

// Wait queues that nobody stands in.
struct list_head { struct list_head *next, *prev; };
#define LIST_HEAD_INIT(name) { &(name), &(name) }
#define list_del_init(entry) ((void)(entry))
typedef struct { int waiting; } wait_queue_head_t;
struct wait_queue_entry { void *private; int (*func)(void); struct list_head entry; };
#define current NULL
#define autoremove_wake_function NULL
#define init_waitqueue_head(queue) ((queue)->waiting = 0)
#define waitqueue_active(queue) (READ_ONCE((queue)->waiting) != 0)
#define wake_up(queue) ((void)(queue))
#define wake_up_nr(queue, count) ((void)(queue), (int)(count))
#define add_wait_queue(queue, entry) ((void)(queue), (void)(entry))
#define prepare_to_wait_exclusive(queue, entry, state) ((void)(queue), (void)(entry), (void)(state))
#define finish_wait(queue, entry) ((void)(queue), (void)(entry))

// Nothing is shown.
struct seq_file { int unused; };
#define seq_printf(file, ...) ((void)(file))
#define seq_puts(file, text) ((void)(file))
#define seq_putc(file, byte) ((void)(file))
