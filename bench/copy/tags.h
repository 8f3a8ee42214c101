/*
 * What c/examples/copy_file.c calls of the library, over a list of free tags
 * behind a lock, with a condition variable for the thread that waits. Nothing is
 * checked, and the slots are an array.
 */
#include <pthread.h>
#include <stdint.h>

enum { TAGS_NO_TAG = -1, MOST = 64 };
#define TAGS_EMPTY { 0 }

struct tags_hand { int unused; };
struct tags_pool { int unused; };
struct tags_options { uint32_t total, hands; };
struct tags_sums { uint64_t got, back; };

static struct {
	pthread_mutex_t lock;
	pthread_cond_t freed;
	uint32_t count;
	uint32_t tags[MOST];
	uint64_t slots[MOST];
	struct tags_sums sums;
} list = { .lock = PTHREAD_MUTEX_INITIALIZER, .freed = PTHREAD_COND_INITIALIZER };

static int32_t list_get(int waits)
{
	int32_t tag = TAGS_NO_TAG;

	pthread_mutex_lock(&list.lock);
	while (waits && list.count == 0)
		pthread_cond_wait(&list.freed, &list.lock);
	if (list.count > 0) {
		tag = (int32_t)list.tags[--list.count];
		list.sums.got++;
	}
	pthread_mutex_unlock(&list.lock);
	return tag;
}

static int32_t list_give(uint32_t tag)
{
	pthread_mutex_lock(&list.lock);
	list.tags[list.count++] = tag;
	list.sums.back++;
	pthread_cond_signal(&list.freed);
	pthread_mutex_unlock(&list.lock);
	return 0;
}

static int32_t list_open(uint32_t total)
{
	while (list.count < total) {
		list.tags[list.count] = list.count;
		list.count++;
	}
	return 0;
}

#define tags_open(pool, options) list_open((options)->total)
#define tags_get(hand) list_get(0)
#define tags_get_blocking(hand) list_get(1)
#define tags_clear(hand, tag) list_give(tag)
#define tags_write(hand, tag, value, former) (list.slots[tag] = (value), 0)
#define tags_read(hand, tag, value) (*(value) = list.slots[tag], 0)
#define tags_take(hand, tag) 0
#define tags_post(hand, tag) 0
#define tags_join(pool, hand, flags) 0
#define tags_leave(hand) 0
#define tags_close(pool, into) (*(into) = list.sums, 0)
#define tags_strerror(status) "refused"
