/* A description of each status: what was wrong, and what is allowed. */
#include "tags.h"

static const char *const sentences[] = {
	[-TAGS_OK] = "done",
	[-TAGS_NO_SUCH_TAG] = "the pool has no such tag: beyond its total, of another pool, "
			      "or not ordinary where the call needs that",
	[-TAGS_NO_RESERVED] = "the pool was opened without reserved tags",
	[-TAGS_NOT_HELD] = "this hand does not hold the tag: it was given back, posted or never got",
	[-TAGS_NOT_POSTED] = "the tag is not posted, or it is in a queue, or another hand took it first",
	[-TAGS_BAD_COUNT] = "a batch of 0 tags, a list of more than 64, or more tags at once "
			    "than are ordinary",
	[-TAGS_TOO_SHALLOW] = "the depth is 0, or below the pool's min_shallow",
	[-TAGS_SPENT] = "the hand could take more than 2^48 ordinary or reserved tags in its life",
	[-TAGS_WAITING] = "the hand waits already",
	[-TAGS_NOT_WAITING] = "the hand does not wait",
	[-TAGS_NO_TAG] = "no tag was found free, or in the queue",
	[-TAGS_BAD_HANDLE] = "empty, as after a leave, a close, a move, a clear or a post; "
			     "or a hand in place of a pool, or a pool of a hand",
	[-TAGS_NOT_EMPTY] = "the handle to be filled is not empty",
	[-TAGS_NO_HAND] = "all hands of the pool are out",
	[-TAGS_HANDS_OUT] = "some hands of the pool have not left",
	[-TAGS_BAD_KIND] = "the kind is neither TAGS_ORDINARY nor TAGS_RESERVED",
	[-TAGS_TOO_SMALL] = "the array has fewer bits than the pool has tags",
	[-TAGS_BAD_FLAG] = "a flag that does not exist",
	[-TAGS_NO_ROOM] = "the pool has no room for the hand that leaves",
	[-TAGS_HAND_LOST] = "a hand of the pool is missing",
	[-TAGS_NO_MEMORY] = "out of memory",
	[-TAGS_TOTAL_TOO_LARGE] = "a pool has at most 10,240 tags",
	[-TAGS_RESERVED_TOO_LARGE] = "a pool has at most as many reserved tags as tags",
	[-TAGS_SHIFT_TOO_LARGE] = "the shift is at most 6, which is 64 tags per word",
	[-TAGS_BAD_HAND_COUNT] = "a pool has from 1 to 64 hands",
	[-TAGS_NULL] = "a pointer is NULL",
	[-TAGS_IN_USE] = "tags are held or posted",
	[-TAGS_TIMED_OUT] = "the deadline passed while the call waited",
	[-TAGS_BAD_TIME] = "the clock is CLOCK_MONOTONIC or CLOCK_REALTIME, "
			   "and the nanoseconds are from 0 to 999,999,999",
	[-TAGS_BAD_EVENT] = "the descriptor is below 0",
	[-TAGS_BAD_SHIFT] = "the shift is at least 0, TAGS_ONE_PER_WORD or TAGS_SHIFT_AS_KERNEL",
	[-TAGS_CACHE_TOO_LARGE] = "a hand keeps at most 64 tags in its cache",
	[-TAGS_STOPPED] = "the pool was stopped, which ends all waits",
	[-TAGS_NO_NOTES] = "the pool was opened without notes",
	[-TAGS_BAD_QUEUE_COUNT] = "a pool has at most 64 queues, and one of shared hands has none",
	[-TAGS_NO_SUCH_QUEUE] = "the pool has no queue of this number",
};

const char *tags_strerror(int32_t status)
{
	if (status >= 0)
		return sentences[0];
	if (status < TAGS_NO_SUCH_QUEUE || !sentences[-status])
		return "there is no such status";
	return sentences[-status];
}
