/*
 * A resize is refused while a hand waits that was told, and changes nothing. tags_leave() ends the wait
 * of its hand, so no program comes to that by public calls: here a hand makes a round of a wait and
 * leaves by calls of the library, as if that had been forgotten.
 */
#include <inttypes.h>
#include <stdbool.h>
#include <stdio.h>

#include "../tags.h"

/* The status has no name in tags.h, since no program sees it. */
enum { HANDS_WAIT = -30 };

typedef int32_t make_round(struct tags_hand *hand, int32_t why, uint32_t again,
			   struct tags_told *told);

/* The shared library hides them, and then they are NULL. */
__attribute__((weak)) make_round tags_library_wait_on, tags_library_listen_on;

static int checks;
static int wrong;

static void want(const char *what, int64_t found, int64_t wanted)
{
	checks++;
	if (found == wanted)
		return;
	wrong++;
	printf("%s: %" PRId64 ", not %" PRId64 "\n", what, found, wanted);
}

#define WANT(what, wanted) want(#what, (int64_t)(what), wanted)

static struct tags_pool pool = TAGS_EMPTY;
static struct tags_hand holder = TAGS_EMPTY, waiter = TAGS_EMPTY;

static void join_both(void)
{
	WANT(tags_join(&pool, &holder, TAGS_STAY), TAGS_OK);
	WANT(tags_join(&pool, &waiter, TAGS_STAY), TAGS_OK);
}

/* Leaves as tags_leave() does, but for the wait. */
static void leave_as_it_is(struct tags_hand *hand)
{
	const struct tags_hand empty = TAGS_EMPTY;

	WANT(tags_library_leave(hand), TAGS_OK);
	*hand = empty;
}

/* One hand waits while the other one has all ordinary tags, and is told of the first of these that goes back. */
static void tell(make_round *round)
{
	struct tags_told told = { 1, 1 };

	for (int32_t tag = 2; tag < 8; tag++)
		WANT(tags_get(&holder), tag);
	WANT(round(&waiter, TAGS_OK, false, &told), TAGS_NO_TAG);
	WANT(told.sleepers | told.listeners, 0);
	WANT(tags_library_clear(&holder, 3, &told), TAGS_DETAIL_TOLD + TAGS_OK);
	/* the hand that joined second */
	WANT(told.sleepers | told.listeners, 2);
	for (uint32_t tag = 4; tag < 8; tag++)
		WANT(tags_library_clear(&holder, tag, &told), TAGS_OK);
}

/* Whichever of the two it is. */
static void end_wait(make_round *round)
{
	struct tags_told told = { 1, 1 };

	WANT(round(&holder, TAGS_STOPPED, true, &told), TAGS_STOPPED);
	WANT(round(&waiter, TAGS_STOPPED, true, &told), TAGS_STOPPED);
	WANT(told.sleepers | told.listeners, 0);
}

/* Refused with the hand told as a sleeper or as a listener, and done once it has got up. */
static void resize_while_told(make_round *round, uint32_t cache)
{
	struct tags_told unused;
	const struct tags_options options = { .total = 8, .reserved = 2, .hands = 2, .cache = cache };
	struct tags_sums sums = { 0, 0, 0, 0 };

	WANT(tags_open(&pool, &options), TAGS_OK);
	join_both();
	tell(round);
	leave_as_it_is(&waiter);
	leave_as_it_is(&holder);
	/* the tag comes first */
	WANT(tags_resize(&pool, 12), TAGS_IN_USE);
	join_both();
	WANT(tags_library_holds(&holder, 2) + tags_library_holds(&waiter, 2), 1);
	WANT(tags_library_clear(tags_library_holds(&holder, 2) ? &holder : &waiter, 2, &unused), TAGS_OK);
	leave_as_it_is(&waiter);
	leave_as_it_is(&holder);
	WANT(tags_resize(&pool, 12), HANDS_WAIT);
	WANT(tags_resize(&pool, 1), TAGS_RESERVED_TOO_LARGE);
	WANT(tags_pool_total(&pool), 8);
	join_both();
	end_wait(round);
	WANT(tags_leave(&waiter), TAGS_OK);
	WANT(tags_leave(&holder), TAGS_OK);
	WANT(tags_resize(&pool, 12), TAGS_OK);
	WANT(tags_pool_total(&pool), 12);
	WANT(tags_close(&pool, &sums), TAGS_OK);
	WANT(sums.got, 6);
	WANT(sums.back, 6);
}

int main(void)
{
	if (!tags_library_wait_on) {
		printf("resizes: left out, as the shared library hides the calls\n");
		return 0;
	}
	for (uint32_t cache = 0; cache <= 4; cache += 4) {
		resize_while_told(tags_library_wait_on, cache);
		resize_while_told(tags_library_listen_on, cache);
	}
	printf("resizes: %d answers, %d wrong\n", checks, wrong);
	return wrong > 0;
}
