/*
 * Programs whose hands wait by functions that make calls themselves. Beside its own hand each thread has a second one,
 * which waits from the beginning; what its function does depends on the scenario. No hand is in two calls at once: the
 * function of one second hand at most uses another one.
 */
#include "tags.h"

#include "programs.h"
#include "scenario.h"

#include <errno.h>

static void begin_function(uint32_t of)
{
	if (world->notes.in_function >> current & 1)
		fault("a function is called inside another one");
	world->notes.in_function |= (uint8_t)(1 << current);
	world->notes.runs |= (uint8_t)(1 << of);
	pause_before(OP_LOCAL, NULL, 0, 1, PC);
}

static void end_function(uint32_t of)
{
	world->notes.in_function &= (uint8_t)~(1 << current);
	world->notes.runs &= (uint8_t)~(1 << of);
	errno = 0;
}

static void cancel(uint32_t number)
{
	const int32_t answer = CALL(tags_cancel(second_hands[number]));

	if (answer != TAGS_OK && answer != TAGS_NOT_WAITING)
		fault("a cancel returned %d", (int)answer);
}

/* Ends the wait of the next second hand, whose function may run on another thread, and do the same. */
static void cancel_next(void *number)
{
	const uint32_t own = (uint32_t)(uintptr_t)number;

	begin_function(own);
	cancel((own + 1) % world->threads);
	end_function(own);
}

/* Ends the wait of the second hand before, whose function may have told this one. */
static void cancel_former(void *number)
{
	const uint32_t own = (uint32_t)(uintptr_t)number;

	begin_function(own);
	cancel(own - 1);
	end_function(own);
}

/* Gets a tag with the extra hand, and gives it back, which tells others. */
static void give_back(void *number)
{
	struct tags_hand *extra = hands[world->threads];
	int32_t tag;

	begin_function((uint32_t)(uintptr_t)number);
	tag = CALL(tags_get(extra));
	if (tag >= 0)
		EXPECT(TAGS_OK, tags_clear(extra, (uint32_t)tag));
	end_function((uint32_t)(uintptr_t)number);
}

static void note_call(void *number)
{
	begin_function((uint32_t)(uintptr_t)number);
	end_function((uint32_t)(uintptr_t)number);
}

bool nests(uint32_t thread)
{
	return thread < world->threads && (has_program(nester) || has_program(mutual));
}

static void (*function_of(uint32_t number))(void *number)
{
	if (has_program(nester))
		return number == 0 ? give_back : cancel_former;
	if (!has_program(outside_canceller))
		return cancel_next;
	return number == 0 ? cancel_next : note_call;
}

/* The first threads have the tags, so that each second hand waits. */
void make_nests(void)
{
	for (uint32_t tag = 0; nests(0) && tag < scenario->tags; tag++) {
		EXPECT((int32_t)tag, tags_get(hands[tag]));
		take_tag((int)tag, (int32_t)tag);
	}
	for (uint32_t i = 0; nests(0) && i < world->threads; i++) {
		EXPECT(TAGS_OK, tags_join(pool, second_hands[i], TAGS_STAY));
		EXPECT(TAGS_NO_TAG, tags_get_notified(second_hands[i], function_of(i), (void *)(uintptr_t)i));
	}
}

/* Gives its tag back. Thread 0 ends the waits that are left, once no function runs any more. */
static void give(int me)
{
	if ((uint32_t)me < scenario->tags)
		clear_tag(me, me);
	for (uint32_t i = 1; me == 0 && i < world->threads; i++)
		pause_before(OP_JOIN, &world->thread[i], 1, 1, PC);
	for (uint32_t i = 0; me == 0 && i < world->threads; i++)
		cancel(i);
}

/* The function of its second hand gives a tag back, and that of each other one ends the wait of the one before. */
void nester(int me)
{
	give(me);
}

/* The function of each second hand ends the wait of the next one. */
void mutual(int me)
{
	give(me);
}

/* Ends the wait of the first second hand, whose function ends that of the next one meanwhile. */
void outside_canceller(int me)
{
	(void)me;
	cancel(0);
	if (world->notes.runs & 1)
		fault("a function runs after the wait has ended");
}
