/*
 * Programs that publish notes of their tags, and one that reads them.
 *
 * Each note is a number of its own, and the time that it gets is made of that; so a value with the time of
 * another note is found. What each note's thread has done so far is in the scenario's own notes.
 */
#include "tags.h"

#include "programs.h"
#include "scenario.h"

#include <errno.h>

enum { NOTES_OF_ONE = 64 / MAX_THREADS, SECONDS = 300, HANDED = MAX_EVENTS - 1 };

bool has_notes(void)
{
	return scenario->flags & TAGS_NOTES;
}

/* The number of the latest note of a thread, or of the next one after some more. */
static uint32_t number_of_note(int me, uint32_t more)
{
	return (uint32_t)me * NOTES_OF_ONE + world->notes.note_times[me] + more;
}

struct timespec next_time_of_note(void)
{
	world->notes.note_times[current]++;
	return (struct timespec){ SECONDS, number_of_note(current, 0) };
}

static uint64_t time_of(uint64_t note)
{
	return SECONDS * UINT64_C(1000000000) + note;
}

/*
 * Whoever has a tag
 */

/* A thread that has got a tag finds it without a note: those of its former users are over. */
static void begin_use(int me, int32_t tag)
{
	take_tag(me, tag);
	world->notes.note_is_over |= world->notes.noted[tag];
	world->notes.noted[tag] = 0;
}

static void note_once(int me, int32_t tag, int32_t (*call)(int me, uint32_t tag, uint64_t value))
{
	const uint32_t number = number_of_note(me, 1);

	world->notes.noted[tag] |= UINT64_C(1) << number;
	EXPECT(TAGS_OK, call(me, (uint32_t)tag, number));
	world->notes.note[tag] = number;
}

/* Returns the notes that end with the tag's use. */
static uint64_t end_use(int32_t tag)
{
	world->notes.note[tag] = 0;
	world->notes.note_ends[tag]++;
	drop_tag(tag);
	return world->notes.noted[tag];
}

/* Another thread may have the tag by now, and notes of its own. */
static void has_ended(int32_t tag, uint64_t notes)
{
	world->notes.note_is_over |= notes;
	world->notes.noted[tag] &= ~notes;
}

static int32_t note_own(int me, uint32_t tag, uint64_t value)
{
	return tags_note(hands[me], tag, value);
}

static int32_t note_shared(int me, uint32_t tag, uint64_t value)
{
	(void)me;
	return tags_hands_note(shared_hands, tag, value);
}

static void give_back(int me, int32_t tag)
{
	const uint64_t notes = end_use(tag);

	EXPECT(TAGS_OK, tags_clear(hands[me], (uint32_t)tag));
	has_ended(tag, notes);
}

/* Publishes up to two notes of a tag, and gives it back. */
static void use_noted(int me, int32_t tag)
{
	begin_use(me, tag);
	for (int i = choose(3); i > 0; i--)
		note_once(me, tag, note_own);
	give_back(me, tag);
}

void noter(int me)
{
	for (int round = 0; goes_on(me, round); round++) {
		const int32_t tag = CALL(tags_get(hands[me]));

		if (tag >= 0)
			use_noted(me, tag);
	}
	end_program(me);
}

/* Gives its tag back with one that it does not hold, which is refused, and then twice. */
void clumsy_noter(int me)
{
	const int32_t tag = CALL(tags_get(hands[me]));
	const uint32_t both[] = { 0, 1 };

	if (tag < 0)
		return;
	begin_use(me, tag);
	note_once(me, tag, note_own);
	if (scenario->tags > 1) {
		EXPECT(TAGS_NOT_HELD, tags_clear_batch(hands[me], both, 2));
		EXPECT(TAGS_NOT_HELD, tags_clear_mask(hands[me], 0, 3));
	}
	give_back(me, tag);
	EXPECT(TAGS_NOT_HELD, tags_clear(hands[me], (uint32_t)tag));
}

/* Gets two tags if they are free, notes them, and gives both back together. */
void pair_noter(int me)
{
	const uint32_t tags[] = { 0, 1 };
	const int32_t first = CALL(tags_get(hands[me]));
	int32_t second;
	uint64_t notes[2];

	if (first < 0)
		return;
	begin_use(me, first);
	second = CALL(tags_get(hands[me]));
	if (second < 0) {
		give_back(me, first);
		return;
	}
	begin_use(me, second);
	note_once(me, first, note_own);
	note_once(me, second, note_own);
	notes[0] = end_use(0);
	notes[1] = end_use(1);
	if (choose(2))
		EXPECT(TAGS_OK, tags_clear_mask(hands[me], 0, 3));
	else
		EXPECT(TAGS_OK, tags_clear_batch(hands[me], tags, 2));
	has_ended(0, notes[0]);
	has_ended(1, notes[1]);
}

void shared_noter(int me)
{
	for (int round = 0; goes_on(me, round); round++) {
		const int32_t tag = CALL(tags_hands_get(shared_hands));
		uint64_t notes;

		if (tag < 0)
			continue;
		begin_use(me, tag);
		note_once(me, tag, note_shared);
		notes = end_use(tag);
		EXPECT(TAGS_OK, tags_hands_clear(shared_hands, (uint32_t)tag));
		has_ended(tag, notes);
	}
}

/* A note stays with a tag that is posted. */
void note_poster(int me)
{
	const int32_t tag = CALL(tags_get_blocking(hands[me]));

	begin_use(me, tag);
	note_once(me, tag, note_own);
	drop_tag(tag);
	EXPECT(TAGS_OK, tags_post(hands[me], (uint32_t)tag));
	pause_before(OP_EVENT_WRITE, &world->event[HANDED], sizeof(struct event), 1, PC);
	world->notes.handed = (uint32_t)tag;
	world->event[HANDED].count++;
}

/* Takes the tag, gives it back, and gets it again. */
void note_taker(int me)
{
	uint64_t notes, value;
	int32_t tag;

	wait_event(HANDED);
	tag = (int32_t)world->notes.handed;
	EXPECT(TAGS_OK, tags_take(hands[me], (uint32_t)tag));
	take_tag(me, tag);
	if (choose(2))
		note_once(me, tag, note_own);
	notes = end_use(tag);
	EXPECT(TAGS_OK, tags_read_clear(hands[me], (uint32_t)tag, &value));
	has_ended(tag, notes);
	tag = CALL(tags_get(hands[me]));
	if (tag >= 0)
		use_noted(me, tag);
}

/*
 * Whoever reads
 */

struct seen {
	/* what was known as the call began */
	struct notes before;
	/* the tags that were passed, and their notes, or 0 */
	uint32_t tags;
	uint32_t note[MAX_TAGS];
};

static int see(uint32_t tag, const struct tags_noted *note, void *argument)
{
	struct seen *seen = argument;

	if (tag >= scenario->tags || seen->tags >> tag & 1)
		fault("tag %u is passed twice, or is none", tag);
	seen->tags |= UINT32_C(1) << tag;
	if (!note)
		return 0;
	tell_step("finds note %lu of tag %u", (unsigned long)note->value, tag);
	seen->note[tag] = (uint32_t)note->value;
	if (note->since != time_of(note->value))
		fault("note %lu has the time of note %lu", (unsigned long)note->value,
		      (unsigned long)(note->since - time_of(0)));
	if (seen->before.note_is_over >> note->value & 1)
		fault("note %lu is of a user who had given tag %u back", (unsigned long)note->value, tag);
	return 0;
}

/* A tag that had a note all the while has one in the report: the only one, if it was that. */
static void check_seen(const struct seen *seen, uint32_t tag)
{
	const uint32_t before = seen->before.note[tag];

	if (before == 0 || seen->before.note_ends[tag] != world->notes.note_ends[tag])
		return;
	if (seen->note[tag] == 0)
		fault("tag %u has note %u, and none is passed", tag, before);
	else if (before == world->notes.note[tag] && seen->note[tag] != before)
		fault("tag %u has note %u, and note %u is passed", tag, before, seen->note[tag]);
}

void note_reader(int me)
{
	for (int round = 0; goes_on(me, round); round++) {
		struct seen seen = { .tags = 0 };
		int32_t calls;

		/* a step, so that the call begins at any moment */
		(void)__atomic_load_n(&world->notes.closes, __ATOMIC_SEQ_CST);
		seen.before = world->notes;
		calls = CALL(tags_pool_each_noted(pool, see, &seen));
		if (calls < 0 && (calls != TAGS_BAD_HANDLE || !has_program(closer)))
			fault("a report returned %d", (int)calls);
		for (uint32_t tag = 0; tag < scenario->tags; tag++)
			check_seen(&seen, tag);
	}
}
