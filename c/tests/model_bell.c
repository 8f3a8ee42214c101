/* The model of the bell: which hands wait to be notified, and which are told of tags that became free. */
#include "model.h"

/* Returns the hand that is listed for a set and has waited longest, or NULL. */
static struct member *find_first(struct pool *pool, enum tags_kind kind)
{
	struct member *first = NULL;

	for (uint32_t i = 0; i < pool->hands; i++) {
		struct member *member = &pool->member[i];

		if (member->bell == LISTED && member->kind == kind && (!first || member->turn < first->turn))
			first = member;
	}
	return first;
}

/* A hand is notified once, unless its wait has ended. */
static void notify(struct pool *pool, struct member *member)
{
	if (!member->is_notified)
		pool->told[member->event]++;
	member->is_notified = true;
}

static void tell(struct pool *pool, enum tags_kind kind, uint32_t freed)
{
	struct member *first = find_first(pool, kind);

	for (; freed > 0 && first; freed--, first = find_first(pool, kind)) {
		first->bell = TOLD;
		notify(pool, first);
	}
}

static bool is_any_free(const struct set *set)
{
	for (uint32_t i = 0; i < set->depth; i++)
		if (set->place[i] == FREE || set->place[i] == ASIDE)
			return true;
	return false;
}

/* What a hand does that was told and needs no tag any more. */
static void settle(struct model *hand)
{
	const enum tags_kind kind = member_of(hand)->kind;

	if (is_any_free(&hand->pool->set[kind]))
		tell(hand->pool, kind, 1);
}

static uint32_t most_of(uint32_t a, uint32_t b)
{
	return a > b ? a : b;
}

static bool is_anybody_waiting(const struct pool *pool, enum tags_kind kind)
{
	for (uint32_t i = 0; i < pool->hands; i++)
		if (pool->member[i].bell != IDLE && pool->member[i].kind == kind)
			return true;
	return false;
}

/* Whoever has tags to see to tells one hand at least. If anybody waits for an ordinary one, all kept tags go back. */
static void see_to_ordinary(struct model *hand, uint32_t freed)
{
	const uint32_t kept = (uint32_t)__builtin_popcountll(member_of(hand)->kept);

	if (!is_anybody_waiting(hand->pool, TAGS_ORDINARY))
		return;
	model_flush(hand);
	tell(hand->pool, TAGS_ORDINARY, most_of(most_of(freed, kept), 1));
}

/* What a hand keeps is ordinary, and is seen to as well. */
static void see_to(struct model *hand, enum tags_kind kind, uint32_t freed)
{
	if (kind == TAGS_RESERVED) {
		tell(hand->pool, TAGS_RESERVED, most_of(freed, 1));
		freed = 0;
	}
	if (kind == TAGS_ORDINARY || hand->pool->cache > 0)
		see_to_ordinary(hand, freed);
	hand->pool->given = 0;
}

/* How many tags of the latest sweep the hand holds. */
static uint32_t count_taken(const struct model *hand, const struct set *set)
{
	uint32_t taken = 0;

	for (uint32_t bit = 0; bit < 64; bit++)
		if (set->swept >> bit & 1) {
			uint32_t at = set->swept_from + bit;

			taken += set->place[at] == HELD && set->holder[at] == hand->number;
		}
	return taken;
}

uint32_t model_left(struct model *hand, enum tags_kind kind)
{
	struct set *set = &hand->pool->set[kind];
	const uint32_t freed = set->freed, taken = count_taken(hand, set);

	set->freed = 0;
	return freed > taken ? freed - taken : 0;
}

static int32_t left_free(struct model *hand, enum tags_kind kind, int32_t answer, uint32_t left)
{
	if (left > 0)
		see_to(hand, kind, left);
	return answer;
}

int32_t model_left_free(struct model *hand, int32_t answer, uint32_t left)
{
	return left_free(hand, TAGS_ORDINARY, answer, left);
}

static int32_t swept(struct model *hand, enum tags_kind kind, int32_t answer)
{
	return left_free(hand, kind, answer, is_hand(hand) ? model_left(hand, kind) : 0);
}

int32_t model_swept(struct model *hand, int32_t answer)
{
	return swept(hand, TAGS_ORDINARY, answer);
}

int32_t model_swept_for(struct model *hand, int32_t answer, uint32_t tag)
{
	return is_hand(hand) ? swept(hand, kind_of(hand, tag), answer) : answer;
}

int32_t model_gave(struct model *hand, int32_t answer)
{
	if (answer >= 0 && (hand->pool->given > 0 || hand->pool->cache > 0))
		see_to(hand, TAGS_ORDINARY, hand->pool->given);
	return answer;
}

int32_t model_cleared(struct model *hand, int32_t answer, uint32_t tag)
{
	if (answer >= 0)
		see_to(hand, kind_of(hand, tag), hand->pool->given);
	return answer;
}

int32_t model_flush_and_tell(struct model *hand)
{
	return model_gave(hand, model_flush(hand));
}

int32_t model_stop(struct model *handle)
{
	if (!handle->pool || is_hand(handle))
		return TAGS_BAD_HANDLE;
	handle->pool->is_stopped = true;
	for (uint32_t i = 0; i < handle->pool->hands; i++)
		if (handle->pool->member[i].bell == LISTED)
			notify(handle->pool, &handle->pool->member[i]);
	return TAGS_OK;
}

/* The hand waits no more, and sees to all tags. */
static int32_t end_wait(struct model *hand, int32_t answer)
{
	member_of(hand)->bell = IDLE;
	member_of(hand)->turn = 0;
	settle(hand);
	return answer;
}

static int32_t get_of(struct model *hand, enum tags_kind kind)
{
	return kind == TAGS_RESERVED ? model_get_reserved(hand) : model_get(hand);
}

static bool is_to_wrap(const struct model *hand, enum tags_kind kind, int32_t answer)
{
	return answer == TAGS_NO_TAG && hand->pool->set[kind].round_robin;
}

int32_t model_get_and_tell(struct model *hand, enum tags_kind kind)
{
	const int32_t tag = swept(hand, kind, get_of(hand, kind));

	return is_to_wrap(hand, kind, tag) ? swept(hand, kind, get_of(hand, kind)) : tag;
}

static void give_back(struct model *hand, const uint32_t *tags, size_t n)
{
	while (n > 0) {
		const size_t some = n < TAGS_MAX_BATCH ? n : TAGS_MAX_BATCH;

		model_gave(hand, model_clear_batch(hand, tags, some));
		tags += some;
		n -= some;
	}
}

/* By gets that wrap in their first word, as shallow ones do, and take no kept tag. */
static int32_t get_many_again(struct model *hand, uint32_t *tags, size_t n)
{
	for (size_t i = 0; i < n; i++) {
		const int32_t tag = model_swept(hand, model_get_shallow(hand, UINT32_MAX));

		if (tag < 0) {
			give_back(hand, tags, i);
			return tag;
		}
		tags[i] = (uint32_t)tag;
	}
	return TAGS_OK;
}

int32_t model_get_many_and_tell(struct model *hand, uint32_t *tags, size_t n)
{
	uint32_t left;
	int32_t status = model_get_many(hand, tags, n, &left);

	status = model_left_free(hand, status, left);
	return is_to_wrap(hand, TAGS_ORDINARY, status) ? get_many_again(hand, tags, n) : status;
}

/* A get before a wait. A hand that is to wait for a reserved tag keeps nothing. */
static int32_t get(struct model *hand, enum tags_kind kind)
{
	const int32_t tag = model_get_and_tell(hand, kind);

	if (tag == TAGS_NO_TAG && kind == TAGS_RESERVED)
		model_flush_and_tell(hand);
	return tag;
}

/* The get of a round tells nobody: what it leaves free is seen to at the end. */
static int32_t get_alone(struct model *hand)
{
	const enum tags_kind kind = member_of(hand)->kind;
	const int32_t tag = get_of(hand, kind);

	hand->pool->set[kind].freed = 0;
	return tag;
}

/* Whether the next get tries each tag. */
static bool can_wait(const struct model *hand)
{
	const enum tags_kind kind = member_of(hand)->kind;

	return !hand->pool->set[kind].round_robin || member_of(hand)->hint[kind] == 0;
}

static int32_t get_listed(struct model *hand)
{
	struct member *member = member_of(hand);

	if (member->turn == 0)
		member->turn = ++hand->pool->turns;
	member->bell = LISTED;
	return get_alone(hand);
}

/* A round of a wait, which is over if @why is not TAGS_OK. */
static int32_t make_round(struct model *hand, int32_t why)
{
	const enum tags_kind kind = member_of(hand)->kind;
	int32_t tag = TAGS_NO_TAG;

	if (hand->pool->set[kind].depth == 0)
		return end_wait(hand, kind == TAGS_RESERVED ? TAGS_NO_RESERVED : TAGS_NO_SUCH_TAG);
	if (why != TAGS_OK)
		return end_wait(hand, why);
	if (!can_wait(hand))
		tag = get_alone(hand);
	if (tag == TAGS_NO_TAG)
		tag = get_listed(hand);
	return tag == TAGS_NO_TAG ? tag : end_wait(hand, tag);
}

int32_t model_get_async(struct model *hand, enum tags_kind kind, int32_t event)
{
	const int32_t why = is_hand(hand) && hand->pool->is_stopped ? TAGS_STOPPED : TAGS_OK;
	int32_t tag = TAGS_NO_TAG;

	if (!is_hand(hand))
		return TAGS_BAD_HANDLE;
	if (event < 0)
		return TAGS_BAD_EVENT;
	if (member_of(hand)->bell == IDLE || member_of(hand)->kind != kind)
		tag = why == TAGS_OK ? get(hand, kind) : why;
	if (tag != TAGS_NO_TAG)
		return tag;
	if (member_of(hand)->bell != IDLE && member_of(hand)->kind != kind)
		return TAGS_WAITING;
	member_of(hand)->kind = kind;
	member_of(hand)->event = (uint32_t)event;
	member_of(hand)->is_notified = false;
	return make_round(hand, why);
}

int32_t model_cancel(struct model *hand)
{
	if (!is_hand(hand))
		return TAGS_BAD_HANDLE;
	return member_of(hand)->bell == IDLE ? (int32_t)TAGS_NOT_WAITING : end_wait(hand, TAGS_OK);
}

int32_t model_wait(struct model *hand, enum tags_kind kind, bool is_late)
{
	int32_t tag;

	if (is_hand(hand) && hand->pool->is_stopped)
		return TAGS_STOPPED;
	tag = is_hand(hand) ? get(hand, kind) : (int32_t)TAGS_BAD_HANDLE;
	if (tag != TAGS_NO_TAG)
		return tag;
	if (member_of(hand)->bell != IDLE)
		return TAGS_WAITING;
	member_of(hand)->kind = kind;
	return make_round(hand, is_late ? TAGS_TIMED_OUT : TAGS_OK);
}
