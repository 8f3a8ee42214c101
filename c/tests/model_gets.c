/* The model of gets: a get finds the first free tag of a scan that begins at the hint. */
#include "model.h"

static uint32_t begin_of(const struct set *set, uint32_t word)
{
	return word << set->shift;
}

static uint32_t end_of(const struct set *set, uint32_t word)
{
	return least_of((word + 1) << set->shift, set->depth);
}

/* How many tags of a word shallow gets of this depth may take. */
static uint32_t share_of(const struct set *set, uint32_t word, uint32_t depth)
{
	uint64_t most = least_of(depth, set->depth);

	return (uint32_t)(most * end_of(set, word) / set->depth -
			  most * begin_of(set, word) / set->depth);
}

/* Frees the tags that are set aside in a word, and returns whether there were any. */
static bool sweep(struct set *set, uint32_t word)
{
	uint64_t tags = 0;

	for (uint32_t at = begin_of(set, word); at < end_of(set, word); at++)
		if (set->place[at] == ASIDE) {
			set->place[at] = FREE;
			set->freed++;
			tags |= (uint64_t)1 << (at - begin_of(set, word));
		}
	if (tags) {
		set->swept_from = begin_of(set, word);
		set->swept = tags;
	}
	return tags != 0;
}

/* Returns the first free tag in [@from, @to), or @to. */
static uint32_t find_free(const struct set *set, uint32_t from, uint32_t to)
{
	while (from < to && set->place[from] != FREE)
		from++;
	return from < to ? from : to;
}

/* How a get searches the words. */
struct search {
	uint32_t from;
	/* the depth of a shallow get, otherwise UINT32_MAX */
	uint32_t depth;
	bool starts_at_hint;
	bool wraps;
};

/* Returns a free tag among the first @limit of a word, from @start on, or NOWHERE. */
static int32_t pass(const struct set *set, uint32_t word, uint32_t start, uint32_t limit,
		    bool wraps)
{
	uint32_t begin = begin_of(set, word);
	uint32_t found = find_free(set, begin + start, begin + limit);

	if (start < limit && found < begin + limit)
		return (int32_t)found;
	if (!wraps)
		return NOWHERE;
	limit = least_of(start, limit);
	found = find_free(set, begin, begin + limit);
	return found < begin + limit ? (int32_t)found : NOWHERE;
}

static int32_t search(struct set *set, const struct search *how)
{
	for (uint32_t i = 0; i < words_of(set); i++) {
		uint32_t word = ((how->from >> set->shift) + i) % words_of(set);
		uint32_t size = end_of(set, word) - begin_of(set, word);
		uint32_t limit = how->depth == UINT32_MAX ? size : share_of(set, word, how->depth);
		bool at_hint = i == 0 && how->starts_at_hint;
		uint32_t start = at_hint ? how->from - begin_of(set, word) : 0;
		int32_t found = pass(set, word, start, limit, how->wraps);

		if (found == NOWHERE && sweep(set, word))
			found = pass(set, word, start, limit, how->wraps);
		if (found != NOWHERE)
			return found;
	}
	return NOWHERE;
}

static uint32_t next_hint(const struct set *set, uint32_t from, uint32_t tag)
{
	if (tag != from && !set->round_robin)
		return from;
	return tag + 1 < set->depth - 1 ? tag + 1 : 0;
}

static void win(struct model *hand, struct set *set, uint32_t at)
{
	set->place[at] = HELD;
	set->holder[at] = hand->number;
	hand->pool->sums.got++;
	hand->pool->sums.held++;
}

static uint32_t hint_of(const struct model *hand, enum tags_kind kind)
{
	uint32_t depth = hand->pool->set[kind].depth;

	return depth ? member_of(hand)->hint[kind] % depth : 0;
}

static int32_t get_of(struct model *hand, enum tags_kind kind, uint32_t depth)
{
	struct set *set = &hand->pool->set[kind];
	struct search how = { .from = hint_of(hand, kind), .depth = depth };
	int32_t found;

	how.starts_at_hint = set->round_robin || depth != UINT32_MAX;
	how.wraps = !set->round_robin || depth != UINT32_MAX;
	found = search(set, &how);
	if (found == NOWHERE) {
		member_of(hand)->hint[kind] = 0;
		return TAGS_NO_TAG;
	}
	win(hand, set, (uint32_t)found);
	member_of(hand)->hint[kind] = next_hint(set, how.from, (uint32_t)found);
	return (int32_t)set->first + found;
}

int32_t model_get(struct model *hand)
{
	int32_t tag;

	if (!is_hand(hand))
		return TAGS_BAD_HANDLE;
	tag = model_reuse(hand);
	if (tag != NOWHERE)
		return tag;
	tag = get_of(hand, TAGS_ORDINARY, UINT32_MAX);
	if (tag >= 0)
		model_lend(hand, (uint32_t)tag);
	return tag;
}

int32_t model_get_reserved(struct model *hand)
{
	if (!is_hand(hand))
		return TAGS_BAD_HANDLE;
	if (hand->pool->set[TAGS_RESERVED].depth == 0)
		return TAGS_NO_RESERVED;
	return get_of(hand, TAGS_RESERVED, UINT32_MAX);
}

int32_t model_get_shallow(struct model *hand, uint32_t depth)
{
	if (!is_hand(hand))
		return TAGS_BAD_HANDLE;
	if (depth < hand->pool->least)
		return TAGS_TOO_SHALLOW;
	return get_of(hand, TAGS_ORDINARY, least_of(depth, TAGS_MAX_TOTAL));
}

int32_t model_get_exactly(struct model *hand, uint32_t tag)
{
	struct set *set;
	uint32_t at;

	if (!is_hand(hand))
		return TAGS_BAD_HANDLE;
	if (tag >= total_of(hand))
		return TAGS_NO_SUCH_TAG;
	if (model_reuse_one(hand, tag))
		return (int32_t)tag;
	set = set_of(hand, tag);
	at = tag - set->first;
	if (set->place[at] != FREE)
		sweep(set, at >> set->shift);
	if (set->place[at] != FREE)
		return TAGS_NO_TAG;
	win(hand, set, at);
	return (int32_t)tag;
}

/* Finds a run of @n tags in a word, takes those that are free, and returns the run's first tag. */
static int32_t run_in(struct model *hand, struct set *set, uint32_t word, uint32_t n, uint64_t *won)
{
	uint32_t end = end_of(set, word);
	uint32_t first;

	sweep(set, word);
	first = find_free(set, begin_of(set, word), end);
	if (first == end || first + n > end)
		return NOWHERE;
	*won = 0;
	for (uint32_t i = 0; i < n; i++)
		if (set->place[first + i] == FREE) {
			win(hand, set, first + i);
			*won |= (uint64_t)1 << i;
		}
	return (int32_t)first;
}

int32_t model_get_batch(struct model *hand, uint32_t n, uint64_t *won)
{
	struct set *set;
	uint32_t from;

	if (!is_hand(hand))
		return TAGS_BAD_HANDLE;
	set = &hand->pool->set[TAGS_ORDINARY];
	if (n == 0)
		return TAGS_BAD_COUNT;
	n = least_of(n, least_of(1u << set->shift, set->depth));
	if (set->round_robin)
		return TAGS_NO_TAG;
	from = hint_of(hand, TAGS_ORDINARY);
	member_of(hand)->hint[TAGS_ORDINARY] = from;
	for (uint32_t i = 0; i < words_of(set); i++) {
		uint32_t word = ((from >> set->shift) + i) % words_of(set);
		int32_t first = run_in(hand, set, word, n, won);

		if (first != NOWHERE) {
			member_of(hand)->hint[TAGS_ORDINARY] =
				next_hint(set, from, (uint32_t)first + n - 1);
			return (int32_t)set->first + first;
		}
	}
	return TAGS_NO_TAG;
}

/* One get after another, past what the hand keeps. */
int32_t model_get_many(struct model *hand, uint32_t *tags, size_t n, uint32_t *left)
{
	*left = 0;
	if (!is_hand(hand))
		return TAGS_BAD_HANDLE;
	if (n > hand->pool->set[TAGS_ORDINARY].depth)
		return TAGS_BAD_COUNT;
	for (size_t i = 0; i < n; i++) {
		int32_t tag = get_of(hand, TAGS_ORDINARY, UINT32_MAX);

		*left += model_left(hand, TAGS_ORDINARY);
		if (tag < 0) {
			model_give_back(hand, tags, i);
			*left += (uint32_t)i;
			return tag;
		}
		tags[i] = (uint32_t)tag;
	}
	return TAGS_OK;
}
