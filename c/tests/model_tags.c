/* The model of held tags: their slots and clears. */
#include "model.h"

/* Returns TAGS_OK if the hand holds the tag, otherwise why it does not. */
static int32_t find_held(const struct model *hand, uint32_t tag)
{
	const struct set *set;

	if (!is_hand(hand))
		return TAGS_BAD_HANDLE;
	if (tag >= total_of(hand))
		return TAGS_NO_SUCH_TAG;
	set = set_of(hand, tag);
	if (set->place[tag - set->first] != HELD || set->holder[tag - set->first] != hand->number)
		return TAGS_NOT_HELD;
	return is_kept(hand, tag) ? TAGS_NOT_HELD : TAGS_OK;
}

int32_t model_holds(struct model *hand, uint32_t tag)
{
	int32_t status = find_held(hand, tag);

	return status == TAGS_OK ? 1 : status == TAGS_NOT_HELD ? 0 : status;
}

static void give(struct model *hand, uint32_t tag, enum place place)
{
	struct set *set = set_of(hand, tag);

	set->place[tag - set->first] = place;
	hand->pool->sums.held--;
	hand->pool->sums.back++;
	hand->pool->given += kind_of(hand, tag) == TAGS_ORDINARY;
	if (!set->round_robin)
		member_of(hand)->hint[kind_of(hand, tag)] = tag - set->first;
}

void model_give_back(struct model *hand, const uint32_t *tags, size_t n)
{
	for (size_t i = 0; i < n; i++)
		give(hand, tags[i], FREE);
}

int32_t model_flush(struct model *hand)
{
	struct member *member;

	if (!is_hand(hand))
		return TAGS_BAD_HANDLE;
	member = member_of(hand);
	for (; member->kept; member->kept &= member->kept - 1)
		give(hand, member->window + (uint32_t)__builtin_ctzll(member->kept), FREE);
	return TAGS_OK;
}

/* The tag has no user any more, whether the hand keeps it or not. */
static void end_note(struct model *hand, uint32_t tag)
{
	struct set *set = set_of(hand, tag);

	set->has_note[tag - set->first] = false;
}

int32_t model_clear(struct model *hand, uint32_t tag)
{
	int32_t status = find_held(hand, tag);

	if (status)
		return status;
	end_note(hand, tag);
	if (kind_of(hand, tag) == TAGS_ORDINARY) {
		if (model_keep(hand, tag))
			return TAGS_OK;
		model_release(hand, &tag, 1);
	}
	give(hand, tag, ASIDE);
	return TAGS_OK;
}

static bool is_named_before(const uint32_t *tags, size_t at)
{
	for (size_t i = 0; i < at; i++)
		if (tags[i] == tags[at])
			return true;
	return false;
}

int32_t model_clear_batch(struct model *hand, const uint32_t *tags, size_t n)
{
	if (!is_hand(hand))
		return TAGS_BAD_HANDLE;
	if (n == 0 || n > TAGS_MAX_BATCH)
		return TAGS_BAD_COUNT;
	for (size_t i = 0; i < n; i++)
		if (tags[i] >= total_of(hand) || kind_of(hand, tags[i]) == TAGS_RESERVED)
			return TAGS_NO_SUCH_TAG;
	for (size_t i = 0; i < n; i++)
		if (find_held(hand, tags[i]) || is_named_before(tags, i))
			return TAGS_NOT_HELD;
	for (size_t i = 0; i < n; i++)
		end_note(hand, tags[i]);
	model_release(hand, tags, n);
	model_give_back(hand, tags, n);
	return TAGS_OK;
}

/* Lists the tags of a mask, and returns how many they are. A number past all tags stands for what would wrap. */
static size_t list_run(uint32_t first, uint64_t mask, uint32_t *tags)
{
	size_t n = 0;

	for (uint32_t bit = 0; bit < 64; bit++)
		if (mask >> bit & 1)
			tags[n++] = first > UINT32_MAX - bit ? UINT32_MAX : first + bit;
	return n;
}

int32_t model_clear_mask(struct model *hand, uint32_t first, uint64_t mask)
{
	uint32_t tags[TAGS_MAX_BATCH];

	return model_clear_batch(hand, tags, list_run(first, mask, tags));
}

int32_t model_get_write(struct model *hand, uint64_t value)
{
	int32_t tag = model_get_and_tell(hand, TAGS_ORDINARY);
	uint64_t former;

	if (tag >= 0)
		model_write(hand, (uint32_t)tag, value, &former);
	return tag;
}

int32_t model_read_clear(struct model *hand, uint32_t tag, uint64_t *value)
{
	int32_t status = model_read(hand, tag, value);

	return status ? status : model_clear(hand, tag);
}

int32_t model_read(struct model *hand, uint32_t tag, uint64_t *value)
{
	int32_t status = find_held(hand, tag);

	if (!status)
		*value = set_of(hand, tag)->slot[tag - set_of(hand, tag)->first];
	return status;
}

int32_t model_write(struct model *hand, uint32_t tag, uint64_t value, uint64_t *former)
{
	int32_t status = model_read(hand, tag, former);

	if (!status)
		set_of(hand, tag)->slot[tag - set_of(hand, tag)->first] = value;
	return status;
}

int32_t model_note(struct model *hand, uint32_t tag, uint64_t value)
{
	int32_t status = is_hand(hand) && !hand->pool->has_notes ? (int32_t)TAGS_NO_NOTES :
								   find_held(hand, tag);

	if (!status) {
		set_of(hand, tag)->has_note[tag - set_of(hand, tag)->first] = true;
		set_of(hand, tag)->note[tag - set_of(hand, tag)->first] = value;
	}
	return status;
}

int32_t model_post(struct model *hand, uint32_t tag)
{
	int32_t status = find_held(hand, tag);

	if (status)
		return status;
	model_release_posted(hand, tag);
	set_of(hand, tag)->place[tag - set_of(hand, tag)->first] = POSTED;
	hand->pool->sums.held--;
	hand->pool->sums.posted++;
	return TAGS_OK;
}

int32_t model_take(struct model *hand, uint32_t tag)
{
	int32_t status = find_held(hand, tag);
	struct set *set;

	if (status == TAGS_BAD_HANDLE || status == TAGS_NO_SUCH_TAG)
		return status;
	if (!is_posted(hand, tag))
		return TAGS_NOT_POSTED;
	set = set_of(hand, tag);
	set->place[tag - set->first] = HELD;
	set->holder[tag - set->first] = hand->number;
	hand->pool->sums.posted--;
	hand->pool->sums.held++;
	return TAGS_OK;
}

/* Why no list of these tags is posted or taken, or else TAGS_OK. */
static int32_t check_list(const struct model *hand, const uint32_t *tags, size_t n)
{
	if (!is_hand(hand))
		return TAGS_BAD_HANDLE;
	if (n == 0)
		return TAGS_BAD_COUNT;
	return tags[n - 1] >= total_of(hand) ? TAGS_NO_SUCH_TAG : TAGS_OK;
}

int32_t model_post_mask(struct model *hand, uint32_t first, uint64_t mask)
{
	uint32_t tags[TAGS_MAX_BATCH];
	size_t n = list_run(first, mask, tags);
	int32_t status = check_list(hand, tags, n);

	for (size_t i = 0; status == TAGS_OK && i < n; i++)
		status = find_held(hand, tags[i]);
	for (size_t i = 0; status == TAGS_OK && i < n; i++)
		model_post(hand, tags[i]);
	/* these posts do not say what they gave back */
	if (status == TAGS_OK)
		hand->pool->given = 0;
	return status;
}

int32_t model_take_mask(struct model *hand, uint32_t first, uint64_t mask)
{
	uint32_t tags[TAGS_MAX_BATCH];
	size_t n = list_run(first, mask, tags);
	int32_t status = check_list(hand, tags, n);

	for (size_t i = 0; status == TAGS_OK && i < n; i++)
		if (!is_posted(hand, tags[i]))
			status = TAGS_NOT_POSTED;
	for (size_t i = 0; status == TAGS_OK && i < n; i++)
		model_take(hand, tags[i]);
	return status;
}
