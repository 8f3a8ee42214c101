/*
 * Opening and closing queues. Each has a list, and a pool of tokens with a hand for each hand of the other
 * pool. Those join at once and stay, so that no call on a queue allocates memory. A resize makes other queues;
 * but the bells, which a stop may use beside it, are for the pool's life.
 */
#include "queues.h"

#include <stdlib.h>

static uint64_t count_places(uint32_t total)
{
	uint64_t places = 1;

	while (places < total)
		places *= 2;
	return places;
}

/* One for each tag. With calloc(0), which may return NULL, that would be no refusal. */
static uint32_t *make_words(uint32_t total)
{
	return calloc(total > 0 ? total : 1, sizeof(uint32_t));
}

/* Makes what is not in the pool of tokens, and says whether there was the memory. */
static bool make_parts(struct tags_queue *queue, uint32_t hands, uint32_t total)
{
	const uint64_t places = count_places(total);

	queue->hands = calloc(hands, sizeof(*queue->hands));
	queue->tokens = make_words(total);
	queue->places = calloc(places, sizeof(*queue->places));
	if (!queue->hands || !queue->tokens || !queue->places)
		return false;
	queue->mask = places - 1;
	for (uint64_t ticket = 0; ticket < places; ticket++)
		queue->places[ticket] = ticket << 16;
	return true;
}

/* Makes a token for each tag, which is in no queue yet. */
static void post_tokens(struct tags_hand *in, uint32_t *tokens, uint32_t total)
{
	TAGS_DETAIL_TO_FILL(unused);

	for (uint32_t token = 0; token < total; token++) {
		tags_library_get_exactly(in, token, &unused);
		tags_library_post_quietly(in, token);
		tokens[token] = token;
	}
}

/* The words of tokens are as long as the hands ask for: tags_open() tells of a shift of 0, which is -1 here. */
static bool make(struct tags_queue *queue, uint32_t hands, uint32_t total)
{
	const struct tags_options asked = { .total = total, .shift = -1, .hands = hands };

	if (!make_parts(queue, hands, total) || tags_library_open_cached(&queue->pool, &asked, 0, 0) != TAGS_OK)
		return false;
	for (uint32_t i = 0; i < hands; i++)
		if (tags_library_fill_hand(&queue->pool, &queue->hands[i], 0) != TAGS_OK)
			return false;
	post_tokens(&queue->hands[0], queue->tokens, total);
	return true;
}

/* Frees what was made of a queue. */
static void unmake(struct tags_queue *queue, uint32_t hands)
{
	struct tags_sums unused;

	for (uint32_t i = 0; queue->pool.full && i < hands; i++)
		if (queue->hands[i].full)
			tags_library_empty_hand(&queue->hands[i]);
	if (queue->pool.full)
		tags_library_empty_pool(&queue->pool, &unused);
	free(queue->hands);
	free(queue->tokens);
	free(queue->places);
}

void tags_library_free_queues(const struct bell *bell, struct tags_queues *queues)
{
	if (!queues)
		return;
	for (uint32_t i = 0; i < bell->waits.queues; i++)
		unmake(&queues->each[i], bell->hands);
	free(queues->marks);
	free(queues);
}

static bool make_each(const struct bell *bell, struct tags_queues *queues, uint32_t total)
{
	queues->marks = make_words(total);
	if (!queues->marks)
		return false;
	for (uint32_t i = 0; i < bell->waits.queues; i++) {
		queues->each[i].pool.waits = &bell->queue_bells[i]->waits;
		if (!make(&queues->each[i], bell->hands, total))
			return false;
	}
	return true;
}

struct tags_queues *tags_library_make_queues(const struct bell *bell, uint32_t total)
{
	struct tags_queues *queues = calloc(1, sizeof(*queues) + bell->waits.queues * sizeof(*queues->each));

	if (!queues || make_each(bell, queues, total))
		return queues;
	tags_library_free_queues(bell, queues);
	return NULL;
}

void tags_library_change_queues(struct bell *bell, struct tags_queues *queues, uint32_t total)
{
	tags_library_free_queues(bell, bell->queues);
	bell->queues = queues;
	for (uint32_t i = 0; i < bell->waits.queues; i++)
		bell->queue_bells[i]->depth = total;
}

bool tags_library_add_queues(struct bell *bell, uint32_t count, uint32_t total)
{
	struct tags_queues *queues;

	bell->queue_bells = calloc(count, sizeof(*bell->queue_bells));
	if (!bell->queue_bells)
		return false;
	bell->waits.queues = count;
	for (uint32_t i = 0; i < count; i++) {
		bell->queue_bells[i] = tags_library_make_bell(bell->hands);
		if (!bell->queue_bells[i])
			return false;
	}
	queues = tags_library_make_queues(bell, total);
	if (!queues)
		return false;
	tags_library_change_queues(bell, queues, total);
	return true;
}

void tags_library_remove_queues(struct bell *bell)
{
	tags_library_free_queues(bell, bell->queues);
	for (uint32_t i = 0; bell->queue_bells && i < bell->waits.queues; i++)
		if (bell->queue_bells[i])
			tags_library_free_bell(bell->queue_bells[i]);
	free(bell->queue_bells);
}
