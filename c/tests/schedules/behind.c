/*
 * The queue of futures behind a hand, as rust/tags/src/queue.rs has it: written after that code, which
 * can't be explored itself. A waker counts in an event, as an eventfd would.
 */
#include "behind.h"

static void lock(struct queue *queue)
{
	pthread_mutex_lock(&queue->lock);
}

static void unlock(struct queue *queue)
{
	pthread_mutex_unlock(&queue->lock);
}

static void remove_at(struct queue *queue, int at)
{
	queue->length--;
	for (int i = at; i < queue->length; i++)
		queue->waiting[i] = queue->waiting[i + 1];
	queue->waiting[queue->length] = 0;
}

/* The hand is counted as the first of its futures. */
static void count_less(struct lender *lender)
{
	if (lender->queue.length > 0)
		tags_subtract(&tags_bell_of(lender->hand->waits)->waiting, 1);
}

bool queue_join(struct lender *lender, int me)
{
	struct queue *queue = &lender->queue;
	bool is_first;

	lock(queue);
	is_first = queue->length == 0;
	queue->waiting[queue->length++] = me;
	queue->waker[me] = &world->event[me];
	if (!is_first)
		tags_add(&tags_bell_of(lender->hand->waits)->waiting, 1);
	unlock(queue);
	return is_first;
}

void queue_renew(struct queue *queue, int me)
{
	lock(queue);
	if (queue->answer[me] == NO_ANSWER)
		queue->waker[me] = &world->event[me];
	unlock(queue);
}

int32_t queue_look(struct queue *queue, int me, bool *is_told)
{
	int32_t answer;

	lock(queue);
	answer = queue->answer[me];
	queue->answer[me] = NO_ANSWER;
	*is_told = queue->is_told;
	unlock(queue);
	return answer;
}

int32_t queue_leave(struct lender *lender, int me, bool *is_hand_due)
{
	struct queue *queue = &lender->queue;
	int32_t answer;

	lock(queue);
	for (int i = 0; i < queue->length; i++) {
		if (queue->waiting[i] != me)
			continue;
		remove_at(queue, i);
		count_less(lender);
	}
	queue->waker[me] = NULL;
	answer = queue->answer[me];
	queue->answer[me] = NO_ANSWER;
	*is_hand_due = queue->is_told || queue->length == 0;
	unlock(queue);
	return answer;
}

bool queue_is_empty(struct queue *queue)
{
	bool is_so;

	lock(queue);
	is_so = queue->length == 0;
	unlock(queue);
	return is_so;
}

void queue_hear(struct queue *queue)
{
	lock(queue);
	queue->is_told = false;
	unlock(queue);
}

int queue_answer_first(struct lender *lender, int32_t answer, int own, struct event **waker)
{
	struct queue *queue = &lender->queue;
	int first = -1;

	lock(queue);
	if (queue->length > 0) {
		first = queue->waiting[0];
		remove_at(queue, 0);
		count_less(lender);
		*waker = queue->waker[first];
		queue->waker[first] = NULL;
		if (first != own)
			queue->answer[first] = answer;
	}
	unlock(queue);
	return first;
}

/* A waker may do anything, such as use the hand that its future shares. */
void call_waker(struct event *event)
{
	struct lender *lender = lenders[event - world->event];

	if (has_lock(current))
		fault("a waker is called with a lock");
	if (lender->is_shared) {
		pthread_mutex_lock(&lender->lock);
		pthread_mutex_unlock(&lender->lock);
	}
	pause_before(OP_EVENT_WRITE, event, sizeof(*event), 1, PC);
	tell_step("calls a waker");
	event->count++;
}

void queue_tell(void *argument)
{
	struct queue *queue = argument;
	struct event *waker = NULL;

	lock(queue);
	queue->is_told = true;
	for (int i = 0; i < queue->length && !waker; i++) {
		waker = queue->waker[queue->waiting[i]];
		queue->waker[queue->waiting[i]] = NULL;
	}
	unlock(queue);
	if (waker)
		call_waker(waker);
}

void queue_stop(struct lender *lender)
{
	struct queue *queue = &lender->queue;
	struct event *wakers[MAX_THREADS] = { NULL };

	lock(queue);
	while (queue->length > 0) {
		const int first = queue->waiting[0];

		remove_at(queue, 0);
		count_less(lender);
		wakers[first] = queue->waker[first];
		queue->waker[first] = NULL;
		queue->answer[first] = TAGS_STOPPED;
	}
	unlock(queue);
	for (int i = 0; i < MAX_THREADS; i++)
		if (wakers[i])
			call_waker(wakers[i]);
}
