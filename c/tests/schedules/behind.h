/*
 * What a hand and the futures that wait behind it have in common, written after rust/tags.
 */
#ifndef BEHIND_H
#define BEHIND_H

#include "bell.h"

#include "scenario.h"

#include <limits.h>

enum { NO_ANSWER = INT_MIN };

/* The futures behind a hand. The future of a thread is known by the thread's number. */
struct queue {
	pthread_mutex_t lock;
	/* those that wait, in the order in which their waits began */
	int waiting[MAX_THREADS];
	int length;
	/* of each that waits its waker, until it is woken; and what it gets */
	struct event *waker[MAX_THREADS];
	int32_t answer[MAX_THREADS];
	bool is_told;
};

/* A hand with the lock of the crate's SharedHand. */
struct lender {
	struct queue queue;
	pthread_mutex_t lock;
	struct tags_hand *hand;
	bool is_shared;
};

/* by the number of a thread; those that share a hand have the first one's */
extern struct lender *lenders[MAX_THREADS];

/* Returns whether the future is alone. */
bool queue_join(struct lender *lender, int me);
void queue_renew(struct queue *queue, int me);
/* Returns the answer, if there is one, and whether the hand was told. */
int32_t queue_look(struct queue *queue, int me, bool *is_told);
/* Returns the tag that the future was to get, if there is one, and whether its hand has to try or to end its stay. */
int32_t queue_leave(struct lender *lender, int me, bool *is_hand_due);
bool queue_is_empty(struct queue *queue);
void queue_hear(struct queue *queue);
/* Takes out the first future and answers it, unless that is @own. Returns its thread, or -1 if none waits. */
int queue_answer_first(struct lender *lender, int32_t answer, int own, struct event **waker);
/* What the library calls: wakes the first future that was not woken. */
void queue_tell(void *queue);
void queue_stop(struct lender *lender);
void call_waker(struct event *event);

#endif
