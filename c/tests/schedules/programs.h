/*
 * The programs of the threads. Each makes public calls of tags.h, but for futures, which make
 * those that are for another language.
 */
#ifndef PROGRAMS_H
#define PROGRAMS_H

#include <stdbool.h>
#include <stdint.h>

#ifdef __cplusplus
extern "C" {
#endif

/* gets.c: threads that sleep for a tag, or never wait */
void sleeper(int me);
void timed(int me);
void getter(int me);
void pair(int me);
void batcher(int me);
void shallow(int me);
void heir(int me);

/* loops.c: event loops */
void listener(int me);
void quitter(int me);
void leaver(int me);
void changer(int me);
void switcher(int me);
void breaker(int me);
void rejoiner(int me);
void giver(int me);
void caller(int me);
void canceller(int me);

/* futures.c */
void task(int me);
void dropper(int me);
void sharer(int me);
void shared_dropper(int me);
void ower(int me);
void make_futures(void);
/* Ends the waits of all futures, as the crate does after tags_stop(). */
void stop_futures(void);
/* How many futures wait behind the thread's hand. */
uint32_t futures_behind(uint32_t thread);

/* nests.c: functions that make calls */
void nester(int me);
void mutual(int me);
void outside_canceller(int me);
/* Whether each thread has a second hand, which waits by such a function; and lets them wait. */
bool nests(uint32_t thread);
void make_nests(void);

/* slots.c: posts, slots and reserved tags */
void poster(int me);
void keeper(int me);
void taker(int me);
void mask_poster(int me);
void mask_taker(int me);
void mask_keeper(int me);
void reserver(int me);
void all_reserver(int me);

/* reserves.c: waits for a reserved tag */
void reserved_sleeper(int me);
void reserved_timed(int me);
void reserved_listener(int me);
void reserved_quitter(int me);
void reserved_leaver(int me);
void reserved_canceller(int me);
void reserved_breaker(int me);
void crosser(int me);
void holder_of_both(int me);
void reserved_keeper(int me);
void keeping_reserver(int me);
void reserved_giver(int me);
void shared_reserver(int me);

/* lives.c: joins, leaves, and what happens to a whole pool */
void stopper(int me);
void joiner(int me);
void goer(int me);
void reporter(int me);
void resizer(int me);
void closer(int me);
void late_reporter(int me);
void resumer(int me);
void grabber(int me);
void retirer(int me);
void reopener(int me);
/* Notes those that wait at some moment before a stop. */
void look_before_stop(void);
/* gates */
void hirer(int me);
void timed_hirer(int me);
void applicant(int me);
void timed_applicant(int me);
void drainer(int me);
void timed_drainer(int me);
/* noted.c: notes of tags, and who reads them */
void noter(int me);
void clumsy_noter(int me);
void pair_noter(int me);
void shared_noter(int me);
void note_poster(int me);
void note_taker(int me);
void note_reader(int me);
/* shares.c: hands that threads share */
void borrower(int me);
void shared_sleeper(int me);
void shared_timed(int me);
void shared_poster(int me);
void shared_taker(int me);
void shared_caller(int me);
/* Ends a round with what a get by shared hands returned. Returns whether the thread goes on. */
bool use_shared(int me, int32_t tag);
/* Whether the thread uses shared hands alone. */
bool borrows(uint32_t thread);
/* submits.c and nexts.c: queues of submitted tags */
void submitter(int me);
void sleeping_submitter(int me);
void submitter_to_all(int me);
void keeping_submitter(int me);
void submitting_goer(int me);
void relay(int me);
void past_taker(int me);
void past_keeper(int me);
void next_poster(int me);
void posted_submitter(int me);
void next_sleeper(int me);
void next_keeper(int me);
void next_timed(int me);
void next_taker(int me);
void next_listener(int me);
void next_quitter(int me);
void next_leaver(int me);
void next_canceller(int me);
void next_of_all(int me);
void next_or_get(int me);
void queue_closer(int me);
/* Whether a tag is in a queue, or was taken past it; and how many are. */
bool is_submitted(uint32_t tag, uint32_t queue);
uint32_t count_queued(uint32_t queue);
/* Called before a stop: a thread that finds the pool stopped takes these still. */
void note_queued_before_stop(void);
/* The queues in which the thread waits, as a mask, and FOR_A_TAG if it waits for that, too. */
uint8_t waits_in_queues(uint32_t thread);
/* gated.c: waits for the tags of lists */
void lister(int me);
void timed_lister(int me);
/* Whether the thread waits until tags are back, all of them or those of a list, or waits for a hand. */
bool drains(uint32_t thread);
bool drains_all(uint32_t thread);
bool drains_list(uint32_t thread);
bool hires(uint32_t thread);
/* The tags of the list for which the thread waits, as a mask. */
uint32_t awaits(uint32_t thread);
/* Whether a thread stops the pool. */
bool has_stop(void);

/* plus.cpp: C++ and its coroutines; where the library itself is explored */
#define PLUS __attribute__((weak))
PLUS void plus_open(void);
PLUS void plus_close(void);
PLUS void plus_sleeper(int me);
PLUS void plus_loop(int me);
PLUS void plus_quitter(int me);
PLUS void plus_leaver(int me);
PLUS void plus_joiner(int me);
PLUS void plus_closer(int me);
PLUS void plus_stopper(int me);
PLUS void plus_resumer(int me);

#ifdef __cplusplus
}
#endif

#endif
