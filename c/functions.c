/*
 * Functions that notify hands. One may do anything but be cancelled, such as give tags back, and is called without
 * a lock. Two rules see to it that none hangs:
 *
 * Functions do not nest. A thread that runs one puts off those that its calls are to call, until that one has
 * returned. So no function is further up the stack of another one.
 *
 * Whoever runs one waits for none. Otherwise whoever ends a wait sleeps until its function has returned, as
 * the argument may go then; two functions that ended each other's wait would sleep for ever. So a wait that is
 * ended inside a function may leave its own function running.
 *
 * A place that is put off keeps its notice. So whatever ends the wait, or lets it go on, finds that, and nothing is
 * called then. The hand may leave meanwhile, and the pool be closed; so the bell stays until its place is looked at.
 */
#define _GNU_SOURCE
#include "bell.h"

#include <limits.h>
#include <sys/syscall.h>
#include <unistd.h>

/* The places that a thread has put off, on its stack. */
struct list {
	struct tags_place *first;
	struct tags_place **last;
};

static pthread_key_t key;
static bool has_key;

/* With fewer than 32 keys before it in the process, no value of this one takes memory. */
__attribute__((constructor)) static void make_key(void)
{
	has_key = pthread_key_create(&key, NULL) == 0;
}

/* That of this thread, or NULL if it runs no function. */
static struct list *own_list(void)
{
	return has_key ? pthread_getspecific(key) : NULL;
}

static void set_own_list(struct list *own)
{
	if (has_key)
		pthread_setspecific(key, own);
}

/* One that another thread has put off, too, is called by that. */
bool tags_library_put_off(struct bell *bell, struct tags_place *place)
{
	struct list *own = own_list();

	if (!own || !place->notice.function || place->notice.is_own)
		return false;
	place->is_due = true;
	if (place->is_put_off)
		return true;
	place->is_put_off = true;
	place->next = NULL;
	*own->last = place;
	own->last = &place->next;
	bell->uses++;
	return true;
}

struct tags_notice tags_library_take_notice(struct tags_place *place)
{
	const struct tags_notice notice = place->notice;

	place->notice = TAGS_NO_NOTICE;
	place->is_due = false;
	if (notice.function && !notice.is_lasting && !notice.is_own)
		tags_add(&place->running, 1);
	return notice;
}

static void call(struct tags_place *place, const struct tags_notice *notice)
{
	notice->function(notice->argument);
	if (notice->is_lasting)
		return;
	TAGS_DETAIL_SHOWS(TAGS_MAX_TOTAL);
	tags_subtract(&place->running, 1);
	syscall(SYS_futex, &place->running, TAGS_FUTEX_WAKE, INT_MAX, NULL, NULL, 0);
}

static struct bell *bell_of(struct tags_place *place)
{
	return (struct bell *)(void *)((char *)(place - place->number) - offsetof(struct bell, places));
}

/* Takes the first place out of the list, with its notice if that is due. */
static struct tags_place *take_first(struct list *own, struct tags_notice *notice)
{
	struct tags_place *place = own->first;
	struct bell *bell = bell_of(place);

	pthread_mutex_lock(&bell->lock);
	own->first = place->next;
	place->is_put_off = false;
	*notice = place->is_due ? tags_library_take_notice(place) : TAGS_NO_NOTICE;
	pthread_mutex_unlock(&bell->lock);
	if (!own->first)
		own->last = &own->first;
	return place;
}

static void call_first(struct list *own)
{
	struct tags_notice notice;
	struct tags_place *place = take_first(own, &notice);

	if (notice.function)
		call(place, &notice);
	tags_library_let_go_of_bell(bell_of(place));
}

void tags_library_run(struct tags_place *place, const struct tags_notice *notice)
{
	struct list own = { NULL, &own.first };
	int state;

	pthread_setcancelstate(PTHREAD_CANCEL_DISABLE, &state);
	set_own_list(&own);
	call(place, notice);
	while (own.first)
		call_first(&own);
	set_own_list(NULL);
	pthread_setcancelstate(state, &state);
}

void tags_library_outwait(const struct tags_place *place)
{
	uint32_t running = tags_load(&place->running);
	int saved = errno;

	while (running > 0 && !own_list()) {
		syscall(SYS_futex, &place->running, TAGS_FUTEX_WAIT, running, NULL, NULL, 0);
		running = tags_load(&place->running);
	}
	TAGS_DETAIL_SEES(TAGS_MAX_TOTAL);
	errno = saved;
}
