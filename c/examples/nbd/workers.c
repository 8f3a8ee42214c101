/*
 * workers.c - a worker takes the next tag of the queue, finds the request in its slot,
 * carries it out, replies, and clears the tag. Where there is io_uring, the last worker that
 * is free does not wait for the disk: it posts the tag again and leaves that to io_uring,
 * and then the tag comes to the queue once more.
 */
#include "server.h"

#include <stdlib.h>
#include <string.h>

/* bytes of a buffer that stay with a tag */
enum { KEPT = 1 << 18 };

/* Returns a tag, or TAGS_STOPPED once no reader is left and the queue is empty. */
static int32_t next(struct worker *worker)
{
	struct server *server = worker->server;
	int32_t tag;

	do {
		__atomic_add_fetch(&server->idle, 1, __ATOMIC_RELAXED);
		tag = tags_next_blocking(&worker->hand, QUEUE);
		__atomic_sub_fetch(&server->idle, 1, __ATOMIC_RELAXED);
	} while (tag == TAGS_STOPPED && !__atomic_load_n(&server->is_at_end, __ATOMIC_RELAXED));
	return tag == TAGS_STOPPED ? tag : must("tags_next_blocking", tag);
}

/* Whether no other worker is free for what comes next. */
static int is_last(struct server *server)
{
	const int32_t queued = must("tags_pool_queued", tags_pool_queued(&server->pool, QUEUE));

	return __atomic_load_n(&server->idle, __ATOMIC_RELAXED) <= (uint32_t)queued;
}

static void release_large(struct request *request)
{
	if (request->size <= KEPT)
		return;
	free(request->buffer);
	request->buffer = NULL;
	request->size = 0;
}

void give_back(struct tags_hand *hand, uint32_t tag, struct request *request)
{
	release_large(request);
	must("tags_clear", tags_clear(hand, tag));
}

/*
 * Data of a reply are in the buffer of the request, so its tag goes back after the reply.
 * Any other tag goes back before, so that a client which has the reply to its flush finds
 * the reserved tag free.
 */
static void finish(struct worker *worker, uint32_t tag, struct request *request, enum fault fault)
{
	struct connection *connection = request->connection;
	struct header header = request->header;

	if (header.command != COMMAND_READ) {
		give_back(&worker->hand, tag, request);
		reply(connection, &header, fault, NULL);
	} else {
		reply(connection, &header, fault, request->buffer);
		give_back(&worker->hand, tag, request);
	}
}

/* Whoever takes a tag that is posted may change its request, so io_uring has a copy. */
static void leave_to_uring(struct worker *worker, uint32_t tag, const struct request *request)
{
	const struct request copy = *request;

	must("tags_post", tags_post(&worker->hand, tag));
	submit_to_uring(&worker->server->store, tag, &copy);
}

static void serve(struct worker *worker, uint32_t tag)
{
	struct server *server = worker->server;
	struct request *request;
	uint64_t slot = 0;

	must("tags_read", tags_read(&worker->hand, tag, &slot));
	request = (struct request *)(uintptr_t)slot;
	if (server->has_uring && request->result == NOT_BEGUN && is_last(server) &&
	    takes_disk(&server->store, request))
		leave_to_uring(worker, tag, request);
	else
		finish(worker, tag, request, carry_out(&server->store, request));
}

static void *work(void *argument)
{
	struct worker *worker = argument;
	int32_t tag;

	while ((tag = next(worker)) != TAGS_STOPPED)
		serve(worker, (uint32_t)tag);
	must("tags_leave", tags_leave(&worker->hand));
	return NULL;
}

void start_workers(struct server *server)
{
	for (uint32_t i = 0; i < server->settings.workers; i++) {
		struct worker *worker = &server->workers[i];

		worker->server = server;
		must("tags_join", tags_join(&server->pool, &worker->hand, 0));
		if (pthread_create(&worker->thread, NULL, work, worker) != 0)
			give_up("pthread_create", "no thread");
	}
}

/* Once no reader is left: the workers carry out what is queued still. */
void end_workers(struct server *server)
{
	__atomic_store_n(&server->is_at_end, 1, __ATOMIC_RELAXED);
	must("tags_stop", tags_stop(&server->pool));
	for (uint32_t i = 0; i < server->settings.workers; i++)
		pthread_join(server->workers[i].thread, NULL);
	if (server->has_uring)
		close_uring();
}
