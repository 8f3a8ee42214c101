/*
 * uring.c - io_uring waits for the disk in place of a worker: for a FLUSH, and for what a READ
 * does not find in memory. So as many requests can wait for it as there are tags, and not only
 * one for each worker. The worker posts the tag again, and submits the request with the tag as its
 * user_data. A thread takes the tag of each completion, puts the result into the request, and
 * submits the tag to the workers once more.
 */
#include "server.h"

#ifdef WITH_URING

#include <errno.h>
#include <liburing.h>
#include <sched.h>
#include <string.h>

/* the user_data of the completion that ends the thread */
static const uint64_t END = UINT64_MAX;

static struct io_uring uring;
static pthread_mutex_t submitting = PTHREAD_MUTEX_INITIALIZER;
static pthread_t reaper;
static struct tags_hand hand;

static struct io_uring_cqe *wait_for_one(void)
{
	struct io_uring_cqe *found;
	int status;

	do
		status = io_uring_wait_cqe(&uring, &found);
	while (status == -EINTR);
	if (status < 0)
		give_up("io_uring_wait_cqe", strerror(-status));
	return found;
}

static void pass_on(struct server *server, uint32_t tag, int32_t result)
{
	must("tags_take", tags_take(&hand, tag));
	server->requests[tag].result = result;
	must("tags_submit", tags_submit(&hand, tag));
}

static void *reap(void *server)
{
	struct io_uring_cqe *found;

	while ((found = wait_for_one())->user_data != END) {
		pass_on(server, (uint32_t)found->user_data, found->res);
		io_uring_cqe_seen(&uring, found);
	}
	must("tags_leave", tags_leave(&hand));
	return NULL;
}

/* There is an entry for each tag and one for the end, so neither ring is ever full. */
const char *open_uring(struct server *server)
{
	uint32_t tags = server->settings.tags + server->settings.reserved;
	int status = io_uring_queue_init(tags + 1, &uring, 0);

	if (status < 0)
		return strerror(-status);
	if (!(uring.features & IORING_FEAT_RW_CUR_POS)) {
		io_uring_queue_exit(&uring);
		return "the kernel is older than 5.6";
	}
	must("tags_join", tags_join(&server->pool, &hand, 0));
	if (pthread_create(&reaper, NULL, reap, server) != 0)
		give_up("pthread_create", "no thread");
	return NULL;
}

static struct io_uring_sqe *next_entry(void)
{
	struct io_uring_sqe *entry = io_uring_get_sqe(&uring);

	if (!entry)
		give_up("io_uring_get_sqe", "the queue is full");
	return entry;
}

/* With the lock. One call may leave entries behind, or find no memory in the kernel just now. */
static void submit_all(void)
{
	while (io_uring_sq_ready(&uring) > 0) {
		int status = io_uring_submit(&uring);

		if (status < 0 && status != -EINTR && status != -EAGAIN)
			give_up("io_uring_submit", strerror(-status));
		if (status == -EAGAIN)
			sched_yield();
	}
}

/* The tag is posted, so @request is a copy of what it was. */
void submit_to_uring(const struct store *store, uint32_t tag, const struct request *request)
{
	const struct header *header = &request->header;
	uint32_t done = request->done;
	struct io_uring_sqe *entry;

	pthread_mutex_lock(&submitting);
	entry = next_entry();
	if (header->command == COMMAND_READ)
		io_uring_prep_read(entry, store->fd, request->buffer + done, header->length - done,
				   header->offset + done);
	else
		io_uring_prep_fsync(entry, store->fd, IORING_FSYNC_DATASYNC);
	entry->user_data = tag;
	submit_all();
	pthread_mutex_unlock(&submitting);
}

/* Once nothing is in flight. */
void close_uring(void)
{
	struct io_uring_sqe *entry = next_entry();

	io_uring_prep_nop(entry);
	entry->user_data = END;
	submit_all();
	pthread_join(reaper, NULL);
	io_uring_queue_exit(&uring);
}

#else

const char *open_uring(struct server *server)
{
	(void)server;
	return "this server was built without liburing";
}

void submit_to_uring(const struct store *store, uint32_t tag, const struct request *request)
{
	(void)store;
	(void)tag;
	(void)request;
}

void close_uring(void)
{
}

#endif
