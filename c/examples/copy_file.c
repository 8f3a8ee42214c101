/*
 * copy_file FROM TO copies a file through io_uring, with as many blocks under way
 * as the pool has tags. The main thread takes a tag for each block, and waits
 * while none is free, writes the address of the request into the tag's slot,
 * posts the tag, and submits a read and a write linked to it whose user_data is
 * the tag. A second thread reaps: it takes the tag that a completion names, finds
 * the request in the slot, and gives the tag back.
 *
 * Each block has one completion: that of its write, or that of a read that failed
 * or was short, after which the kernel drops the write. Either way a block that was
 * not copied whole is copied again by pread() and pwrite(). So is the last one, if
 * it is no whole block.
 *
 * It exits with 77 where the kernel has no io_uring for this process.
 */
#define _GNU_SOURCE
#include <errno.h>
#include <fcntl.h>
#include <inttypes.h>
#include <liburing.h>
#include <pthread.h>
#include <stdio.h>
#include <stdlib.h>
#include <string.h>
#include <sys/stat.h>
#include <tags.h>
#include <unistd.h>

/* bytes */
#ifndef BLOCK
#define BLOCK 65536
#endif

enum { DEPTH = 32, REFUSED = 77 };

/* the user_data of the completion that ends the second thread */
static const uint64_t END = UINT64_MAX;

struct request {
	off_t offset;
	char block[BLOCK];
};

struct file {
	const char *name;
	int fd;
};

/* one for each tag that is under way */
static struct request requests[DEPTH];
static struct tags_hand submitter = TAGS_EMPTY;
static struct tags_hand reaper = TAGS_EMPTY;
static struct io_uring ring;
static struct file from;
static struct file to;
/* blocks submitted, which is known before END comes */
static uint64_t submitted;
/* bytes copied, which the reaper counts */
static off_t copied;

static void give_up(const char *what, const char *why)
{
	fprintf(stderr, "copy_file: %s: %s\n", what, why);
	exit(1);
}

static int32_t must(const char *call, int32_t answer)
{
	if (answer < 0)
		give_up(call, tags_strerror(answer));
	return answer;
}

/* Reads a block without the ring, less of it only where the file ends. Returns its bytes. */
static ssize_t read_block(struct request *request)
{
	ssize_t size = 0;
	ssize_t moved = 1;

	while (size < BLOCK && moved > 0) {
		moved = pread(from.fd, request->block + size, (size_t)(BLOCK - size), request->offset + size);
		if (moved < 0)
			give_up(from.name, strerror(errno));
		size += moved;
	}
	return size;
}

static void write_block(struct request *request, ssize_t size)
{
	ssize_t moved;

	for (ssize_t done = 0; done < size; done += moved) {
		moved = pwrite(to.fd, request->block + done, (size_t)(size - done), request->offset + done);
		if (moved < 0)
			give_up(to.name, strerror(errno));
	}
}

static void complete(uint32_t tag, ssize_t result)
{
	struct request *request;
	uint64_t slot = 0;

	must("tags_take", tags_take(&reaper, tag));
	must("tags_read", tags_read(&reaper, tag, &slot));
	request = (struct request *)(uintptr_t)slot;
	if (result != BLOCK) {
		result = read_block(request);
		write_block(request, result);
	}
	copied += result;
	must("tags_clear", tags_clear(&reaper, tag));
}

static void *reap(void *unused)
{
	uint64_t completed = 0;
	int has_ended = 0;

	while (!has_ended || completed < __atomic_load_n(&submitted, __ATOMIC_ACQUIRE)) {
		struct io_uring_cqe *cqe;
		int status = io_uring_wait_cqe(&ring, &cqe);

		if (status == -EINTR)
			continue;
		if (status < 0)
			give_up("io_uring_wait_cqe", strerror(-status));
		if (cqe->user_data == END) {
			has_ended = 1;
		} else {
			complete((uint32_t)cqe->user_data, cqe->res);
			completed++;
		}
		io_uring_cqe_seen(&ring, cqe);
	}
	return unused;
}

/* One call may leave entries behind. */
static void submit(void)
{
	while (io_uring_sq_ready(&ring) > 0) {
		int status = io_uring_submit(&ring);

		if (status < 0 && status != -EINTR)
			give_up("io_uring_submit", strerror(-status));
	}
}

/* Before it waits for a tag it submits what was queued, which may be what gives one back. */
static uint32_t get_tag(void)
{
	int32_t tag = tags_get(&submitter);

	if (tag == TAGS_NO_TAG) {
		submit();
		tag = tags_get_blocking(&submitter);
	}
	return (uint32_t)must("tags_get_blocking", tag);
}

/* There are two entries for each tag, and one for END, so the queue is never full. */
static struct io_uring_sqe *next_entry(void)
{
	struct io_uring_sqe *entry = io_uring_get_sqe(&ring);

	if (!entry)
		give_up("io_uring_get_sqe", "the queue is full");
	return entry;
}

static void queue_block(off_t offset)
{
	uint32_t tag = get_tag();
	struct request *request = &requests[tag];
	struct io_uring_sqe *entry;

	request->offset = offset;
	must("tags_write", tags_write(&submitter, tag, (uintptr_t)request, NULL));
	must("tags_post", tags_post(&submitter, tag));
	entry = next_entry();
	io_uring_prep_read(entry, from.fd, request->block, BLOCK, (uint64_t)offset);
	entry->flags |= IOSQE_IO_LINK | IOSQE_CQE_SKIP_SUCCESS;
	entry->user_data = tag;
	entry = next_entry();
	io_uring_prep_write(entry, to.fd, request->block, BLOCK, (uint64_t)offset);
	entry->user_data = tag;
}

static void copy(off_t size)
{
	struct io_uring_sqe *entry;
	uint64_t count = 0;

	for (off_t offset = 0; offset < size; offset += BLOCK) {
		queue_block(offset);
		count++;
	}
	submit();
	__atomic_store_n(&submitted, count, __ATOMIC_RELEASE);
	entry = next_entry();
	io_uring_prep_nop(entry);
	entry->user_data = END;
	submit();
}

static void open_ring(void)
{
	int status = io_uring_queue_init(2 * DEPTH + 1, &ring, 0);

	if (status == 0 && ring.features & IORING_FEAT_CQE_SKIP)
		return;
	fprintf(stderr, "copy_file: no io_uring here: %s\n",
		status < 0 ? strerror(-status) : "the kernel is older than 5.17");
	exit(REFUSED);
}

/* Returns the size of the source, in bytes. */
static off_t open_files(void)
{
	struct stat source;
	struct stat target;

	from.fd = open(from.name, O_RDONLY);
	if (from.fd < 0 || fstat(from.fd, &source) < 0)
		give_up(from.name, strerror(errno));
	if (!S_ISREG(source.st_mode))
		give_up(from.name, "not a regular file");
	if (stat(to.name, &target) == 0 && target.st_dev == source.st_dev &&
	    target.st_ino == source.st_ino)
		give_up(to.name, "this is the source");
	to.fd = open(to.name, O_WRONLY | O_CREAT | O_TRUNC, 0666);
	if (to.fd < 0)
		give_up(to.name, strerror(errno));
	return source.st_size;
}

static void close_files(off_t size)
{
	if (copied < size)
		give_up(from.name, "the file has become shorter");
	if (close(to.fd) < 0)
		give_up(to.name, strerror(errno));
	close(from.fd);
}

static void report(struct tags_pool *pool)
{
	struct tags_sums sums;

	must("tags_leave", tags_leave(&submitter));
	must("tags_leave", tags_leave(&reaper));
	must("tags_close", tags_close(pool, &sums));
	printf("bytes=%" PRId64 "\nblocks=%" PRIu64 "\n", (int64_t)copied, submitted);
	printf("got=%" PRIu64 "\nback=%" PRIu64 "\n", sums.got, sums.back);
}

int main(int count, char **arguments)
{
	struct tags_options options = {
		.total = DEPTH,
		.hands = 2,
	};
	struct tags_pool pool = TAGS_EMPTY;
	pthread_t thread;
	off_t size;

	if (count != 3)
		give_up("usage", "copy_file FROM TO");
	from.name = arguments[1];
	to.name = arguments[2];
	open_ring();
	size = open_files();
	must("tags_open", tags_open(&pool, &options));
	must("tags_join", tags_join(&pool, &submitter, 0));
	must("tags_join", tags_join(&pool, &reaper, 0));
	if (pthread_create(&thread, NULL, reap, NULL) != 0)
		give_up("pthread_create", "no thread");
	copy(size);
	pthread_join(thread, NULL);
	io_uring_queue_exit(&ring);
	close_files(size);
	report(&pool);
	return 0;
}
