/*
 * store.c - the bytes of the device: a file, or memory in the form of one, so that
 * the same calls read and write both, each at an offset and from any thread.
 */
#define _GNU_SOURCE
#include "server.h"

#include <errno.h>
#include <fcntl.h>
#include <string.h>
#include <sys/mman.h>
#include <sys/uio.h>
#include <unistd.h>

void open_store(struct store *store, const struct settings *settings)
{
	const char *name = settings->file ? settings->file : "memory";
	off_t end;

	store->fd = settings->file ? open(settings->file, O_RDWR | O_CLOEXEC) :
				     memfd_create(name, MFD_CLOEXEC);
	if (store->fd < 0)
		give_up(name, strerror(errno));
	if (!settings->file && ftruncate(store->fd, (off_t)settings->size) < 0)
		give_up(name, strerror(errno));
	end = lseek(store->fd, 0, SEEK_END);
	if (end < 0)
		give_up(name, strerror(errno));
	store->size = (uint64_t)end;
}

static enum fault fault_of(int error)
{
	switch (error) {
	case ENOSPC:
	case EFBIG:
	case EDQUOT:
		return FAULT_NO_SPACE;
	case ENOMEM:
		return FAULT_MEMORY;
	case EINVAL:
		return FAULT_INVALID;
	default:
		return FAULT_IO;
	}
}

/* Reads what is left of some bytes after the first @done. */
static enum fault read_all(int fd, unsigned char *into, size_t size, uint64_t offset, size_t done)
{
	while (done < size) {
		ssize_t moved = pread(fd, into + done, size - done, (off_t)(offset + done));

		if (moved < 0 && errno == EINTR)
			continue;
		if (moved <= 0)
			return moved < 0 ? fault_of(errno) : FAULT_IO;
		done += (size_t)moved;
	}
	return FAULT_NONE;
}

static enum fault write_all(int fd, const unsigned char *from, size_t size, uint64_t offset)
{
	while (size > 0) {
		ssize_t moved = pwrite(fd, from, size, (off_t)offset);

		if (moved < 0 && errno == EINTR)
			continue;
		if (moved <= 0)
			return moved < 0 ? fault_of(errno) : FAULT_IO;
		from += moved;
		offset += (uint64_t)moved;
		size -= (size_t)moved;
	}
	return FAULT_NONE;
}

static enum fault write_zeroes(int fd, uint64_t size, uint64_t offset)
{
	static const unsigned char zeroes[65536];
	enum fault fault = FAULT_NONE;

	while (size > 0 && fault == FAULT_NONE) {
		size_t part = size < sizeof(zeroes) ? (size_t)size : sizeof(zeroes);

		fault = write_all(fd, zeroes, part, offset);
		size -= part;
		offset += part;
	}
	return fault;
}

/* Returns whether the file system made the range one of zeros. */
static int punch(int fd, const struct header *header)
{
	int mode = header->flags & FLAG_NO_HOLE ? FALLOC_FL_ZERO_RANGE : FALLOC_FL_PUNCH_HOLE;

	return fallocate(fd, mode | FALLOC_FL_KEEP_SIZE, (off_t)header->offset, (off_t)header->length) == 0;
}

static enum fault flush(int fd)
{
	return fdatasync(fd) < 0 ? fault_of(errno) : FAULT_NONE;
}

static enum fault change(const struct store *store, const struct request *request)
{
	const struct header *header = &request->header;

	if (header->command == COMMAND_WRITE)
		return write_all(store->fd, request->buffer, header->length, header->offset);
	/* a client trims what it does not need, so a trim may do nothing */
	if (header->length == 0 || punch(store->fd, header) || header->command == COMMAND_TRIM)
		return FAULT_NONE;
	return write_zeroes(store->fd, header->length, header->offset);
}

/*
 * Whether a request would wait for the disk: a FLUSH, and a READ of what is not in memory, of
 * which this reads the part before that. Where the file system can't tell, each READ would. A
 * WRITE goes to memory.
 */
int takes_disk(const struct store *store, struct request *request)
{
	const struct header *header = &request->header;
	struct iovec into = { request->buffer, header->length };
	ssize_t moved;

	if (header->command == COMMAND_FLUSH || header->command == COMMAND_DISC)
		return 1;
	if (header->command != COMMAND_READ || header->length == 0)
		return 0;
	moved = preadv2(store->fd, &into, 1, (off_t)header->offset, RWF_NOWAIT);
	request->done = moved > 0 ? (uint32_t)moved : 0;
	return request->done < header->length;
}

/*
 * Carries a request out whose offset and length are within the device, from where io_uring came,
 * if it has begun. Whether a READ has failed this finds itself.
 */
enum fault carry_out(const struct store *store, const struct request *request)
{
	const struct header *header = &request->header;
	const int32_t result = request->result;
	size_t done = request->done + (result > 0 ? (size_t)result : 0);
	enum fault fault;

	switch (header->command) {
	case COMMAND_READ:
		return read_all(store->fd, request->buffer, header->length, header->offset, done);
	case COMMAND_FLUSH:
	case COMMAND_DISC:
		if (result == NOT_BEGUN)
			return flush(store->fd);
		return result < 0 ? fault_of(-result) : FAULT_NONE;
	default:
		fault = change(store, request);
		return fault == FAULT_NONE && header->flags & FLAG_FUA ? flush(store->fd) : fault;
	}
}
