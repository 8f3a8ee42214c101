/*
 * wire.c - receives and sends whole messages. A peer that stops in the middle of one
 * for longer than the limit of the socket is taken for gone.
 */
#define _GNU_SOURCE
#include "server.h"

#include <errno.h>
#include <sys/socket.h>
#include <sys/uio.h>
#include <time.h>

void limit_waits(int fd, uint32_t seconds)
{
	struct timeval limit = { .tv_sec = (time_t)seconds };

	setsockopt(fd, SOL_SOCKET, SO_RCVTIMEO, &limit, sizeof(limit));
	setsockopt(fd, SOL_SOCKET, SO_SNDTIMEO, &limit, sizeof(limit));
}

static int64_t now(void)
{
	struct timespec time;

	clock_gettime(CLOCK_MONOTONIC, &time);
	return (int64_t)time.tv_sec;
}

/* Whether a message that began at @begun is late: each part of it may be in time. */
static int is_late(int fd, int64_t begun)
{
	struct timeval limit;
	socklen_t size = sizeof(limit);

	return getsockopt(fd, SOL_SOCKET, SO_RCVTIMEO, &limit, &size) < 0 ||
	       now() - begun > (int64_t)limit.tv_sec;
}

static int receive_by(int fd, unsigned char *into, size_t size, int may_idle)
{
	int64_t begun = 0;
	size_t done = 0;

	while (done < size) {
		ssize_t moved = recv(fd, into + done, size - done, 0);

		if (moved < 0 && (errno == EINTR || (errno == EAGAIN && may_idle && done == 0)))
			continue;
		if (moved <= 0)
			return 0;
		done += (size_t)moved;
		if (done < size && begun == 0)
			begun = now();
		else if (done < size && is_late(fd, begun))
			return 0;
	}
	return 1;
}

/* Returns whether all came. */
int receive(int fd, void *into, size_t size)
{
	return receive_by(fd, into, size, 0);
}

/* The same, where the peer may take as long as it wants before it begins. */
int receive_next(int fd, void *into, size_t size)
{
	return receive_by(fd, into, size, 1);
}

int discard(int fd, uint64_t size)
{
	unsigned char unused[16384];

	while (size > 0) {
		size_t part = size < sizeof(unused) ? (size_t)size : sizeof(unused);

		if (!receive(fd, unused, part))
			return 0;
		size -= part;
	}
	return 1;
}

/* Leaves out the first @moved bytes of the message. */
static void advance(struct msghdr *message, size_t moved)
{
	while (moved > 0 || (message->msg_iovlen > 0 && message->msg_iov->iov_len == 0)) {
		struct iovec *part = message->msg_iov;
		size_t step = moved < part->iov_len ? moved : part->iov_len;

		part->iov_base = (unsigned char *)part->iov_base + step;
		part->iov_len -= step;
		moved -= step;
		if (part->iov_len > 0)
			return;
		message->msg_iov++;
		message->msg_iovlen--;
	}
}

/* Sends two parts of one message. Returns whether all went. */
int send_all(int fd, const void *head, size_t head_size, const void *data, size_t size)
{
	struct iovec parts[2] = { { (void *)(uintptr_t)head, head_size }, { (void *)(uintptr_t)data, size } };
	struct msghdr message = { .msg_iov = parts, .msg_iovlen = 2 };
	int64_t begun = 0;

	advance(&message, 0);
	while (message.msg_iovlen > 0) {
		ssize_t moved = sendmsg(fd, &message, MSG_NOSIGNAL);

		if (moved < 0 && errno == EINTR)
			continue;
		if (moved <= 0)
			return 0;
		advance(&message, (size_t)moved);
		if (message.msg_iovlen > 0 && begun == 0)
			begun = now();
		else if (message.msg_iovlen > 0 && is_late(fd, begun))
			return 0;
	}
	return 1;
}
