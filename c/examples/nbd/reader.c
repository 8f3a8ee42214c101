/*
 * reader.c - the thread of a connection: it shakes hands, and then reads one request
 * after another, gets a tag for each, and submits it to the workers. Where flushes have all reserved
 * tags, a flush waits for one of them alone, so at most as many workers are in a flush as there are.
 */
#include "server.h"

#include <stdlib.h>

/* Replies that a request was refused. Returns whether the next one can be read. */
static int refuse(struct connection *connection, const struct header *header, enum fault fault)
{
	if (header->command == COMMAND_WRITE &&
	    (header->length > MAX_LENGTH || !discard(connection->fd, header->length)))
		return 0;
	reply_refused(connection, header, fault);
	return 1;
}

static int is_within(const struct server *server, const struct header *header)
{
	return header->offset <= server->store.size &&
	       header->length <= server->store.size - header->offset;
}

static enum fault check(const struct server *server, const struct header *header)
{
	int flags = header->command == COMMAND_WRITE_ZEROES ? FLAG_FUA | FLAG_NO_HOLE : FLAG_FUA;

	if (header->flags & ~flags)
		return FAULT_INVALID;
	switch (header->command) {
	case COMMAND_READ:
		return is_within(server, header) && header->length <= MAX_LENGTH ? FAULT_NONE : FAULT_INVALID;
	case COMMAND_WRITE:
		if (header->length > MAX_LENGTH)
			return FAULT_INVALID;
		return is_within(server, header) ? FAULT_NONE : FAULT_NO_SPACE;
	case COMMAND_WRITE_ZEROES:
		return is_within(server, header) ? FAULT_NONE : FAULT_NO_SPACE;
	case COMMAND_TRIM:
		return is_within(server, header) ? FAULT_NONE : FAULT_INVALID;
	case COMMAND_FLUSH:
		return header->offset == 0 && header->length == 0 ? FAULT_NONE : FAULT_INVALID;
	default:
		return header->command == COMMAND_DISC ? FAULT_NONE : FAULT_INVALID;
	}
}

static int receive_header(int fd, struct header *header)
{
	unsigned char head[REQUEST_SIZE];

	if (!receive_next(fd, head, sizeof(head)) || get_number(head, 4) != REQUEST_MAGIC)
		return 0;
	header->flags = (uint16_t)get_number(head + 4, 2);
	header->command = (uint16_t)get_number(head + 6, 2);
	header->cookie = get_number(head + 8, 8);
	header->offset = get_number(head + 16, 8);
	header->length = (uint32_t)get_number(head + 24, 4);
	return 1;
}

/*
 * A flush and a disconnect get a reserved tag, and so pass requests that wait for an ordinary one. While all
 * reserved ones are in use they wait for one of these, also where an ordinary one is free: so no more flushes
 * are in flight than there are reserved tags, and as many workers at most are in one.
 */
static int32_t get_tag(struct tags_hand *hand, uint16_t command)
{
	int32_t tag = TAGS_NO_RESERVED;

	if (command == COMMAND_FLUSH || command == COMMAND_DISC)
		tag = tags_get_reserved(hand);
	if (tag == TAGS_NO_TAG)
		tag = tags_get_reserved_blocking(hand);
	return tag == TAGS_NO_RESERVED ? tags_get_blocking(hand) : tag;
}

/* A reader may go idle after this, so it keeps no tag. */
static void give_up_request(struct connection *connection, uint32_t tag)
{
	give_back(&connection->hand, tag, &connection->server->requests[tag]);
	must("tags_flush", tags_flush(&connection->hand));
}

static int has_room(struct request *request, uint32_t size)
{
	if (request->size >= size)
		return 1;
	free(request->buffer);
	request->buffer = malloc(size);
	request->size = request->buffer ? size : 0;
	return request->buffer != NULL;
}

/* Fills the request of a tag, and submits the tag. Returns whether the next one can be read. */
static int submit(struct connection *connection, uint32_t tag, const struct header *header)
{
	struct request *request = &connection->server->requests[tag];
	int has_data = header->command == COMMAND_READ || header->command == COMMAND_WRITE;

	request->header = *header;
	request->connection = connection;
	request->done = 0;
	request->result = NOT_BEGUN;
	note_request(connection, tag, header->command);
	if (has_data && !has_room(request, header->length)) {
		give_up_request(connection, tag);
		return refuse(connection, header, FAULT_MEMORY);
	}
	if (header->command == COMMAND_WRITE && !receive(connection->fd, request->buffer, header->length)) {
		give_up_request(connection, tag);
		return 0;
	}
	__atomic_add_fetch(&connection->pending, 1, __ATOMIC_RELAXED);
	must("tags_write", tags_write(&connection->hand, tag, (uintptr_t)request, NULL));
	must("tags_submit", tags_submit(&connection->hand, tag));
	return header->command != COMMAND_DISC;
}

/* Returns whether the next request can be read. */
static int read_request(struct connection *connection)
{
	struct header header;
	enum fault fault;
	int32_t tag;

	if (!receive_header(connection->fd, &header))
		return 0;
	fault = check(connection->server, &header);
	if (fault != FAULT_NONE)
		return refuse(connection, &header, fault);
	/* a disconnect flushes what all requests before it have written */
	if (header.command == COMMAND_DISC)
		wait_until_idle(connection);
	tag = get_tag(&connection->hand, header.command);
	if (tag == TAGS_STOPPED)
		return header.command != COMMAND_DISC && refuse(connection, &header, FAULT_SHUTDOWN);
	return submit(connection, (uint32_t)must("tags_get_blocking", tag), &header);
}

void *read_requests(void *argument)
{
	struct connection *connection = argument;
	int goes_on = agree(connection);

	while (goes_on && !is_stopping(connection->server))
		goes_on = read_request(connection);
	end_connection(connection);
	return NULL;
}
