/*
 * connections.c - places for connections, each with a hand and a thread while it is
 * open, and the replies that are sent there.
 */
#include "server.h"

#include <sys/socket.h>
#include <unistd.h>

void open_connections(struct server *server)
{
	pthread_mutex_init(&server->lock, NULL);
	for (uint32_t i = 0; i < server->settings.connections; i++) {
		struct connection *connection = &server->connections[i];

		connection->server = server;
		connection->fd = -1;
		pthread_mutex_init(&connection->lock, NULL);
		pthread_cond_init(&connection->idle, NULL);
	}
}

/* With the connection's lock. Nothing is sent behind a reply that was cut short. */
static void send_reply(struct connection *connection, const struct header *header, enum fault fault,
		       const void *data)
{
	unsigned char head[REPLY_SIZE];
	size_t size = header->command == COMMAND_READ && fault == FAULT_NONE ? header->length : 0;

	put_number(put_number(put_number(head, REPLY_MAGIC, 4), (uint64_t)fault, 4), header->cookie, 8);
	if (connection->is_broken || send_all(connection->fd, head, sizeof(head), data, size))
		return;
	connection->is_broken = 1;
	/* the reader finds the end */
	shutdown(connection->fd, SHUT_RDWR);
}

/* The connection may be gone when this returns. A disconnect has no reply. */
void reply(struct connection *connection, const struct header *header, enum fault fault, const void *data)
{
	pthread_mutex_lock(&connection->lock);
	if (header->command != COMMAND_DISC)
		send_reply(connection, header, fault, data);
	if (__atomic_sub_fetch(&connection->pending, 1, __ATOMIC_RELAXED) == 0)
		pthread_cond_signal(&connection->idle);
	pthread_mutex_unlock(&connection->lock);
}

/* Replies to a request that was refused before it was submitted. */
void reply_refused(struct connection *connection, const struct header *header, enum fault fault)
{
	pthread_mutex_lock(&connection->lock);
	send_reply(connection, header, fault, NULL);
	pthread_mutex_unlock(&connection->lock);
}

void wait_until_idle(struct connection *connection)
{
	pthread_mutex_lock(&connection->lock);
	while (__atomic_load_n(&connection->pending, __ATOMIC_RELAXED) > 0)
		pthread_cond_wait(&connection->idle, &connection->lock);
	pthread_mutex_unlock(&connection->lock);
}

void end_connection(struct connection *connection)
{
	struct server *server = connection->server;
	uint64_t one = 1;

	wait_until_idle(connection);
	must("tags_leave", tags_leave(&connection->hand));
	pthread_mutex_lock(&server->lock);
	close(connection->fd);
	connection->fd = -1;
	connection->state = STATE_ENDED;
	pthread_mutex_unlock(&server->lock);
	if (write(server->has_ended, &one, sizeof(one)) < 0)
		give_up("eventfd", "it can't be written");
}

static enum state state_of(struct connection *connection)
{
	struct server *server = connection->server;
	enum state state;

	pthread_mutex_lock(&server->lock);
	state = connection->state;
	pthread_mutex_unlock(&server->lock);
	return state;
}

/*
 * Returns a place for a connection, with its hand, or NULL while all are taken. A reader
 * leaves before it ends, so for each place that is free the pool has a hand.
 */
struct connection *vacant(struct server *server)
{
	for (uint32_t i = 0; i < server->settings.connections; i++) {
		struct connection *connection = &server->connections[i];
		enum state state = state_of(connection);
		int32_t status;

		if (state == STATE_ENDED)
			pthread_join(connection->reader, NULL);
		else if (state == STATE_OPEN)
			continue;
		connection->state = STATE_FREE;
		status = tags_join(&server->pool, &connection->hand, 0);
		if (status != TAGS_NOT_EMPTY)
			must("tags_join", status);
		return connection;
	}
	return NULL;
}

void start_reader(struct connection *connection, int fd)
{
	struct server *server = connection->server;

	limit_waits(fd, server->settings.seconds);
	connection->is_broken = 0;
	pthread_mutex_lock(&server->lock);
	connection->fd = fd;
	connection->state = STATE_OPEN;
	pthread_mutex_unlock(&server->lock);
	if (pthread_create(&connection->reader, NULL, read_requests, connection) != 0)
		give_up("pthread_create", "no thread");
}

/*
 * Each reader stops where it is, waits for the replies to what it has submitted, and ends. The stop ends the waits of
 * workers, too, who are to wait on meanwhile.
 */
void stop_readers(struct server *server)
{
	__atomic_store_n(&server->is_stopping, 1, __ATOMIC_RELAXED);
	must("tags_stop", tags_stop(&server->pool));
	must("tags_resume", tags_resume(&server->pool));
	pthread_mutex_lock(&server->lock);
	for (uint32_t i = 0; i < server->settings.connections; i++)
		if (server->connections[i].fd >= 0)
			shutdown(server->connections[i].fd, SHUT_RD);
	pthread_mutex_unlock(&server->lock);
	for (uint32_t i = 0; i < server->settings.connections; i++) {
		struct connection *connection = &server->connections[i];

		if (state_of(connection) == STATE_FREE)
			tags_leave(&connection->hand);
		else
			pthread_join(connection->reader, NULL);
	}
}
