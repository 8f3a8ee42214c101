/*
 * server.h - a block device over the NBD protocol in which each request in flight is
 * a tag of one pool, and the slot of the tag is the address of the request.
 *
 * Each connection has a thread that reads requests. It gets a tag for each, and sleeps
 * while none is free, so that the client's socket fills; then it submits the tag to the
 * workers. A worker takes it, carries the request out, replies, and clears the tag.
 */
#ifndef SERVER_H
#define SERVER_H

#include <pthread.h>
#include <stddef.h>
#include <stdint.h>
#include <sys/types.h>
#include <tags.h>

#include "protocol.h"

/* The thread behind io_uring has a hand, too. */
enum { MAX_WORKERS = 16, MAX_CONNECTIONS = TAGS_MAX_HANDS - MAX_WORKERS - 1 };

/* Who waits for the disk: by default io_uring if the device is a file, where there is one. */
enum io { IO_BY_DEFAULT, IO_URING, IO_WORKERS };

#ifdef WITH_URING
enum { HAS_URING = 1 };
#else
enum { HAS_URING = 0 };
#endif

struct settings {
	const char *unix_path;
	const char *file;
	/* of TCP on the loopback interface; -1 for none */
	int port;
	enum io io;
	/* bytes in memory, unless there is a file */
	uint64_t size;
	uint32_t tags;
	uint32_t reserved;
	uint32_t cache;
	uint32_t workers;
	uint32_t connections;
	/* for which a client may stop in the middle of a request or of a reply */
	uint32_t seconds;
};

/* A file, or memory in the form of one. */
struct store {
	int fd;
	uint64_t size;
};

/* The pool's one queue: of tags on their way to a worker. */
enum { QUEUE = 0 };

/* A request of which nothing has begun. */
enum { NOT_BEGUN = INT32_MIN };

/* What a reader received of a request. */
struct header {
	uint64_t cookie;
	uint64_t offset;
	uint32_t length;
	uint16_t command;
	uint16_t flags;
};

/* One for each tag, for whoever holds the tag. The buffer stays with it. */
struct request {
	struct header header;
	struct connection *connection;
	unsigned char *buffer;
	uint32_t size;
	/* bytes that a READ found in memory, before the rest was left to io_uring */
	uint32_t done;
	/* of io_uring: NOT_BEGUN, or bytes that it has read, or an errno below 0 */
	int32_t result;
};

struct worker {
	struct server *server;
	pthread_t thread;
	struct tags_hand hand;
};

enum state { STATE_FREE, STATE_OPEN, STATE_ENDED };

struct connection {
	struct server *server;
	pthread_t reader;
	struct tags_hand hand;
	/* both change with the server's lock */
	int fd;
	enum state state;
	/* of sending a reply */
	pthread_mutex_t lock;
	pthread_cond_t idle;
	/* requests without a reply: the reader adds to them, and who replies subtracts with the lock */
	uint32_t pending;
	/* a reply could not be sent, so none is any more */
	int is_broken;
};

struct server {
	struct settings settings;
	struct tags_pool pool;
	struct store store;
	/* whether io_uring waits for the disk */
	int has_uring;
	/* workers that wait for a tag */
	uint32_t idle;
	/* no reader is left, so a stop ends the workers */
	int is_at_end;
	struct request *requests;
	struct worker workers[MAX_WORKERS];
	/* of states and descriptors of the connections */
	pthread_mutex_t lock;
	struct connection connections[MAX_CONNECTIONS];
	/* an eventfd: a connection has ended, and its hand is free */
	int has_ended;
	int is_stopping;
};

/* main.c */
void give_up(const char *what, const char *why);
int32_t must(const char *call, int32_t answer);

/* options.c */
void read_settings(struct settings *settings, int count, char **arguments);

/* store.c */
void open_store(struct store *store, const struct settings *settings);
int takes_disk(const struct store *store, struct request *request);
enum fault carry_out(const struct store *store, const struct request *request);

/* uring.c */
const char *open_uring(struct server *server);
void submit_to_uring(const struct store *store, uint32_t tag, const struct request *request);
void close_uring(void);

/* workers.c */
void start_workers(struct server *server);
void end_workers(struct server *server);
void give_back(struct tags_hand *hand, uint32_t tag, struct request *request);

/* wire.c */
void limit_waits(int fd, uint32_t seconds);
int receive(int fd, void *into, size_t size);
int receive_next(int fd, void *into, size_t size);
int discard(int fd, uint64_t size);
int send_all(int fd, const void *head, size_t head_size, const void *data, size_t size);

/* handshake.c */
int agree(struct connection *connection);

/* reader.c */
void *read_requests(void *connection);

/* connections.c */
void open_connections(struct server *server);
struct connection *vacant(struct server *server);
void start_reader(struct connection *connection, int fd);
void stop_readers(struct server *server);
void end_connection(struct connection *connection);
void wait_until_idle(struct connection *connection);
void reply(struct connection *connection, const struct header *header, enum fault fault, const void *data);
void reply_refused(struct connection *connection, const struct header *header, enum fault fault);

/* report.c */
void note_request(struct connection *connection, uint32_t tag, uint16_t command);
void report_busy(struct server *server);
int report_sums(const struct tags_sums *sums);

static inline int is_stopping(struct server *server)
{
	return __atomic_load_n(&server->is_stopping, __ATOMIC_RELAXED);
}

#endif
