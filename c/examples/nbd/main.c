/*
 * nbd_server serves a block device by the NBD protocol, to clients such as fio, qemu
 * and nbdcopy. Requests of all connections share one pool of tags. The main thread
 * accepts connections; SIGUSR1 has it print who is busy, and SIGTERM or SIGINT
 * finish what is in flight, and end.
 */
#define _GNU_SOURCE
#include "server.h"

#include <arpa/inet.h>
#include <errno.h>
#include <inttypes.h>
#include <netinet/tcp.h>
#include <poll.h>
#include <signal.h>
#include <stdio.h>
#include <stdlib.h>
#include <string.h>
#include <sys/eventfd.h>
#include <sys/signalfd.h>
#include <sys/socket.h>
#include <sys/un.h>
#include <unistd.h>

static struct server server;

void give_up(const char *what, const char *why)
{
	fprintf(stderr, "nbd_server: %s: %s\n", what, why);
	exit(1);
}

int32_t must(const char *call, int32_t answer)
{
	if (answer < 0)
		give_up(call, tags_strerror(answer));
	return answer;
}

static int listen_at(const struct sockaddr *address, socklen_t size, const char *name)
{
	int fd = socket(address->sa_family, SOCK_STREAM | SOCK_CLOEXEC | SOCK_NONBLOCK, 0);
	int one = 1;

	if (fd < 0)
		give_up(name, strerror(errno));
	if (address->sa_family == AF_INET)
		setsockopt(fd, SOL_SOCKET, SO_REUSEADDR, &one, sizeof(one));
	if (bind(fd, address, size) < 0 || listen(fd, SOMAXCONN) < 0)
		give_up(name, strerror(errno));
	return fd;
}

static int listen_at_path(const char *path)
{
	struct sockaddr_un address = { .sun_family = AF_UNIX };

	if (!path)
		return -1;
	if (strlen(path) >= sizeof(address.sun_path))
		give_up(path, "the name is too long");
	strcpy(address.sun_path, path);
	return listen_at((struct sockaddr *)&address, sizeof(address), path);
}

static int listen_at_port(int port)
{
	struct sockaddr_in address = {
		.sin_family = AF_INET,
		.sin_port = htons((uint16_t)port),
		.sin_addr.s_addr = htonl(INADDR_LOOPBACK),
	};

	return port < 0 ? -1 : listen_at((struct sockaddr *)&address, sizeof(address), "the port");
}

static int catch_signals(void)
{
	sigset_t signals;
	int fd;

	sigemptyset(&signals);
	sigaddset(&signals, SIGTERM);
	sigaddset(&signals, SIGINT);
	sigaddset(&signals, SIGUSR1);
	/* threads that start later block them too */
	pthread_sigmask(SIG_BLOCK, &signals, NULL);
	fd = signalfd(-1, &signals, SFD_CLOEXEC);
	if (fd < 0)
		give_up("signalfd", strerror(errno));
	return fd;
}

/* Returns whether there is io_uring. Where it was asked for and is not there, the server ends. */
static int has_uring(const struct settings *settings)
{
	const char *why;

	if (settings->io == IO_WORKERS || (settings->io == IO_BY_DEFAULT && !(settings->file && HAS_URING)))
		return 0;
	why = open_uring(&server);
	if (why && settings->io == IO_URING)
		give_up("io_uring", why);
	if (why)
		fprintf(stderr, "nbd_server: io_uring: %s, so the workers wait for the disk\n", why);
	return !why;
}

static void open_server(void)
{
	const struct settings *settings = &server.settings;
	struct tags_options options = {
		.total = settings->tags + settings->reserved,
		.reserved = settings->reserved,
		.hands = settings->connections + settings->workers + HAS_URING,
		.cache = settings->cache,
		.flags = TAGS_NOTES,
		.queues = 1,
	};

	open_store(&server.store, settings);
	server.requests = calloc(options.total, sizeof(*server.requests));
	server.has_ended = eventfd(0, EFD_CLOEXEC);
	if (!server.requests || server.has_ended < 0)
		give_up("the server", strerror(errno));
	must("tags_open", tags_open(&server.pool, &options));
	open_connections(&server);
	start_workers(&server);
	/* the workers look at this once a reader has submitted a tag */
	server.has_uring = has_uring(settings);
}

static void accept_one(int listener)
{
	struct connection *connection = vacant(&server);
	int one = 1;
	int fd = connection ? accept4(listener, NULL, NULL, SOCK_CLOEXEC) : -1;

	/* the client may have given up */
	if (fd < 0)
		return;
	setsockopt(fd, IPPROTO_TCP, TCP_NODELAY, &one, sizeof(one));
	start_reader(connection, fd);
}

/* Returns whether the server goes on. */
static int take_signal(int signals)
{
	struct signalfd_siginfo caught;

	if (read(signals, &caught, sizeof(caught)) != sizeof(caught))
		give_up("signalfd", strerror(errno));
	if (caught.ssi_signo == SIGUSR1)
		report_busy(&server);
	return caught.ssi_signo == SIGUSR1;
}

/* While there is no place for a connection, clients wait until one ends. */
static void serve(int signals, int at_path, int at_port)
{
	struct pollfd looks[] = { { signals, POLLIN, 0 }, { server.has_ended, POLLIN, 0 }, { 0 }, { 0 } };
	uint64_t ended;
	int goes_on = 1;

	looks[2].events = looks[3].events = POLLIN;
	while (goes_on) {
		int accepts = vacant(&server) != NULL;

		looks[2].fd = accepts ? at_path : -1;
		looks[3].fd = accepts ? at_port : -1;
		if (poll(looks, 4, -1) < 0) {
			if (errno == EINTR)
				continue;
			give_up("poll", strerror(errno));
		}
		if (looks[1].revents && read(server.has_ended, &ended, sizeof(ended)) < 0)
			give_up("eventfd", strerror(errno));
		for (int i = 2; i < 4; i++)
			if (looks[i].revents)
				accept_one(looks[i].fd);
		goes_on = !looks[0].revents || take_signal(signals);
	}
}

static int close_server(void)
{
	struct tags_sums sums;

	stop_readers(&server);
	end_workers(&server);
	must("tags_close", tags_close(&server.pool, &sums));
	for (uint32_t i = 0; i < server.settings.tags + server.settings.reserved; i++)
		free(server.requests[i].buffer);
	free(server.requests);
	if (close(server.store.fd) < 0)
		give_up("the device", strerror(errno));
	return report_sums(&sums);
}

int main(int count, char **arguments)
{
	int signals = catch_signals();
	int at_path;
	int at_port;

	read_settings(&server.settings, count, arguments);
	open_server();
	at_path = listen_at_path(server.settings.unix_path);
	at_port = listen_at_port(server.settings.port);
	printf("serving %" PRIu64 " bytes, %" PRIu32 " tags%s\n", server.store.size, server.settings.tags,
	       server.has_uring ? ", with io_uring" : "");
	fflush(stdout);
	serve(signals, at_path, at_port);
	close(at_path);
	close(at_port);
	if (server.settings.unix_path)
		unlink(server.settings.unix_path);
	return close_server();
}
