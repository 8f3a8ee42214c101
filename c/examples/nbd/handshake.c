/*
 * handshake.c - the fixed newstyle handshake: the client sends options until one of
 * them begins the requests, and the server answers each. There is one export, called
 * "disk", which is also the default.
 */
#include "server.h"

#include <string.h>

static const char NAME[] = "disk";
static const uint16_t EXPORT_FLAGS =
	HAS_FLAGS | HAS_FLUSH | HAS_FUA | HAS_TRIM | HAS_WRITE_ZEROES | HAS_MULTI_CONN;

enum outcome { OUTCOME_CLOSE, OUTCOME_NEXT, OUTCOME_BEGIN };

struct option {
	uint32_t kind;
	uint32_t length;
	unsigned char data[MAX_OPTION];
};

static int answer(int fd, uint32_t option, uint32_t kind, const void *data, uint32_t size)
{
	unsigned char head[20];
	unsigned char *at = put_number(head, ANSWER_MAGIC, 8);

	at = put_number(at, option, 4);
	at = put_number(at, kind, 4);
	put_number(at, size, 4);
	return send_all(fd, head, sizeof(head), data, size);
}

static enum outcome answer_alone(int fd, uint32_t option, uint32_t kind)
{
	return answer(fd, option, kind, NULL, 0) ? OUTCOME_NEXT : OUTCOME_CLOSE;
}

static int is_export(const unsigned char *name, uint32_t length)
{
	return length == 0 || (length == sizeof(NAME) - 1 && memcmp(name, NAME, length) == 0);
}

/* Whether the data of OPTION_INFO or OPTION_GO are a name and a list of two bytes each. */
static int is_well_formed(const struct option *option)
{
	uint64_t name;
	uint64_t count;

	if (option->length < 6)
		return 0;
	name = get_number(option->data, 4);
	if (name > option->length - 6)
		return 0;
	count = get_number(option->data + 4 + name, 2);
	return option->length == 6 + name + 2 * count;
}

static int tell_export(int fd, uint32_t option, uint64_t size)
{
	unsigned char info[12];
	unsigned char *at = put_number(info, INFO_EXPORT, 2);

	at = put_number(at, size, 8);
	put_number(at, EXPORT_FLAGS, 2);
	return answer(fd, option, ANSWER_INFO, info, 12);
}

/* The least size of a block, the preferred one and the largest. */
static int tell_block_sizes(int fd, uint32_t option)
{
	unsigned char info[14];
	unsigned char *at = put_number(info, INFO_BLOCK_SIZE, 2);

	at = put_number(at, 1, 4);
	at = put_number(at, 4096, 4);
	put_number(at, MAX_LENGTH, 4);
	return answer(fd, option, ANSWER_INFO, info, 14);
}

static enum outcome tell(int fd, const struct option *option, uint64_t size)
{
	if (!is_well_formed(option))
		return answer_alone(fd, option->kind, REFUSED_INVALID);
	if (!is_export(option->data + 4, (uint32_t)get_number(option->data, 4)))
		return answer_alone(fd, option->kind, REFUSED_UNKNOWN);
	if (!tell_export(fd, option->kind, size) || !tell_block_sizes(fd, option->kind) ||
	    !answer(fd, option->kind, ANSWER_DONE, NULL, 0))
		return OUTCOME_CLOSE;
	return option->kind == OPTION_GO ? OUTCOME_BEGIN : OUTCOME_NEXT;
}

static enum outcome list(int fd, const struct option *option)
{
	unsigned char name[4 + sizeof(NAME) - 1];

	if (option->length > 0)
		return answer_alone(fd, option->kind, REFUSED_INVALID);
	memcpy(put_number(name, sizeof(NAME) - 1, 4), NAME, sizeof(NAME) - 1);
	if (!answer(fd, option->kind, ANSWER_SERVER, name, sizeof(name)))
		return OUTCOME_CLOSE;
	return answer_alone(fd, option->kind, ANSWER_DONE);
}

/* The answer to OPTION_EXPORT_NAME has no header, and no form for a refusal. */
static enum outcome begin(int fd, const struct option *option, uint64_t size, int has_zeroes)
{
	unsigned char told[134] = { 0 };

	if (!is_export(option->data, option->length))
		return OUTCOME_CLOSE;
	put_number(put_number(told, size, 8), EXPORT_FLAGS, 2);
	return send_all(fd, told, has_zeroes ? 134 : 10, NULL, 0) ? OUTCOME_BEGIN : OUTCOME_CLOSE;
}

static enum outcome carry_on(int fd, const struct option *option, uint64_t size, int has_zeroes)
{
	switch (option->kind) {
	case OPTION_EXPORT_NAME:
		return begin(fd, option, size, has_zeroes);
	case OPTION_ABORT:
		answer(fd, option->kind, ANSWER_DONE, NULL, 0);
		return OUTCOME_CLOSE;
	case OPTION_LIST:
		return list(fd, option);
	case OPTION_INFO:
	case OPTION_GO:
		return tell(fd, option, size);
	default:
		return answer_alone(fd, option->kind, REFUSED_UNSUPPORTED);
	}
}

/* Returns whether an option came that is one. */
static int receive_option(int fd, struct option *option)
{
	unsigned char head[16];

	if (!receive(fd, head, sizeof(head)) || get_number(head, 8) != OPTION_MAGIC)
		return 0;
	option->kind = (uint32_t)get_number(head + 8, 4);
	option->length = (uint32_t)get_number(head + 12, 4);
	return option->length <= MAX_OPTION && receive(fd, option->data, option->length);
}

/* Returns the flags that the client took, or -1. */
static int greet(int fd)
{
	unsigned char hello[18];
	unsigned char flags[4];
	uint64_t taken;

	put_number(put_number(put_number(hello, SERVER_MAGIC, 8), OPTION_MAGIC, 8), FIXED_NEWSTYLE | NO_ZEROES, 2);
	if (!send_all(fd, hello, sizeof(hello), NULL, 0) || !receive(fd, flags, sizeof(flags)))
		return -1;
	taken = get_number(flags, 4);
	return taken & FIXED_NEWSTYLE && taken <= (FIXED_NEWSTYLE | NO_ZEROES) ? (int)taken : -1;
}

/* Returns whether server and client agreed to begin. */
int agree(struct connection *connection)
{
	struct server *server = connection->server;
	enum outcome outcome = OUTCOME_NEXT;
	struct option option;
	int taken = greet(connection->fd);

	if (taken < 0)
		return 0;
	while (outcome == OUTCOME_NEXT && !is_stopping(server) && receive_option(connection->fd, &option))
		outcome = carry_on(connection->fd, &option, server->store.size, !(taken & NO_ZEROES));
	return outcome == OUTCOME_BEGIN;
}
