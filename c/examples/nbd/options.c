/*
 * options.c - the command line.
 */
#define _GNU_SOURCE
#include "server.h"

#include <getopt.h>
#include <stdio.h>
#include <stdlib.h>
#include <string.h>

static const char USAGE[] =
	"usage: nbd_server [OPTION]..\n"
	"  --unix PATH      listen on a Unix socket\n"
	"  --port N         listen on a port of the loopback interface\n"
	"  --memory SIZE    a device in memory, 64M if no --file is given; K, M and G are binary\n"
	"  --file PATH      a device in a file, which exists\n"
	"  --io HOW         who waits for the disk: uring, or workers [uring for a file, where there is one]\n"
	"  --tags N         most requests in flight, of all connections, 1 to 10240 with the reserved ones [32]\n"
	"  --reserved N     tags for FLUSH and DISC alone, from 0 [2]\n"
	"  --cache N        tags that a worker keeps, 0 to 64 [0]\n"
	"  --workers N      threads that carry requests out, 1 to 16 [4]\n"
	"  --connections N  most connections at once, 1 to 47; more wait [16]\n"
	"  --seconds N      most time that a client may stop in the middle of a message, 1 to 3600 [10]\n";

enum name { UNIX, PORT, MEMORY, STORED, IO, TAGS, RESERVED, CACHE, WORKERS, CONNECTIONS, SECONDS };

static const struct option NAMES[] = {
	{ "unix", required_argument, NULL, UNIX },	   { "port", required_argument, NULL, PORT },
	{ "memory", required_argument, NULL, MEMORY },	   { "file", required_argument, NULL, STORED },
	{ "io", required_argument, NULL, IO },		   { "tags", required_argument, NULL, TAGS },
	{ "reserved", required_argument, NULL, RESERVED }, { "cache", required_argument, NULL, CACHE },
	{ "workers", required_argument, NULL, WORKERS },   { "seconds", required_argument, NULL, SECONDS },
	{ "connections", required_argument, NULL, CONNECTIONS },
	{ NULL, 0, NULL, 0 },
};

static void refuse_usage(void)
{
	fputs(USAGE, stderr);
	exit(2);
}

/* A number from @least to @most with at most one suffix of @suffixes, each 1,024 times the one before. */
static uint64_t number(const char *text, uint64_t least, uint64_t most, const char *suffixes)
{
	char *end;
	uint64_t value = strtoull(text, &end, 10);
	const char *suffix = *end ? strchr(suffixes, *end) : NULL;
	int shift = suffix ? (int)(suffix - suffixes + 1) * 10 : 0;

	if (end == text || *text == '-' || (*end && (!suffix || end[1])) || value > most >> shift ||
	    value << shift < least)
		refuse_usage();
	return value << shift;
}

static uint32_t count(const char *text, uint64_t least, uint64_t most)
{
	return (uint32_t)number(text, least, most, "");
}

static enum io io_of(const char *text)
{
	if (strcmp(text, "uring") == 0)
		return IO_URING;
	if (strcmp(text, "workers") != 0)
		refuse_usage();
	return IO_WORKERS;
}

static void read_option(struct settings *settings, int name, const char *text)
{
	switch (name) {
	case UNIX:
		settings->unix_path = text;
		break;
	case PORT:
		settings->port = (int)count(text, 0, 65535);
		break;
	case MEMORY:
		settings->size = number(text, 0, INT64_MAX, "KMG");
		break;
	case STORED:
		settings->file = text;
		break;
	case IO:
		settings->io = io_of(text);
		break;
	case TAGS:
		settings->tags = count(text, 1, TAGS_MAX_TOTAL);
		break;
	case RESERVED:
		settings->reserved = count(text, 0, TAGS_MAX_TOTAL - 1);
		break;
	case CACHE:
		settings->cache = count(text, 0, TAGS_MAX_CACHE);
		break;
	case WORKERS:
		settings->workers = count(text, 1, MAX_WORKERS);
		break;
	case CONNECTIONS:
		settings->connections = count(text, 1, MAX_CONNECTIONS);
		break;
	case SECONDS:
		settings->seconds = count(text, 1, 3600);
		break;
	default:
		refuse_usage();
	}
}

void read_settings(struct settings *settings, int arguments_count, char **arguments)
{
	const struct settings defaults = {
		.port = -1,
		.size = 64 << 20,
		.tags = 32,
		.reserved = 2,
		.workers = 4,
		.connections = 16,
		.seconds = 10,
	};
	int name;

	*settings = defaults;
	while ((name = getopt_long(arguments_count, arguments, "", NAMES, NULL)) != -1)
		read_option(settings, name, optarg);
	if (optind < arguments_count || (!settings->unix_path && settings->port < 0) ||
	    settings->tags + settings->reserved > TAGS_MAX_TOTAL)
		refuse_usage();
}
