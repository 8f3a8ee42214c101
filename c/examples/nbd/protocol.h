/*
 * protocol.h - what a server and its clients send each other, by the NBD protocol:
 * the fixed newstyle handshake, and then requests with simple replies. All numbers
 * are big-endian.
 */
#ifndef PROTOCOL_H
#define PROTOCOL_H

#include <stdint.h>

/* the handshake */
static const uint64_t SERVER_MAGIC = 0x4e42444d41474943; /* NBDMAGIC */
static const uint64_t OPTION_MAGIC = 0x49484156454f5054; /* IHAVEOPT */
static const uint64_t ANSWER_MAGIC = 0x0003e889045565a9;

/* flags of both sides: the server offers these two, and a client takes what it wants */
enum { FIXED_NEWSTYLE = 1, NO_ZEROES = 2 };

enum option_kind {
	OPTION_EXPORT_NAME = 1,
	OPTION_ABORT = 2,
	OPTION_LIST = 3,
	OPTION_INFO = 6,
	OPTION_GO = 7
};

enum answer_kind {
	ANSWER_DONE = 1,
	ANSWER_SERVER = 2,
	ANSWER_INFO = 3
};

/* answers that are refusals */
static const uint32_t REFUSED_UNSUPPORTED = 0x80000001;
static const uint32_t REFUSED_INVALID = 0x80000003;
static const uint32_t REFUSED_UNKNOWN = 0x80000006;

enum info_kind { INFO_EXPORT = 0, INFO_BLOCK_SIZE = 3 };

enum export_flags {
	HAS_FLAGS = 1 << 0,
	HAS_FLUSH = 1 << 2,
	HAS_FUA = 1 << 3,
	HAS_TRIM = 1 << 5,
	HAS_WRITE_ZEROES = 1 << 6,
	HAS_MULTI_CONN = 1 << 8
};

/* requests */
static const uint32_t REQUEST_MAGIC = 0x25609513;
static const uint32_t REPLY_MAGIC = 0x67446698;

enum command {
	COMMAND_READ = 0,
	COMMAND_WRITE = 1,
	COMMAND_DISC = 2,
	COMMAND_FLUSH = 3,
	COMMAND_TRIM = 4,
	COMMAND_WRITE_ZEROES = 6
};

enum command_flags { FLAG_FUA = 1, FLAG_NO_HOLE = 2 };

/* errors of replies */
enum fault {
	FAULT_NONE = 0,
	FAULT_IO = 5,
	FAULT_MEMORY = 12,
	FAULT_INVALID = 22,
	FAULT_NO_SPACE = 28,
	FAULT_SHUTDOWN = 108
};

/* bytes */
enum {
	REQUEST_SIZE = 28,
	REPLY_SIZE = 16,
	/* of data in one request */
	MAX_LENGTH = 32 << 20,
	/* of an option, which is a name and a list of informations */
	MAX_OPTION = 4096
};

static inline uint64_t get_number(const unsigned char *at, int size)
{
	uint64_t number = 0;

	for (int i = 0; i < size; i++)
		number = number << 8 | at[i];
	return number;
}

/* Returns the place behind the number. */
static inline unsigned char *put_number(unsigned char *at, uint64_t number, int size)
{
	for (int i = 0; i < size; i++)
		at[i] = (unsigned char)(number >> 8 * (size - 1 - i));
	return at + size;
}

#endif
