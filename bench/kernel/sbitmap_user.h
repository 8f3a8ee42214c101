/* What a thread needs for the calls of sbitmap_tags.c. */
#ifndef SBITMAP_USER_H
#define SBITMAP_USER_H

struct sbitmap_user {
	struct sbitmap_queue *queue;
	/* the processor that the thread stands for */
	unsigned int processor;
};
#endif
