/*
 * Two threads on one hand. With TAGS_CHECKED_HANDS the program is ended by a sentence, and so it
 * is by a refusal in TAGS_MUST(). Under the thread sanitizer, which has to report both threads,
 * nothing else is looked for.
 */
#define _GNU_SOURCE
#include <pthread.h>
#include <signal.h>
#include <stdbool.h>
#include <stdio.h>
#include <stdlib.h>
#include <string.h>
#include <sys/wait.h>
#include <unistd.h>

#if defined __SANITIZE_THREAD__
#define IS_REPORTED 1
#elif defined __has_feature
#if __has_feature(thread_sanitizer)
#define IS_REPORTED 1
#endif
#endif

#ifndef IS_REPORTED
#define TAGS_CHECKED_HANDS
#endif
#include <tags.h>

enum { ROUNDS = 20000000, FEW = 1000, TOTAL = 64 };

static struct tags_pool pool;
static struct tags_hand hand;

static void *get_with(void *rounds)
{
	for (long i = 0; i < *(const long *)rounds; i++)
		if (tags_get(&hand) >= TOTAL)
			abort();
	return NULL;
}

static void *look_with(void *rounds)
{
	for (long i = 0; i < *(const long *)rounds; i++)
		if (tags_holds(&hand, 0) < 0)
			abort();
	return NULL;
}

static int misuse(long rounds)
{
	const struct tags_options options = { .total = TOTAL, .hands = 1 };
	pthread_t ids[2];

	if (tags_open(&pool, &options) || tags_join(&pool, &hand, 0))
		return 2;
	if (pthread_create(&ids[0], NULL, get_with, &rounds) ||
	    pthread_create(&ids[1], NULL, look_with, &rounds))
		return 2;
	pthread_join(ids[0], NULL);
	pthread_join(ids[1], NULL);
	return 0;
}

#ifdef IS_REPORTED
int main(void)
{
	return misuse(FEW);
}
#else
static int complete_twice(long rounds)
{
	const struct tags_options options = { .total = TOTAL, .hands = 1 };
	int32_t tag;

	if (tags_open(&pool, &options) || tags_join(&pool, &hand, 0))
		return 2;
	for (long i = 0; i < rounds; i++) {
		tag = TAGS_MUST(tags_get(&hand));
		TAGS_MUST(tags_clear(&hand, (uint32_t)tag));
	}
	TAGS_MUST(tags_clear(&hand, 5));
	return 0;
}

/* Whether this ends its process, and says so. */
static bool is_ended(int (*run)(long rounds), long rounds, const char *sentence)
{
	int ends[2], status = 0;
	char said[200] = "";
	size_t length = 0;
	ssize_t more;
	pid_t child;

	if (pipe(ends))
		exit(2);
	child = fork();
	if (child == 0) {
		dup2(ends[1], STDERR_FILENO);
		close(ends[0]);
		_exit(run(rounds));
	}
	close(ends[1]);
	/* a C library may write a sentence in parts */
	while ((more = read(ends[0], said + length, sizeof(said) - 1 - length)) > 0)
		length += (size_t)more;
	close(ends[0]);
	waitpid(child, &status, 0);
	/* behind the sentence an emulator may tell of the signal */
	if (WIFSIGNALED(status) && WTERMSIG(status) == SIGABRT && strncmp(said, sentence, strlen(sentence)) == 0)
		return true;
	printf("status %d, said: %s\n", status, said);
	return false;
}

int main(void)
{
	int wrong = 0;

	wrong += !is_ended(misuse, ROUNDS, "tags: two threads use one hand at once: "
					   "each needs a hand of its own\n");
	wrong += !is_ended(complete_twice, FEW, "tags: tags_clear(&hand, 5): this hand does not hold "
						"the tag: it was given back, posted or never got\n");
	printf("%d wrong\n", wrong);
	return wrong != 0;
}
#endif
