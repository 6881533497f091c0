// Copies standard input to standard output, and stops as litplan does, except for the mistake that its word names.
// parts/refused_calls.py must find the mistake.
#include <errno.h>
#include <pthread.h>
#include <stdlib.h>
#include <string.h>
#include <unistd.h>

static const char *mistake;

static int is(const char *name)
{
	return !strcmp(mistake, name);
}

// Writes all, as far as that is possible, and answers whether all is written.
static int put(int file, const char *bytes, size_t count)
{
	while (count) {
		ssize_t taken = write(file, bytes, count);

		if (taken < 0 && errno == EINTR && !is("is interrupted"))
			continue;
		if (taken <= 0)
			return 0;
		bytes += taken;
		count -= is("takes a part for all") ? (ssize_t)count : taken;
	}
	return 1;
}

static void stop(const char *text)
{
	int is_said = is("says nothing") || put(2, text, strlen(text));

	_exit(is("ends well") || (is("ends well where nothing is said") && !is_said) ? 0 : 2);
}

// Takes some memory for a piece.
static void grow(const char *text, size_t count)
{
	void *memory = malloc(count);

	if (!memory && is("loses a byte"))
		put(1, text + 1, count - 1);
	if (!memory && is("ends by a signal"))
		abort();
	if (!memory && is("answers otherwise"))
		_exit(0);
	if (!memory && is("says it in memory") && !malloc(1))
		_exit(2);
	if (!memory)
		stop("litplan: refused (1)\n");
	free(memory);
}

// Copies pieces to the end, and answers how many bytes they had.
static size_t copy(void)
{
	char text[8];
	size_t count = 0;

	for (;;) {
		ssize_t got = read(0, text, sizeof text);

		if (got < 0 && errno == EINTR && !is("is interrupted"))
			continue;
		if (got < 0 && !is("takes a fault for the end"))
			stop("litplan: -: cannot be used\n");
		if (got <= 0)
			return count;
		grow(text, got);
		if (!put(1, text, got) && !is("writes on"))
			stop("litplan: refused (18)\n");
		count += got;
		if (got < (ssize_t)sizeof text && is("takes a short piece for the last"))
			return count;
	}
}

static void *work(void *value)
{
	return value;
}

int main(int count, char **words)
{
	pthread_t thread;

	mistake = count > 1 ? words[1] : "none";
	grow("", 1);
	if (is("needs a thread") && pthread_create(&thread, NULL, work, NULL))
		return 2;
	if (copy() == 0)
		stop("litplan: refused (5)\n");
	return 0;
}
