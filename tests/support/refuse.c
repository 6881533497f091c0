// Loaded into a program by LD_PRELOAD, refuses some of its calls. REFUSED in the environment says which:
//
//   growth-N      the Nth call of malloc, calloc or realloc gives no memory
//   read-N        the Nth read fails
//   write-N       the Nth write fails; those to standard error are not counted here and in take and room
//   take-N        the Nth write takes nothing
//   message-N     the Nth write to standard error fails
//   interrupt-N   the Nth read or write, to wherever, is interrupted before it moves a byte
//   thread-N      the Nth thread is not started
//   given-K       reads give K bytes in all, and then fail
//   room-K        writes take K bytes in all, and then fail
//   short-K       no read gives more than K bytes
//   cut-K         no write takes more than K bytes
//
// After a number N, "-on" refuses that call and all later ones. With REFUSED_PIECE no read or write moves more bytes
// than this number. A file named by REFUSED_MARK is made when a call is refused or cut.
#define _GNU_SOURCE
#include <dlfcn.h>
#include <errno.h>
#include <fcntl.h>
#include <pthread.h>
#include <stdlib.h>
#include <string.h>
#include <sys/syscall.h>
#include <unistd.h>

extern void *__libc_malloc(size_t size);
extern void *__libc_calloc(size_t count, size_t size);
extern void *__libc_realloc(void *old, size_t size);

// The text after this kind, where REFUSED names the kind.
static const char *asked(const char *kind)
{
	const char *said = getenv("REFUSED");
	size_t front = strlen(kind);

	return said && !strncmp(said, kind, front) && said[front] == '-' ? said + front + 1 : NULL;
}

static int refuse(int error)
{
	const char *mark = getenv("REFUSED_MARK");

	if (mark)
		close(open(mark, O_CREAT | O_WRONLY, 0600));
	errno = error;
	return 1;
}

// Counts a call of this kind, and answers whether it is refused.
static int is_refused(const char *kind, int error)
{
	static long calls;
	const char *number = asked(kind);
	char *rest;
	long call, first;

	if (!number)
		return 0;
	call = __atomic_add_fetch(&calls, 1, __ATOMIC_SEQ_CST);
	first = strtol(number, &rest, 10);
	return (call == first || (call > first && *rest)) && refuse(error);
}

void *malloc(size_t size)
{
	return is_refused("growth", ENOMEM) ? NULL : __libc_malloc(size);
}

void *calloc(size_t count, size_t size)
{
	return is_refused("growth", ENOMEM) ? NULL : __libc_calloc(count, size);
}

void *realloc(void *old, size_t size)
{
	return is_refused("growth", ENOMEM) ? NULL : __libc_realloc(old, size);
}

static size_t least(size_t one, size_t other)
{
	return one < other ? one : other;
}

// Reads or writes: no more than `each` says at once, and `all` in all.
static ssize_t moved(long call, const char *all, const char *each, int file, void *bytes, size_t count)
{
	static size_t total;
	const char *most = asked(all), *few = asked(each), *piece = getenv("REFUSED_PIECE");
	size_t some = few ? least(count, atol(few)) : count;
	ssize_t done;

	if (most)
		some = least(some, atol(most) - total);
	if (some == 0 && count > 0) {
		refuse(EIO);
		return -1;
	}
	done = syscall(call, file, bytes, piece ? least(some, atol(piece)) : some);
	if (most && done > 0)
		total += done;
	if (few && some < count && done == (ssize_t)some)
		refuse(0);
	return done;
}

ssize_t read(int file, void *bytes, size_t count)
{
	if (is_refused("read", EIO) || is_refused("interrupt", EINTR))
		return -1;
	return moved(SYS_read, "given", "short", file, bytes, count);
}

ssize_t write(int file, const void *bytes, size_t count)
{
	if (is_refused(file == 2 ? "message" : "write", EIO) || is_refused("interrupt", EINTR))
		return -1;
	if (file != 2 && is_refused("take", 0))
		return 0;
	return moved(SYS_write, file == 2 ? "none" : "room", "cut", file, (void *)bytes, count);
}

ssize_t __read(int file, void *bytes, size_t count) __attribute__((alias("read")));
ssize_t __write(int file, const void *bytes, size_t count) __attribute__((alias("write")));

int pthread_create(pthread_t *thread, const pthread_attr_t *how, void *(*start)(void *), void *value)
{
	int (*next)(pthread_t *, const pthread_attr_t *, void *(*)(void *), void *) = dlsym(RTLD_NEXT, "pthread_create");

	return is_refused("thread", EAGAIN) ? EAGAIN : next(thread, how, start, value);
}
