/* The C library's open and read, for tests of what the programs do where the system fails. Loaded before it (LD_PRELOAD).
 *
 * FAIL_FILE names the file the tests are about: key.bin, font.bin, or - for standard input. Its reads go by FAIL_PLAN, a word for each
 * call, words parted by blanks:
 *   a number N   at most N bytes, as the file has them (a short read)
 *   e            an error (EIO)
 *   i            interrupted before a byte came (EINTR)
 *   z            0, the end of the file
 * The last word holds for every further call. FAIL_OPEN names a file that can't be opened. */
#define _GNU_SOURCE
#include <dlfcn.h>
#include <errno.h>
#include <fcntl.h>
#include <stdarg.h>
#include <stdlib.h>
#include <string.h>
#include <sys/types.h>
#include <unistd.h>

enum { NOT_OPEN = -1 };

static int watched = NOT_OPEN;
static const char *plan;

static int named(const char *variable, const char *path)
{
	const char *name = getenv(variable);

	return name != NULL && strcmp(name, path) == 0;
}

/* A number that was the watched file's may come again for another file. */
static int opened(int fd, const char *path)
{
	if (named("FAIL_FILE", path))
		watched = fd;
	else if (fd == watched)
		watched = NOT_OPEN;
	return fd;
}

int open(const char *path, int flags, ...)
{
	int (*next)(const char *, int, ...) = dlsym(RTLD_NEXT, "open");
	va_list rest;
	mode_t mode;

	va_start(rest, flags);
	mode = (flags & O_CREAT) != 0 ? va_arg(rest, mode_t) : 0;
	va_end(rest);
	if (named("FAIL_OPEN", path)) {
		errno = EACCES;
		return -1;
	}
	return opened(next(path, flags, mode), path);
}

/* The plan's next word; the last one stays. */
static const char *next_word(void)
{
	static char word[16];
	size_t n;

	if (plan == NULL)
		plan = getenv("FAIL_PLAN");
	n = strcspn(plan, " ");
	if (n >= sizeof word)
		abort();
	memcpy(word, plan, n);
	word[n] = '\0';
	if (plan[n] == ' ')
		plan += n + 1;
	return word;
}

static ssize_t failed(int error)
{
	errno = error;
	return -1;
}

ssize_t read(int fd, void *buf, size_t count)
{
	ssize_t (*next)(int, void *, size_t) = dlsym(RTLD_NEXT, "read");
	const char *word;
	size_t most;

	if (watched == NOT_OPEN && named("FAIL_FILE", "-"))
		watched = STDIN_FILENO;
	if (fd != watched)
		return next(fd, buf, count);
	word = next_word();
	switch (word[0]) {
	case 'e':
		return failed(EIO);
	case 'i':
		return failed(EINTR);
	case 'z':
		return 0;
	default:
		most = strtoul(word, NULL, 10);
		return next(fd, buf, most < count ? most : count);
	}
}
