// Preloaded into a program by failing-ends.py. It counts the reads of standard input and the writes to standard output,
// in the 16 bytes of the file COUNTED. The read of the number FAILING_READ fails, and so does the write of the number
// FAILING_WRITE; both count from 1. With NOTHING that write takes no byte instead; with SHORT each takes one byte.
#include <errno.h>
#include <fcntl.h>
#include <stdlib.h>
#include <sys/mman.h>
#include <sys/syscall.h>
#include <unistd.h>

static long *counted;	// reads, writes
static long failing[2];
static int nothing, at_most_one;

static long number_in(const char *name)
{
	const char *text = getenv(name);

	return text == NULL ? 0 : atol(text);
}

__attribute__((constructor)) static void begin(void)
{
	int file = open(getenv("COUNTED"), O_RDWR);
	void *page = mmap(NULL, 2 * sizeof *counted, PROT_READ | PROT_WRITE, MAP_SHARED, file, 0);

	if (file < 0 || page == MAP_FAILED)
		_exit(99);
	close(file);
	failing[0] = number_in("FAILING_READ");
	failing[1] = number_in("FAILING_WRITE");
	nothing = getenv("NOTHING") != NULL;
	at_most_one = getenv("SHORT") != NULL;
	counted = page;
}

// Whether this read, or this write, is the one that fails; and how many bytes it takes else.
static int fails(int end, size_t *size)
{
	if (++counted[end] == failing[end])
		return 1;
	if (at_most_one && *size > 1)
		*size = 1;
	return 0;
}

ssize_t read(int file, void *bytes, size_t size)
{
	if (file == 0 && fails(0, &size)) {
		errno = EIO;
		return -1;
	}
	return syscall(SYS_read, file, bytes, size);
}

ssize_t write(int file, const void *bytes, size_t size)
{
	if (file == 1 && fails(1, &size)) {
		errno = ENOSPC;
		return nothing ? 0 : -1;
	}
	return syscall(SYS_write, file, bytes, size);
}
