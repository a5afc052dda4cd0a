// Preloaded into the program by refused-memory.py. It counts what is asked of the allocator, in the 8 bytes of the file
// COUNTED, and refuses the request of the number REFUSED, counted from 1; with ONWARDS all requests from that one on.
#include <errno.h>
#include <fcntl.h>
#include <stdatomic.h>
#include <stddef.h>
#include <stdlib.h>
#include <sys/mman.h>
#include <unistd.h>

extern void *__libc_malloc(size_t);
extern void *__libc_calloc(size_t, size_t);
extern void *__libc_realloc(void *, size_t);
extern void *__libc_memalign(size_t, size_t);

static _Atomic long *asked;
static long refused;
static int onwards;

__attribute__((constructor)) static void begin(void)
{
	int file = open(getenv("COUNTED"), O_RDWR);
	void *page = mmap(NULL, sizeof *asked, PROT_READ | PROT_WRITE, MAP_SHARED, file, 0);

	if (file < 0 || page == MAP_FAILED)
		_exit(99);
	close(file);
	refused = atol(getenv("REFUSED"));
	onwards = getenv("ONWARDS") != NULL;
	asked = page;
}

// Whether this request is refused.
static int refuse(void)
{
	long number;

	if (asked == NULL)
		return 0;
	number = ++*asked;
	if (number != refused && !(onwards && number > refused))
		return 0;
	errno = ENOMEM;
	return 1;
}

void *malloc(size_t size) { return refuse() ? NULL : __libc_malloc(size); }
void *calloc(size_t count, size_t size) { return refuse() ? NULL : __libc_calloc(count, size); }
void *realloc(void *old, size_t size) { return refuse() ? NULL : __libc_realloc(old, size); }
void *memalign(size_t alignment, size_t size) { return refuse() ? NULL : __libc_memalign(alignment, size); }
void *aligned_alloc(size_t alignment, size_t size) { return memalign(alignment, size); }

int posix_memalign(void **made, size_t alignment, size_t size)
{
	void *block = memalign(alignment, size);

	if (block == NULL)
		return ENOMEM;
	*made = block;
	return 0;
}
