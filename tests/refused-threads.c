// Preloaded into the program by refused-threads.py. It counts the threads that are asked for, in the first 8 bytes of the
// file COUNTED, and those that it refuses, in the next 8: that of the number REFUSED, counted from 1, and with ONWARDS
// all from that one on. With LATE each thread that is made begins so many milliseconds later.
#define _GNU_SOURCE
#include <dlfcn.h>
#include <errno.h>
#include <fcntl.h>
#include <pthread.h>
#include <stdatomic.h>
#include <stdlib.h>
#include <sys/mman.h>
#include <unistd.h>

typedef int making(pthread_t *, const pthread_attr_t *, void *(*)(void *), void *);

struct work {
	void *(*begin)(void *);
	void *with;
};

static _Atomic long *counts;
static making *make;
static long refused, late;
static int onwards;

__attribute__((constructor)) static void begin(void)
{
	int file = open(getenv("COUNTED"), O_RDWR);
	void *page = mmap(NULL, 2 * sizeof *counts, PROT_READ | PROT_WRITE, MAP_SHARED, file, 0);

	if (file < 0 || page == MAP_FAILED)
		_exit(99);
	close(file);
	make = (making *)dlsym(RTLD_NEXT, "pthread_create");
	refused = atol(getenv("REFUSED"));
	onwards = getenv("ONWARDS") != NULL;
	late = getenv("LATE") == NULL ? 0 : atol(getenv("LATE"));
	counts = page;
}

static void *begin_late(void *given)
{
	struct work work = *(struct work *)given;

	free(given);
	usleep(late * 1000);
	return work.begin(work.with);
}

int pthread_create(pthread_t *thread, const pthread_attr_t *attributes, void *(*begin)(void *), void *with)
{
	long number = ++counts[0];
	struct work *work;

	if (number == refused || (onwards && number > refused)) {
		++counts[1];
		return EAGAIN;
	}
	if (late == 0)
		return make(thread, attributes, begin, with);
	work = malloc(sizeof *work);
	if (work == NULL)
		return EAGAIN;
	*work = (struct work){begin, with};
	return make(thread, attributes, begin_late, work);
}
