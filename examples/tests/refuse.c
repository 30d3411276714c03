// Loaded before the C library (LD_PRELOAD): counts a program's growths of memory, the threads that it starts, the connections
// that it takes and what it sends, and refuses those that a file says, which REFUSE names and which may change while the
// program runs. It has three numbers of 64 bits for each kind: how many there were, the first to be refused, and how many from
// there on. A connection is refused for each of the reasons in turn that a listener has to live with; of what is sent only the
// first byte is taken.
#define _GNU_SOURCE
#include <dlfcn.h>
#include <errno.h>
#include <fcntl.h>
#include <pthread.h>
#include <stdatomic.h>
#include <stdlib.h>
#include <sys/mman.h>
#include <sys/socket.h>
#include <sys/stat.h>
#include <unistd.h>

struct control {
    atomic_ulong count, first, many;
};

static struct control *growths, *threads, *accepts, *sends;
static void *(*next_malloc)(size_t), *(*next_calloc)(size_t, size_t), *(*next_realloc)(void *, size_t);
static void *(*next_aligned)(size_t, size_t);
static int (*next_posix)(void **, size_t, size_t);
static int (*next_thread)(pthread_t *, const pthread_attr_t *, void *(*)(void *), void *);
static int (*next_accept)(int, struct sockaddr *, socklen_t *, int);
static ssize_t (*next_write)(int, const void *, size_t);
static ssize_t (*next_send)(int, const void *, size_t, int);
// What dlsym itself asks for before calloc is found.
static char early[65536];
static size_t used;

static void find(void) {
    next_malloc = dlsym(RTLD_NEXT, "malloc");
    next_calloc = dlsym(RTLD_NEXT, "calloc");
    next_realloc = dlsym(RTLD_NEXT, "realloc");
    next_aligned = dlsym(RTLD_NEXT, "aligned_alloc");
    next_posix = dlsym(RTLD_NEXT, "posix_memalign");
    next_thread = dlsym(RTLD_NEXT, "pthread_create");
    next_accept = dlsym(RTLD_NEXT, "accept4");
    next_write = dlsym(RTLD_NEXT, "write");
    next_send = dlsym(RTLD_NEXT, "send");
}

__attribute__((constructor)) static void begin(void) {
    if (!next_malloc) find();
    const char *name = getenv("REFUSE");
    int file = name ? open(name, O_RDWR) : -1;
    if (file < 0) return;
    struct control *all = mmap(0, 4 * sizeof *all, PROT_READ | PROT_WRITE, MAP_SHARED, file, 0);
    close(file);
    if (all == MAP_FAILED) return;
    sends = all + 3;
    accepts = all + 2;
    threads = all + 1;
    growths = all;
}

// The how manieth of those that are refused it is, or 0 where it isn't.
static unsigned long is_refused(struct control *control) {
    if (!control) return 0;
    unsigned long nth = atomic_fetch_add(&control->count, 1) + 1;
    unsigned long first = atomic_load(&control->first);
    return first && nth >= first && nth - first < atomic_load(&control->many) ? nth - first + 1 : 0;
}

static int no_memory(void) {
    if (!is_refused(growths)) return 0;
    errno = ENOMEM;
    return 1;
}

void *malloc(size_t size) {
    if (!next_malloc) find();
    return no_memory() ? 0 : next_malloc(size);
}

void *calloc(size_t count, size_t size) {
    if (!next_calloc) {
        void *at = early + used;
        used += (count * size + 15) & ~15ul;
        return used > sizeof early ? 0 : at;
    }
    return no_memory() ? 0 : next_calloc(count, size);
}

void *realloc(void *old, size_t size) {
    if (!next_realloc) find();
    return no_memory() ? 0 : next_realloc(old, size);
}

void *aligned_alloc(size_t alignment, size_t size) {
    if (!next_aligned) find();
    return no_memory() ? 0 : next_aligned(alignment, size);
}

int posix_memalign(void **at, size_t alignment, size_t size) {
    if (!next_posix) find();
    return no_memory() ? ENOMEM : next_posix(at, alignment, size);
}

int pthread_create(pthread_t *thread, const pthread_attr_t *how, void *(*work)(void *), void *given) {
    if (!next_thread) find();
    return is_refused(threads) ? EAGAIN : next_thread(thread, how, work, given);
}

int accept4(int listener, struct sockaddr *from, socklen_t *length, int flags) {
    static const int reasons[] = {EINTR, ECONNABORTED, EMFILE, ENFILE, ENOBUFS, ENOMEM, EPROTO};
    if (!next_accept) find();
    unsigned long nth = is_refused(accepts);
    if (!nth) return next_accept(listener, from, length, flags);
    errno = reasons[(nth - 1) % (sizeof reasons / sizeof *reasons)];
    return -1;
}

int accept(int listener, struct sockaddr *from, socklen_t *length) {
    return accept4(listener, from, length, 0);
}

// How much of what goes to a connection is taken.
static size_t taken(int file, size_t length) {
    struct stat is;
    if (length < 2 || fstat(file, &is) || !S_ISSOCK(is.st_mode)) return length;
    return is_refused(sends) ? 1 : length;
}

ssize_t write(int file, const void *from, size_t length) {
    if (!next_write) find();
    return next_write(file, from, taken(file, length));
}

ssize_t send(int file, const void *from, size_t length, int flags) {
    if (!next_send) find();
    return next_send(file, from, taken(file, length), flags);
}
