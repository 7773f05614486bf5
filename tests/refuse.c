/* Refuses memory to a program: preloaded, it stands before the C library's calls for memory.
 *
 * REFUSE_FIRST=N and REFUSE_LAST=M in the environment: the Nth request of the process is refused, and those
 * after it up to the Mth. Once a request is refused a byte is written to the file descriptor REFUSE_TOLD. The
 * requests of the dynamic loader, which come before the program begins, aren't seen.
 *
 * REFUSE_EACH=D in place of REFUSE_FIRST: each request up to the Mth is refused once, and once more with all after it. At
 * each the process is forked for either, so that nothing before it is done again. What came of each such run, and of the
 * one without a refusal, is appended to the file descriptor D: a `struct ended`, standard output, standard error.
 *
 * A process that goes on after a refusal calls `refuse_within`: of the requests of code between two addresses, which are
 * counted from 1 again, those from the first to the last are refused. `refuse_seen` says how many there were since. */

#define _GNU_SOURCE
#include <errno.h>
#include <fcntl.h>
#include <stddef.h>
#include <stdint.h>
#include <stdio.h>
#include <stdlib.h>
#include <sys/mman.h>
#include <sys/sendfile.h>
#include <sys/stat.h>
#include <sys/wait.h>
#include <unistd.h>

extern void *__libc_malloc(size_t);
extern void *__libc_calloc(size_t, size_t);
extern void *__libc_realloc(void *, size_t);
extern void *__libc_memalign(size_t, size_t);

/* In place of a descriptor, where nobody waits to be told. */
#define UNTOLD (-1)

/* How many files a program that is forked may have open, and how many seconds one of its runs may take. */
#define MOST_OPEN 64
#define SECONDS 600

/* How a run ended in which requests from the first to the last were refused, or none where the first is 0. */
struct ended {
    uint64_t first, last;
    int64_t status;
    uint64_t output, errors;
};

static unsigned long first, last, requests;
static uintptr_t lowest, highest = UINTPTR_MAX;
static int told;
/* The descriptor to which is told what came of each request, or 0. */
static int each;

static unsigned long number(const char *name) {
    const char *text = getenv(name);
    return text ? strtoul(text, NULL, 10) : 0;
}

static void want(int holds) {
    if (!holds) {
        _exit(98);
    }
}

/* A file in memory with what was written to a descriptor so far, where that is such a file. */
static int copied(int of) {
    struct stat about;
    off_t at = 0;
    int made = memfd_create("copied", 0);
    want(made >= 0 && fstat(of, &about) == 0);
    while (S_ISREG(about.st_mode) && at < about.st_size) {
        want(sendfile(made, of, &at, (size_t)(about.st_size - at)) > 0);
    }
    return made;
}

/* Appends what a file in memory has. */
static void append(int of, uint64_t length) {
    off_t at = 0;
    while ((uint64_t)at < length) {
        want(sendfile(each, of, &at, (size_t)(length - (uint64_t)at)) > 0);
    }
}

/* Gives this process its own places in the files that it reads. */
static void part_from_files(void) {
    struct stat about;
    char path[32];
    for (int it = STDERR_FILENO + 1; it < MOST_OPEN; it++) {
        if (it == each || fstat(it, &about) != 0 || !S_ISREG(about.st_mode)) {
            continue;
        }
        snprintf(path, sizeof path, "/proc/self/fd/%d", it);
        int own = open(path, O_RDONLY);
        want(own >= 0 && lseek(own, lseek(it, 0, SEEK_CUR), SEEK_SET) >= 0 && dup2(own, it) == it);
        close(own);
    }
}

/* Forks: returns 0 in the new process, which writes to files of its own; and 1 in the other, once it is told how that ended. */
static int has_tried(unsigned long from, unsigned long to) {
    int output = copied(STDOUT_FILENO), errors = copied(STDERR_FILENO), status = 0;
    struct stat about;
    pid_t child = fork();
    want(child >= 0);
    if (child == 0) {
        want(dup2(output, STDOUT_FILENO) == STDOUT_FILENO && dup2(errors, STDERR_FILENO) == STDERR_FILENO);
        close(output);
        close(errors);
        part_from_files();
        return 0;
    }
    want(waitpid(child, &status, 0) == child);
    struct ended ended = {from, to, WIFEXITED(status) ? WEXITSTATUS(status) : -WTERMSIG(status), 0, 0};
    want(fstat(output, &about) == 0);
    ended.output = (uint64_t)about.st_size;
    want(fstat(errors, &about) == 0);
    ended.errors = (uint64_t)about.st_size;
    want(write(each, &ended, sizeof ended) == sizeof ended);
    append(output, ended.output);
    append(errors, ended.errors);
    close(output);
    close(errors);
    return 1;
}

__attribute__((constructor)) static void begin(void) {
    told = (int)number("REFUSE_TOLD");
    first = number("REFUSE_FIRST");
    last = number("REFUSE_LAST");
    each = (int)number("REFUSE_EACH");
    if (each && has_tried(0, 0)) {
        _exit(0);
    }
}

/* Whether this process is one of those in which this request is refused; the other has heard how they ended. */
static int is_refused_once(void) {
    unsigned long ends[] = {requests, UINT64_MAX};
    for (int it = 0; it < 2; it++) {
        if (!has_tried(requests, ends[it])) {
            first = requests;
            last = ends[it];
            each = 0;
            alarm(SECONDS);
            return 1;
        }
    }
    return 0;
}

void refuse_within(uintptr_t from, uintptr_t to, unsigned long first_request, unsigned long last_request) {
    told = UNTOLD;
    lowest = from;
    highest = to;
    requests = 0;
    first = first_request;
    last = last_request;
}

unsigned long refuse_seen(void) {
    return requests;
}

/* Whether this request, of the code at an address, is refused. */
static int refused(void *caller) {
    if ((uintptr_t)caller < lowest || (uintptr_t)caller > highest) {
        return 0;
    }
    requests += 1;
    if (each) {
        int before = errno, is_one = requests <= last && is_refused_once();
        errno = is_one ? ENOMEM : before;
        return is_one;
    }
    if (first == 0 || requests < first || requests > last) {
        return 0;
    }
    if (requests == first && told != UNTOLD && write(told, "r", 1) != 1) {
        _exit(99);
    }
    errno = ENOMEM;
    return 1;
}

void *malloc(size_t size) {
    return refused(__builtin_return_address(0)) ? NULL : __libc_malloc(size);
}

void *calloc(size_t count, size_t size) {
    return refused(__builtin_return_address(0)) ? NULL : __libc_calloc(count, size);
}

void *realloc(void *old, size_t size) {
    return refused(__builtin_return_address(0)) ? NULL : __libc_realloc(old, size);
}

void *memalign(size_t boundary, size_t size) {
    return refused(__builtin_return_address(0)) ? NULL : __libc_memalign(boundary, size);
}

void *aligned_alloc(size_t boundary, size_t size) {
    return memalign(boundary, size);
}

int posix_memalign(void **made, size_t boundary, size_t size) {
    void *found = memalign(boundary, size);
    if (found == NULL) {
        return ENOMEM;
    }
    *made = found;
    return 0;
}
