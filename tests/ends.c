/* Makes a program's reads and writes fail, be interrupted or come in pieces: preloaded, it stands before the C library's
 * `read` and `write`, where the program's name begins with `reqs`.
 *
 * ENDS_COUNTS names a file of COUNTS numbers of 8 bytes, which it counts in: how often each input was read, by the order of
 * their first reads; how often an input was read after its end or after it failed; how often standard output was written.
 *
 * ENDS_READ="INPUT FIRST LAST KIND SIZE PATH": what becomes of the reads from FIRST to LAST of the input of that number, or
 * of each input where it is 0. KIND is
 *     pieces  at most SIZE bytes are read
 *     fail    the read fails as of a damaged disk
 *     stop    it is interrupted
 *     cut     the file PATH is cut to SIZE bytes before the read
 *     grow    SIZE bytes, which are lines of comments, are put at the end of the file PATH before the read
 * Several such rules have `;` between them; of those that fit a read the first but `pieces` counts, and each `pieces`.
 *
 * ENDS_WRITE="ROOM PIECE PAUSE": standard output takes ROOM bytes and is full then, at most PIECE bytes at a time, 0 of them
 * too, and is interrupted PAUSE times before each write. */

#define _GNU_SOURCE
#include <errno.h>
#include <fcntl.h>
#include <stdint.h>
#include <stdlib.h>
#include <string.h>
#include <stdio.h>
#include <sys/mman.h>
#include <sys/syscall.h>
#include <unistd.h>

#define COUNTS 8
#define INPUTS 3
#define RULES 4
#define AFTER_END 4
#define WRITES 5
#define LINE 64
#define GROWTH 16384

struct rule {
    unsigned long input, first, last, size;
    char kind[8], path[64];
    /* The first letter of its kind. */
    char does;
};

static struct rule rules[RULES];
static int rule_count, is_on, limits_output;
static unsigned long room, piece, pause_before, paused;
/* The descriptors of the inputs, and whether each has ended. */
static int inputs[INPUTS], has_ended[INPUTS], input_count;
static uint64_t *counts;

__attribute__((constructor)) static void begin(void) {
    const char *read_rules = getenv("ENDS_READ"), *write_rule = getenv("ENDS_WRITE"), *path = getenv("ENDS_COUNTS");
    if (strncmp(program_invocation_short_name, "reqs", 4) != 0 || path == NULL) {
        return;
    }
    int file = open(path, O_RDWR);
    counts = mmap(NULL, COUNTS * sizeof *counts, PROT_READ | PROT_WRITE, MAP_SHARED, file, 0);
    if (file < 0 || counts == MAP_FAILED) {
        _exit(99);
    }
    close(file);
    while (read_rules != NULL && *read_rules != 0 && rule_count < RULES) {
        struct rule *it = &rules[rule_count];
        if (sscanf(read_rules, "%lu %lu %lu %7s %lu %63[^;]", &it->input, &it->first, &it->last, it->kind, &it->size, it->path) < 5) {
            _exit(98);
        }
        it->does = it->kind[0];
        rule_count += 1;
        read_rules = strchr(read_rules, ';');
        read_rules += read_rules != NULL;
    }
    if (write_rule != NULL) {
        if (sscanf(write_rule, "%lu %lu %lu", &room, &piece, &pause_before) != 3) {
            _exit(97);
        }
        limits_output = 1;
    }
    is_on = 1;
}

static int fails(int error) {
    errno = error;
    return -1;
}

/* The number of the input that is read, from 0. */
static int input_of(int descriptor) {
    for (int i = 0; i < input_count; i++) {
        if (inputs[i] == descriptor) {
            return i;
        }
    }
    if (input_count == INPUTS) {
        _exit(96);
    }
    inputs[input_count] = descriptor;
    return input_count++;
}

/* Puts lines of comments at the end of a file. */
static void grow(const char *path, size_t size) {
    static char lines[GROWTH];
    for (size_t i = 0; i < sizeof lines; i++) {
        lines[i] = i % LINE == LINE - 1 ? '\n' : '#';
    }
    int file = open(path, O_WRONLY | O_APPEND);
    if (size > sizeof lines || syscall(SYS_write, file, lines, size) != (long)size) {
        _exit(95);
    }
    close(file);
}

/* The rule that a read meets, if there is one, and how many bytes it may have. */
static const struct rule *rule_for(int input, size_t *count) {
    const struct rule *found = NULL;
    for (int i = 0; i < rule_count; i++) {
        const struct rule *it = &rules[i];
        int fits = (it->input == 0 || it->input == (unsigned long)input + 1) && counts[input] >= it->first && counts[input] <= it->last;
        if (fits && it->does == 'p') {
            *count = *count < it->size ? *count : it->size;
        } else if (fits && found == NULL) {
            found = it;
        }
    }
    return found;
}

ssize_t read(int descriptor, void *to, size_t count) {
    if (!is_on) {
        return syscall(SYS_read, descriptor, to, count);
    }
    int input = input_of(descriptor);
    counts[input] += 1;
    counts[AFTER_END] += (uint64_t)has_ended[input];
    const struct rule *rule = rule_for(input, &count);
    if (rule != NULL && rule->does == 's') {
        return fails(EINTR);
    }
    if (rule != NULL && rule->does == 'f') {
        has_ended[input] = 1;
        return fails(EIO);
    }
    if (rule != NULL && rule->does == 'c' && truncate(rule->path, (off_t)rule->size) != 0) {
        _exit(94);
    }
    if (rule != NULL && rule->does == 'g') {
        grow(rule->path, rule->size);
    }
    ssize_t got = syscall(SYS_read, descriptor, to, count);
    has_ended[input] |= got <= 0;
    return got;
}

ssize_t write(int descriptor, const void *from, size_t count) {
    if (!is_on || descriptor != 1) {
        return syscall(SYS_write, descriptor, from, count);
    }
    counts[WRITES] += 1;
    if (!limits_output) {
        return syscall(SYS_write, descriptor, from, count);
    }
    if (paused < pause_before) {
        paused += 1;
        return fails(EINTR);
    }
    paused = 0;
    if (room == 0) {
        return fails(ENOSPC);
    }
    count = count < piece ? count : piece;
    count = count < room ? count : room;
    ssize_t gone = count > 0 ? syscall(SYS_write, descriptor, from, count) : 0;
    room -= gone > 0 ? (unsigned long)gone : 0;
    return gone;
}
