/* Texts that nest deep or hold many variables, read in a thread with a small stack; and many threads at once.
 *
 *     deep MOST PRINTED KIB
 *
 * A marker of MOST extras is asked, another of a fifth of them, and one of PRINTED is printed, by each command too; lists
 * have a fifth of MOST specifiers; threads have KIB of stack. The status is 0 where all was as it should be, and a line tells
 * of each that was not. */

#include "reqs.h"

#include <pthread.h>
#include <stdio.h>
#include <stdlib.h>
#include <string.h>

#define THREADS 4
#define TURNS 300
#define BOUNDS REQS_NO_BOUND, REQS_NO_BOUND

static int failed;

static void fails(const char *what, unsigned status) {
    printf("FAILED: %s: status %u\n", what, status);
    failed = 1;
}

struct text {
    uint8_t *bytes;
    size_t length;
};

static void add(struct text *to, const char *what) {
    size_t length = strlen(what);
    memcpy(to->bytes + to->length, what, length);
    to->length += length;
}

static struct text room(size_t bytes) {
    struct text made = {malloc(bytes), 0};
    if (made.bytes == NULL) {
        exit(2);
    }
    return made;
}

/* A comparison in so many brackets. */
static struct text nested(int depth) {
    struct text made = room(2 * (size_t)depth + 64);
    for (int i = 0; i < depth; i++) {
        add(&made, "(");
    }
    add(&made, "os_name == 'nt'");
    for (int i = 0; i < depth; i++) {
        add(&made, ")");
    }
    return made;
}

/* So many extras with `or` between them. */
static struct text extras(int count) {
    struct text made = room(32 * (size_t)count + 64);
    for (int i = 0; i < count; i++) {
        char one[48];
        snprintf(one, sizeof one, "%sextra == 'x%d'", i == 0 ? "" : " or ", i);
        add(&made, one);
    }
    return made;
}

static const char *MEMBERS =
    "\"implementation_name\":\"cpython\",\"implementation_version\":\"3.11.4\",\"os_name\":\"posix\","
    "\"platform_machine\":\"x86_64\",\"platform_python_implementation\":\"CPython\",\"platform_release\":\"5.4\","
    "\"platform_system\":\"Linux\",\"platform_version\":\"#1\",\"python_full_version\":\"3.11.4\","
    "\"python_version\":\"3.11\",\"sys_platform\":\"linux\"";

/* An environment with one more member, in which so many lists nest. */
static struct text environment(int depth) {
    struct text made = room(2 * (size_t)depth + 1024);
    add(&made, "{\"more\":");
    for (int i = 0; i < depth; i++) {
        add(&made, "[");
    }
    for (int i = 0; i < depth; i++) {
        add(&made, "]");
    }
    add(&made, ",");
    add(&made, MEMBERS);
    add(&made, "}");
    return made;
}

static void marker(const char *what, struct text text, unsigned wanted) {
    static uint8_t out[8 << 20];
    reqs_reply reply = reqs_marker(text.bytes, text.length, BOUNDS, out, sizeof out);
    if (reply.status != wanted) {
        fails(what, reply.status);
    }
    free(text.bytes);
}

static void hold(const char *what, struct text text, struct text environment, const char *extra, unsigned wanted,
                 char mark) {
    uint8_t out[1] = {'-'};
    reqs_reply reply = reqs_markers_hold(text.bytes, text.length, environment.bytes, environment.length,
                                         (const uint8_t *)extra, strlen(extra), out, 1);
    if (reply.status != wanted || (wanted == REQS_ANSWERED && out[0] != (uint8_t)mark)) {
        fails(what, reply.status);
    }
    free(text.bytes);
    free(environment.bytes);
}

/* A list of one line, which asks for so many extras. */
static struct text listed(int count) {
    struct text made = room(40 * (size_t)count + 64), marker = extras(count);
    add(&made, "a; ");
    memcpy(made.bytes + made.length, marker.bytes, marker.length);
    made.length += marker.length;
    free(marker.bytes);
    return made;
}

static void answered(const char *what, reqs_reply reply) {
    if (reply.status != REQS_ANSWERED || reply.length == 0) {
        fails(what, reply.status);
    }
}

/* Such a list where its line's own marker holds, in which nothing contradicts itself. */
static void assumed(struct text list, int count) {
    static uint8_t out[8 << 20];
    struct text marker = extras(count);
    answered("same where", reqs_same_where(list.bytes, list.length, list.bytes, list.length, marker.bytes, marker.length, 4096,
                                           REQS_NO_BOUND, REQS_NO_BOUND, REQS_NO_BOUND, out, sizeof out));
    answered("covers where", reqs_covers_where(list.bytes, list.length, list.bytes, list.length, marker.bytes, marker.length, 4096,
                                               REQS_NO_BOUND, REQS_NO_BOUND, REQS_NO_BOUND, out, sizeof out));
    reqs_reply reply = reqs_conflicts_where(list.bytes, list.length, marker.bytes, marker.length, 4096, REQS_NO_BOUND, REQS_NO_BOUND,
                                            out, sizeof out);
    if (reply.status != REQS_ANSWERED || reply.length != 0) {
        fails("conflicts where", reply.status);
    }
    free(marker.bytes);
}

/* Such a list through the commands, and its line as a requirement; nothing contradicts itself in it. */
static void commands(int count) {
    static uint8_t out[8 << 20];
    struct text list = listed(count), one = environment(1), where = room(one.length + 2);
    const uint8_t *candidates = (const uint8_t *)"a 1\n", *asked = (const uint8_t *)"x7\n";
    add(&where, "[");
    memcpy(where.bytes + 1, one.bytes, one.length);
    where.length += one.length;
    add(&where, "]");
    answered("check", reqs_check(list.bytes, list.length, one.bytes, one.length, candidates, 4, asked, 3, out, sizeof out));
    answered("matrix", reqs_matrix(list.bytes, list.length, where.bytes, where.length, candidates, 4, asked, 3, 4096, REQS_NO_BOUND,
                                   REQS_NO_BOUND, out, sizeof out));
    answered("same", reqs_same(list.bytes, list.length, list.bytes, list.length, 4096, REQS_NO_BOUND, REQS_NO_BOUND,
                               REQS_NO_BOUND, out, sizeof out));
    answered("covers", reqs_covers(list.bytes, list.length, list.bytes, list.length, 4096, REQS_NO_BOUND, REQS_NO_BOUND,
                                   REQS_NO_BOUND, out, sizeof out));
    answered("normal", reqs_normal(list.bytes, list.length, REQS_NO_BOUND, REQS_NO_BOUND, out, sizeof out));
    answered("check as JSON", reqs_check_json(list.bytes, list.length, one.bytes, one.length, candidates, 4, asked, 3, out,
                                              sizeof out));
    answered("matrix as JSON", reqs_matrix_json(list.bytes, list.length, where.bytes, where.length, candidates, 4, asked, 3, 4096,
                                                REQS_NO_BOUND, REQS_NO_BOUND, out, sizeof out));
    answered("same as JSON", reqs_same_json(list.bytes, list.length, list.bytes, list.length, 4096, REQS_NO_BOUND,
                                            REQS_NO_BOUND, REQS_NO_BOUND, out, sizeof out));
    answered("covers as JSON", reqs_covers_json(list.bytes, list.length, list.bytes, list.length, 4096, REQS_NO_BOUND,
                                                REQS_NO_BOUND, REQS_NO_BOUND, out, sizeof out));
    answered("conflicts as JSON", reqs_conflicts_json(list.bytes, list.length, 4096, REQS_NO_BOUND, REQS_NO_BOUND, out,
                                                      sizeof out));
    answered("normal as JSON", reqs_normal_json(list.bytes, list.length, REQS_NO_BOUND, REQS_NO_BOUND, out, sizeof out));
    answered("requirement", reqs_requirement(list.bytes, list.length, out, sizeof out));
    reqs_reply reply = reqs_conflicts(list.bytes, list.length, 4096, REQS_NO_BOUND, REQS_NO_BOUND, out, sizeof out);
    if (reply.status != REQS_ANSWERED || reply.length != 0) {
        fails("conflicts", reply.status);
    }
    assumed(list, count);
    free(list.bytes);
    free(one.bytes);
    free(where.bytes);
}

/* So many exclusions. */
static struct text exclusions(int count) {
    struct text made = room(16 * (size_t)count + 64);
    for (int i = 0; i < count; i++) {
        char one[24];
        snprintf(one, sizeof one, "%s!=%d", i == 0 ? "" : ",", i);
        add(&made, one);
    }
    return made;
}

static void says(const char *what, reqs_reply reply, const uint8_t *out, char wanted) {
    if (reply.status != REQS_ANSWERED || reply.length != 1 || out[0] != (uint8_t)wanted) {
        fails(what, reply.status);
    }
}

/* What markers of so many extras mean, and of as many as are printed what is made of them; and lists of exclusions as
 * ranges. */
static void meanings(int most, int printed) {
    static uint8_t out[1 << 20];
    struct text all = extras(most), some = extras(most / 5), few = extras(printed), list = exclusions(most / 5);
    const uint8_t *lower = (const uint8_t *)"3.8", *upper = (const uint8_t *)"3.9", *absent = (const uint8_t *)"y\n";
    answered("key", reqs_marker_key(all.bytes, all.length, REQS_NO_BOUND, out, sizeof out));
    says("truth", reqs_marker_truth(all.bytes, all.length, REQS_NO_BOUND, out, sizeof out), out, '-');
    says("disjoint", reqs_markers_disjoint(all.bytes, all.length, some.bytes, some.length, REQS_NO_BOUND, out, sizeof out), out, '0');
    says("implies", reqs_marker_implies(some.bytes, some.length, all.bytes, all.length, REQS_NO_BOUND, out, sizeof out), out, '1');
    answered("negated", reqs_marker_negated(few.bytes, few.length, BOUNDS, out, sizeof out));
    answered("python", reqs_marker_simplify_python(few.bytes, few.length, lower, 3, upper, 3, BOUNDS, out, sizeof out));
    answered("extras", reqs_marker_simplify_extras(few.bytes, few.length, absent, 2, BOUNDS, out, sizeof out));
    says("ranges disjoint", reqs_specifiers_disjoint(list.bytes, list.length, list.bytes, list.length, out, sizeof out), out,
         '0');
    says("subset", reqs_specifiers_subset(list.bytes, list.length, list.bytes, list.length, out, sizeof out), out, '1');
    says("empty", reqs_specifiers_empty(list.bytes, list.length, out, sizeof out), out, '0');
    free(all.bytes);
    free(some.bytes);
    free(few.bytes);
    free(list.bytes);
}

static int most, printed;

static void *deep(void *unused) {
    (void)unused;
    marker("256 brackets", nested(256), REQS_ANSWERED);
    marker("257 brackets", nested(257), REQS_REFUSED);
    marker("100,000 brackets", nested(100000), REQS_REFUSED);
    hold("JSON that nests 127 deep", nested(0), environment(126), "", REQS_ANSWERED, '0');
    hold("JSON that nests 129 deep", nested(0), environment(128), "", REQS_REFUSED, '-');
    hold("JSON that nests 100,000 deep", nested(0), environment(100000), "", REQS_REFUSED, '-');
    marker("extras that are printed", extras(printed), REQS_ANSWERED);
    hold("extras of which one is there", extras(most), environment(1), "x7\n", REQS_ANSWERED, '1');
    hold("extras of which none is there", extras(most / 5), environment(1), "y\n", REQS_ANSWERED, '0');
    commands(printed);
    meanings(most, printed);
    return NULL;
}

/* The same calls by each thread, which share nothing but the texts. */
static void *turns(void *number) {
    uint8_t out[256];
    for (int i = 0; i < TURNS; i++) {
        char text[64], wanted[64];
        int n = snprintf(text, sizeof text, "v1.%d.0-RC.%d", i, *(int *)number);
        snprintf(wanted, sizeof wanted, "1.%d.0rc%d", i, *(int *)number);
        reqs_reply reply = reqs_version((uint8_t *)text, (size_t)n, out, sizeof out);
        if (reply.status != REQS_ANSWERED || reply.length != strlen(wanted) || memcmp(out, wanted, reply.length) != 0) {
            fails("threads: a version", reply.status);
        }
        n = snprintf(text, sizeof text, "'a%d.%d'==os_name", i, *(int *)number);
        reply = reqs_marker((uint8_t *)text, (size_t)n, BOUNDS, out, sizeof out);
        n = snprintf(wanted, sizeof wanted, "os_name == 'a%d.%d'", i, *(int *)number);
        if (reply.status != REQS_ANSWERED || reply.length != (size_t)n || memcmp(out, wanted, reply.length) != 0) {
            fails("threads: a marker", reply.status);
        }
    }
    return NULL;
}

int main(int count, char **words) {
    if (count != 4) {
        return 2;
    }
    most = atoi(words[1]);
    printed = atoi(words[2]);
    size_t stack = (size_t)atol(words[3]) * 1024;
    pthread_attr_t small;
    pthread_t one, many[THREADS];
    int numbers[THREADS];
    if (pthread_attr_init(&small) != 0 || pthread_attr_setstacksize(&small, stack) != 0 ||
        pthread_create(&one, &small, deep, NULL) != 0 || pthread_join(one, NULL) != 0) {
        return 2;
    }
    for (int i = 0; i < THREADS; i++) {
        numbers[i] = i;
        if (pthread_create(&many[i], &small, turns, &numbers[i]) != 0) {
            return 2;
        }
    }
    for (int i = 0; i < THREADS; i++) {
        pthread_join(many[i], NULL);
    }
    return failed;
}
