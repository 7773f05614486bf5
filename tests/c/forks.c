/* Forks while threads make calls: in each child a call of each kind replies and writes as it did before there were threads.
 *
 *     forks MANY
 *
 * The process forks MANY times. A child that waits for a lock which no thread of its own holds is ended by an alarm. The status
 * is 0 where all was as it should be, and a line tells of what was not. */

#include "reqs.h"

#include <pthread.h>
#include <stdatomic.h>
#include <stdio.h>
#include <stdlib.h>
#include <string.h>
#include <sys/wait.h>
#include <unistd.h>

#define THREADS 4
#define ROOM 4096
#define SECONDS 600
#define MARKER "os_name == 'nt' or extra == 'a' and python_version < '3.8'"

#define TEXT(text) (const uint8_t *)(text), sizeof(text) - 1
#define OUT out, ROOM
#define BOUNDS REQS_NO_BOUND, REQS_NO_BOUND

static const char ENVIRONMENT[] =
    "{\"implementation_name\":\"cpython\",\"implementation_version\":\"3.11.4\",\"os_name\":\"posix\","
    "\"platform_machine\":\"x86_64\",\"platform_python_implementation\":\"CPython\",\"platform_release\":\"5.4\","
    "\"platform_system\":\"Linux\",\"platform_version\":\"#1\",\"python_full_version\":\"3.11.4\","
    "\"python_version\":\"3.11\",\"sys_platform\":\"linux\"}";
static const char REQUIREMENTS[] = "a>=1; os_name == 'posix'\nb @ file:///b ; extra == 'x'\n";
static char environments[sizeof ENVIRONMENT + 2];

static reqs_reply number(int64_t value) {
    reqs_reply reply = {0, 0, (size_t)value, 0, 0, 0};
    return reply;
}

static reqs_reply check(uint8_t *out) {
    return reqs_check(TEXT(REQUIREMENTS), TEXT(ENVIRONMENT), TEXT("a 1\na 2\n"), TEXT(""), OUT);
}

static reqs_reply matrix(uint8_t *out) {
    return reqs_matrix(TEXT(REQUIREMENTS), TEXT(environments), TEXT("a 1\na 2\n"), TEXT("x"), 4096, 1000, 1000, OUT);
}

static reqs_reply same(uint8_t *out) {
    return reqs_same(TEXT(REQUIREMENTS), TEXT("a>2\n"), 4096, 1000, 100, 1000, OUT);
}

static reqs_reply covers(uint8_t *out) {
    return reqs_covers(TEXT("a>2\n"), TEXT(REQUIREMENTS), 4096, 1000, 100, 1000, OUT);
}

static reqs_reply conflicts(uint8_t *out) {
    return reqs_conflicts(TEXT("a<1\na>2\n"), 4096, 1000, 1000, OUT);
}

static reqs_reply normal(uint8_t *out) {
    return reqs_normal(TEXT(REQUIREMENTS), 1000, 100, OUT);
}

static reqs_reply check_json(uint8_t *out) {
    return reqs_check_json(TEXT(REQUIREMENTS), TEXT(ENVIRONMENT), TEXT("a 1\na 2\n"), TEXT(""), OUT);
}

static reqs_reply matrix_json(uint8_t *out) {
    return reqs_matrix_json(TEXT(REQUIREMENTS), TEXT(environments), TEXT("a 1\na 2\n"), TEXT("x"), 4096, 1000, 1000, OUT);
}

static reqs_reply same_json(uint8_t *out) {
    return reqs_same_json(TEXT("a>2\n"), TEXT("a>2\nb; os_name == 'nt'\n"), 4096, 1000, 100, 1000, OUT);
}

static reqs_reply covers_json(uint8_t *out) {
    return reqs_covers_json(TEXT("a>2\n"), TEXT("a>2\nb; os_name == 'nt'\n"), 4096, 1000, 100, 1000, OUT);
}

static reqs_reply conflicts_json(uint8_t *out) {
    return reqs_conflicts_json(TEXT("a<1\na>2\n"), 4096, 1000, 1000, OUT);
}

static reqs_reply normal_json(uint8_t *out) {
    return reqs_normal_json(TEXT("A >= 1.0 ; os_name=='nt'\n"), 1000, 100, OUT);
}

static reqs_reply same_where(uint8_t *out) {
    return reqs_same_where(TEXT("a>2\n"), TEXT("a>2\nb; os_name == 'nt'\n"), TEXT(MARKER), 4096, 1000, 100, 1000, OUT);
}

static reqs_reply covers_where(uint8_t *out) {
    return reqs_covers_where(TEXT("a>2\n"), TEXT(REQUIREMENTS), TEXT(MARKER), 4096, 1000, 100, 1000, OUT);
}

static reqs_reply conflicts_where(uint8_t *out) {
    return reqs_conflicts_where(TEXT("a<1\na>2\n"), TEXT(MARKER), 4096, 1000, 1000, OUT);
}

static reqs_reply same_where_json(uint8_t *out) {
    return reqs_same_where_json(TEXT("a>2\n"), TEXT("a>2\nb; os_name == 'nt'\n"), TEXT(MARKER), 4096, 1000, 100, 1000, OUT);
}

static reqs_reply covers_where_json(uint8_t *out) {
    return reqs_covers_where_json(TEXT("a>2\n"), TEXT("a>2\nb; os_name == 'nt'\n"), TEXT("os_name =="), 4096, 1000, 100, 1000, OUT);
}

static reqs_reply conflicts_where_json(uint8_t *out) {
    return reqs_conflicts_where_json(TEXT("a<1\na>2\n"), TEXT("os_name == 'nt'"), 4096, 1000, 1000, OUT);
}

static reqs_reply version(uint8_t *out) {
    return reqs_version(TEXT("1.0-RC.1+a.b"), OUT);
}

static reqs_reply no_version(uint8_t *out) {
    return reqs_version(TEXT("1.0.*"), OUT);
}

static reqs_reply version_key(uint8_t *out) {
    return number(reqs_version_key(TEXT("1!2.0.0.0.5rc1"), OUT));
}

static reqs_reply version_order(uint8_t *out) {
    return reqs_version_order(TEXT("1.0.0.0.1"), TEXT("1.0.0.0.2+a"), OUT);
}

static reqs_reply specifiers(uint8_t *out) {
    return reqs_specifiers(TEXT("<2,>=1,!=1.5.*"), OUT);
}

static reqs_reply specifiers_take(uint8_t *out) {
    return reqs_specifiers_take(TEXT("<2,>=1"), TEXT("1.5\n3\nx\n"), OUT);
}

static reqs_reply specifiers_disjoint(uint8_t *out) {
    return reqs_specifiers_disjoint(TEXT("<2,!=1.5"), TEXT(">=2"), OUT);
}

static reqs_reply specifiers_subset(uint8_t *out) {
    return reqs_specifiers_subset(TEXT("~=1.2"), TEXT(">=1,!=3.*"), OUT);
}

static reqs_reply specifiers_empty(uint8_t *out) {
    return reqs_specifiers_empty(TEXT("<1,>2"), OUT);
}

static reqs_reply requirement(uint8_t *out) {
    return reqs_requirement(TEXT("A[b,c] >= 1, < 2 ; " MARKER), OUT);
}

static reqs_reply marker_check(uint8_t *out) {
    return reqs_marker_check(TEXT(MARKER), OUT);
}

static reqs_reply marker(uint8_t *out) {
    return reqs_marker(TEXT(MARKER), BOUNDS, OUT);
}

static reqs_reply no_marker(uint8_t *out) {
    return reqs_marker(TEXT("os_name == 'nt' or"), BOUNDS, OUT);
}

static reqs_reply too_many_nodes(uint8_t *out) {
    return reqs_marker(TEXT(MARKER), 1, REQS_NO_BOUND, OUT);
}

static reqs_reply marker_key(uint8_t *out) {
    return reqs_marker_key(TEXT(MARKER), REQS_NO_BOUND, OUT);
}

static reqs_reply marker_truth(uint8_t *out) {
    return reqs_marker_truth(TEXT(MARKER), REQS_NO_BOUND, OUT);
}

static reqs_reply markers_disjoint(uint8_t *out) {
    return reqs_markers_disjoint(TEXT(MARKER), TEXT("os_name == 'posix' and extra != 'a'"), REQS_NO_BOUND, OUT);
}

static reqs_reply marker_implies(uint8_t *out) {
    return reqs_marker_implies(TEXT("os_name == 'nt'"), TEXT(MARKER), REQS_NO_BOUND, OUT);
}

static reqs_reply marker_negated(uint8_t *out) {
    return reqs_marker_negated(TEXT(MARKER), BOUNDS, OUT);
}

static reqs_reply marker_simplify_python(uint8_t *out) {
    return reqs_marker_simplify_python(TEXT(MARKER), TEXT("3.7"), TEXT("3.9"), BOUNDS, OUT);
}

static reqs_reply marker_simplify_extras(uint8_t *out) {
    return reqs_marker_simplify_extras(TEXT(MARKER), TEXT("a\n"), BOUNDS, OUT);
}

static reqs_reply markers_hold(uint8_t *out) {
    return reqs_markers_hold(TEXT(MARKER "\nx\n"), TEXT(ENVIRONMENT), TEXT("a\n"), OUT);
}

/* Each call of the header that takes memory, of which four are refused. */
static reqs_reply (*const CALLS[])(uint8_t *) = {
    check, matrix, same, covers, conflicts, normal, check_json, matrix_json, same_json, covers_json, conflicts_json,
    normal_json, same_where, covers_where, conflicts_where, same_where_json, covers_where_json, conflicts_where_json,
    version, no_version, version_key, version_order, specifiers, specifiers_take, specifiers_disjoint, specifiers_subset,
    specifiers_empty, requirement, marker_check, marker, no_marker, too_many_nodes, marker_key, marker_truth, markers_disjoint, marker_implies,
    marker_negated, marker_simplify_python, marker_simplify_extras, markers_hold};
#define COUNT (sizeof CALLS / sizeof *CALLS)

static struct {
    reqs_reply reply;
    uint8_t out[ROOM];
} wanted[COUNT];

/* What a call replies and writes; the bytes of reqs_reply are all those of its members. */
static int is_as_wanted(size_t call, uint8_t *out) {
    memset(out, 0xA5, ROOM);
    reqs_reply reply = CALLS[call](out);
    return memcmp(&reply, &wanted[call].reply, sizeof reply) == 0 && memcmp(out, wanted[call].out, ROOM) == 0;
}

/* The first call that is not as wanted, from 1; 0 where all are. */
static int first_fault(void) {
    uint8_t out[ROOM];
    for (size_t call = 0; call < COUNT; call++) {
        if (!is_as_wanted(call, out)) {
            return (int)call + 1;
        }
    }
    return 0;
}

static atomic_int stopped, fault;

static void *turns(void *unused) {
    (void)unused;
    while (!atomic_load(&stopped)) {
        int found = first_fault();
        if (found != 0) {
            atomic_store(&fault, found);
        }
    }
    return NULL;
}

/* Forks once: 0 where the child's calls are as wanted. */
static int fork_once(void) {
    int status;
    pid_t child = fork();
    if (child < 0) {
        return 1;
    }
    if (child == 0) {
        alarm(SECONDS);
        _exit(first_fault());
    }
    if (waitpid(child, &status, 0) != child || status != 0) {
        printf("FAILED: a child's status is %d, its call %d\n", status, WIFEXITED(status) ? WEXITSTATUS(status) : 0);
        return 1;
    }
    return 0;
}

int main(int count, char **words) {
    pthread_t threads[THREADS];
    int failed = 0, many = count == 2 ? atoi(words[1]) : 0;
    if (many <= 0) {
        return 2;
    }
    snprintf(environments, sizeof environments, "[%s]", ENVIRONMENT);
    for (size_t call = 0; call < COUNT; call++) {
        memset(wanted[call].out, 0xA5, ROOM);
        wanted[call].reply = CALLS[call](wanted[call].out);
        if (wanted[call].reply.status == REQS_MEMORY) {
            return 2;
        }
    }
    for (int i = 0; i < THREADS; i++) {
        if (pthread_create(&threads[i], NULL, turns, NULL) != 0) {
            return 2;
        }
    }
    for (int i = 0; i < many && !failed; i++) {
        failed = fork_once();
    }
    atomic_store(&stopped, 1);
    for (int i = 0; i < THREADS; i++) {
        pthread_join(threads[i], NULL);
    }
    if (atomic_load(&fault) != 0) {
        printf("FAILED: threads: call %d\n", atomic_load(&fault));
        failed = 1;
    }
    return failed;
}
