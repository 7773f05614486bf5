/* Makes each of the library's calls on odd texts, and judges what is replied.
 *
 *     fuzz CORPUS CURRENT SEED SECONDS
 *
 * CORPUS has requests as serve.c reads them. Each is made once; then, while there is time, round after round takes one of them,
 * changes its texts by what SEED and the number of the round draw, and makes it. Where a command's text is asked its JSON is too.
 * Each text ends where the next page can't be read, and so does the room for the answer, so that a byte too many ends the
 * process. CURRENT is a file that has the request that is being made. A line tells of what was not as it should be, and then the
 * status is 1. */

#include "calls.h"

#include <fcntl.h>
#include <signal.h>
#include <stdio.h>
#include <stdlib.h>
#include <string.h>
#include <sys/mman.h>
#include <time.h>
#include <unistd.h>

#define TEXTS 4
#define PAGE 4096
#define SPACE 16384
#define MOST_REQUESTS 4096
/* No text grows longer than this, nor a marker than that: what is printed of one is read again without a bound. */
#define MOST_TEXT 700
#define MOST_MARKER 480
#define MOST_LIMIT 64
#define MOST_NODES 20000
#define MOST_CLAUSES 2000
#define MOST_CASES 256
#define HEAD (7 * sizeof(uint64_t))
#define HANGS 600
#define WAS 0xA5

struct request {
    uint64_t which;
    struct bounds most;
    uint64_t room, count, size[TEXTS];
    const uint8_t *text[TEXTS];
};

static struct request requests[MOST_REQUESTS];
static size_t request_count;
static uint8_t *fenced[TEXTS], *fenced_out, *current;
static uint64_t state, round_number, ended[4];

static const char *const TOKENS[] = {
    "18446744073709551615", "18446744073709551616", "1000000000000000000000000000000", "000", "0!", ".*", "+", ".post", ".dev", "a", "rc",
    "-", "_", "~=", "===", "==", "!=", "<", ">=", ",", ";", " ; ", " @ ", "[", "]", "(", ")", "((((", "'", "\"", "#", " #", "\\", "$", "${R}",
    "\n", "\r\n", "\r", "\t", " ", "\xc2\x85", "\xe3\x80\x80", "\xe2\x80\xae", "\xef\xbb\xbf", "\xc3\xa9", "\xc3", "\xff", "\xed\xa0\x80",
    "\xf4\x90\x80\x80", "\x1b[31m", "python_version", "python_full_version", "implementation_version", "os_name", "os.name", "extra",
    " and ", " or ", " in ", " not in ", "not", "'3.8'", "'x'", "{", "}", "null", ":", "1e400", "\\ud800", "foo", "file:", "https://", "../",
};

static uint64_t draw(uint64_t most) {
    state += 0x9E3779B97F4A7C15;
    uint64_t it = (state ^ state >> 30) * 0xBF58476D1CE4E5B9;
    it = (it ^ it >> 27) * 0x94D049BB133111EB;
    return (it ^ it >> 31) % most;
}

static void stop(const char *what) {
    printf("FAILED: call %llu in round %llu: %s\n", (unsigned long long)*(uint64_t *)current, (unsigned long long)round_number, what);
    exit(1);
}

static void hangs(int number) {
    (void)number;
    static const char said[] = "FAILED: a call doesn't end\n";
    _exit(write(1, said, sizeof said - 1) > 0 ? 1 : 2);
}

/* Space behind which nothing can be read or written. */
static uint8_t *fence(void) {
    uint8_t *made = mmap(NULL, SPACE + PAGE, PROT_READ | PROT_WRITE, MAP_PRIVATE | MAP_ANONYMOUS, -1, 0);
    if (made == MAP_FAILED || mprotect(made + SPACE, PAGE, PROT_NONE) != 0) {
        exit(2);
    }
    return made;
}

/* ---- requests */

static void read_requests(const char *path) {
    int file = open(path, O_RDONLY);
    off_t length = lseek(file, 0, SEEK_END);
    const uint8_t *at = mmap(NULL, (size_t)length, PROT_READ, MAP_PRIVATE, file, 0), *end = at + length;
    if (at == MAP_FAILED) {
        exit(2);
    }
    while (at < end && request_count < MOST_REQUESTS) {
        struct request *it = &requests[request_count++];
        memcpy(it, at, HEAD);
        memcpy(it->size, at + HEAD, it->count * sizeof(uint64_t));
        at += HEAD + it->count * sizeof(uint64_t);
        for (uint64_t i = 0; i < it->count; i++) {
            it->text[i] = at;
            at += it->size[i];
        }
    }
    close(file);
}

/* Puts the request where it is found if the process ends. */
static void keep_current(const struct request *it) {
    uint8_t *at = current;
    memcpy(at, it, HEAD);
    at += HEAD;
    memcpy(at, it->size, it->count * sizeof(uint64_t));
    at += it->count * sizeof(uint64_t);
    for (uint64_t i = 0; i < it->count; i++) {
        memcpy(at, it->text[i], it->size[i]);
        at += it->size[i];
    }
}

/* ---- what has to be so of each reply */

static int is_utf8(const uint8_t *at, size_t length) {
    const uint8_t *end = at + length;
    while (at < end) {
        int more = *at < 0x80 ? 0 : *at >= 0xF0 ? 3 : *at >= 0xE0 ? 2 : 1;
        if (more > 0 && (*at < 0xC2 || *at > 0xF4 || end - at <= more)) {
            return 0;
        }
        for (int i = 1; i <= more; i++) {
            if ((at[i] & 0xC0) != 0x80) {
                return 0;
            }
        }
        at += 1 + more;
    }
    return 1;
}

/* How many bytes the line of a number has, from 1; or -1 where there is no such line. */
static int64_t line_length(const uint8_t *text, size_t size, size_t number) {
    const uint8_t *at = text, *end = text + size;
    for (size_t i = 1; at <= end; i++) {
        const uint8_t *feed = at < end ? memchr(at, '\n', (size_t)(end - at)) : NULL;
        int64_t length = (feed != NULL ? feed : end) - at;
        if (i == number) {
            return length;
        }
        at += length + 1;
    }
    return -1;
}

/* The place of a refusal stands in its text, but that it may be the one behind the end. */
static void judge_place(const struct request *it, const reqs_reply *reply) {
    if (reply->input > it->count) {
        stop("there is no such input");
    }
    if (reply->input == 0) {
        if (reply->line != 0 || reply->start != 0 || reply->len != 0) {
            stop("a place in no input");
        }
        return;
    }
    const uint8_t *text = it->text[reply->input - 1];
    size_t size = it->size[reply->input - 1];
    int64_t length = reply->line != 0 ? line_length(text, size, reply->line) : (int64_t)size;
    if (length < 0 || reply->start > (size_t)length || reply->len > (size_t)length - reply->start + 1) {
        stop("a place outside of the text");
    }
}

static int gives_number(uint64_t which) {
    return which == KEY || which == ABI;
}

/* Whether a call compares lists. */
static int may_differ(uint64_t which) {
    switch (which) {
    case SAME: case COVERS: case SAME_WHERE: case COVERS_WHERE:
    case SAME_JSON: case COVERS_JSON: case SAME_WHERE_JSON: case COVERS_WHERE_JSON:
        return 1;
    default:
        return 0;
    }
}

static void judge(const struct request *it, const reqs_reply *reply, const uint8_t *out) {
    if (gives_number(it->which)) {
        int64_t number = (int64_t)reply->length;
        if (it->which == ABI ? number != REQS_ABI : number < -2) {
            stop("a number that the call doesn't give");
        }
        return;
    }
    if (reply->status > REQS_REFUSED || (reply->status == REQS_DIFFERENT && !may_differ(it->which))) {
        stop("a status that the call doesn't give");
    }
    ended[reply->status] += 1;
    if (reply->status != REQS_REFUSED && (reply->input | reply->line | reply->start | reply->len) != 0) {
        stop("a place without a refusal");
    }
    judge_place(it, reply);
    if (it->which != MARKER_KEY && reply->length <= it->room && !is_utf8(out, reply->length)) {
        stop("an answer that is no text");
    }
}

/* ---- calls */

/* Makes a request in fenced space with some room, and judges it. The answer ends at the fence. */
static reqs_reply ask(struct request it, size_t room, uint8_t **out) {
    it.room = room;
    for (uint64_t i = 0; i < it.count; i++) {
        uint8_t *to = fenced[i] + SPACE - it.size[i];
        memmove(to, it.text[i], it.size[i]);
        it.text[i] = to;
    }
    keep_current(&it);
    *out = fenced_out + SPACE - room;
    memset(fenced_out, WAS, SPACE);
    alarm(HANGS);
    reqs_reply reply = made(it.which, it.text, it.size, &it.most, *out, room);
    alarm(0);
    int64_t length = (int64_t)reply.length;
    for (uint8_t *at = fenced_out; at < fenced_out + SPACE; at++) {
        int is_answer = at >= *out && at - *out < length && it.which != ABI;
        if (*at != WAS && !is_answer) {
            stop("a byte was written outside of the answer");
        }
    }
    judge(&it, &reply, *out);
    return reply;
}

/* What is printed reads back as what is printed so again. */
static void ask_again(const struct request *it, const uint8_t *answer, size_t length) {
    static uint8_t kept[SPACE];
    int reads_back = it->which == VERSION || it->which == NORMAL || (it->which == MARKER && length > 0);
    if (!reads_back || length > SPACE) {
        return;
    }
    memcpy(kept, answer, length);
    struct request back = {.which = it->which, .most = {0, REQS_NO_BOUND, REQS_NO_BOUND, 0}, .count = 1, .size = {length}, .text = {kept}};
    uint8_t *out;
    reqs_reply reply = ask(back, SPACE, &out);
    if (reply.status != REQS_ANSWERED || reply.length != length || memcmp(out, kept, length) != 0) {
        stop("an answer that doesn't read back as itself");
    }
}

/* Whether two replies say the same, but for the answers' lengths. */
static int end_alike(const reqs_reply *one, const reqs_reply *other) {
    return one->status == other->status && one->input == other->input && one->line == other->line && one->start == other->start
           && one->len == other->len;
}

/* Makes a request with ample room, of which `whole` has what is written, and with less: the reply is the same, and the answer's
 * front. */
static reqs_reply ask_both(const struct request *it, uint8_t *whole) {
    uint8_t *out;
    reqs_reply first = ask(*it, SPACE, &out);
    memcpy(whole, out, SPACE);
    int is_text = !gives_number(it->which);
    size_t length = is_text && first.length < SPACE ? first.length : 64;
    size_t room = (size_t)draw(length + 2);
    reqs_reply second = ask(*it, room, &out);
    if (first.length != second.length || !end_alike(&first, &second)) {
        stop("another reply to the same call");
    }
    if (is_text && memcmp(whole, out, room < first.length ? room : first.length) != 0) {
        stop("another answer to the same call");
    }
    if (is_text && first.status == REQS_ANSWERED && first.length <= SPACE) {
        ask_again(it, whole, first.length);
    }
    return first;
}

/* Makes a request, and where a command's text is asked also the one for its JSON: this ends alike, and is refused by the same
 * text, or answers by one line. */
static void ask_all(const struct request *it) {
    static uint8_t text[SPACE], json[SPACE];
    reqs_reply first = ask_both(it, text);
    if (it->which > CONFLICTS_WHERE) {
        return;
    }
    struct request as_json = *it;
    as_json.which += CHECK_JSON - CHECK;
    reqs_reply second = ask_both(&as_json, json);
    size_t length = second.length;
    if (!end_alike(&first, &second)) {
        stop("JSON that ends otherwise than the text");
    }
    if (length > SPACE) {
        return;
    }
    if (second.status == REQS_REFUSED && (length != first.length || memcmp(text, json, length) != 0)) {
        stop("another reason than the one of the text");
    }
    int is_line = length >= 3 && json[0] == '{' && json[length - 2] == '}' && memchr(json, '\n', length) == json + length - 1;
    if (second.status != REQS_REFUSED && !is_line) {
        stop("an answer that is no object on a line");
    }
}

/* ---- changes of texts */

/* Puts bytes into a text, of which the last ones are lost where it grows too long. */
static size_t put(uint8_t *text, size_t size, size_t at, const void *what, size_t length, size_t most) {
    length = length < most - at ? length : most - at;
    size_t rest = size - at < most - at - length ? size - at : most - at - length;
    memmove(text + at + length, text + at, rest);
    memmove(text + at, what, length);
    return at + length + rest;
}

static size_t changed(uint8_t *text, size_t size, size_t most) {
    size_t at = (size_t)draw(size + 1), length = (size_t)draw(size - at + 1);
    length = length < 40 ? length : 40;
    const struct request *other = &requests[draw(request_count)];
    uint8_t span[40];
    switch (draw(7)) {
    case 0:
        if (at < size) {
            text[at] ^= (uint8_t)(1u << draw(8));
        }
        return size;
    case 1:
        memmove(text + at, text + at + length, size - at - length);
        return size - length;
    case 2:
        memcpy(span, text + at, length);
        return put(text, size, (size_t)draw(size + 1), span, length, most);
    case 3:
        return draw(4) == 0 ? at : size;
    case 4:
        if (other->count > 0 && other->size[0] > 0) {
            size_t from = (size_t)draw(other->size[0]);
            size_t taken = other->size[0] - from < 40 ? other->size[0] - from : 40;
            return put(text, size, at, other->text[0] + from, taken, most);
        }
        return size;
    default: {
        const char *token = TOKENS[draw(sizeof TOKENS / sizeof *TOKENS)];
        return put(text, size, at, token, strlen(token), most);
    }
    }
}

/* Whether a call reads markers alone. */
static int is_of_markers(uint64_t which) {
    return which >= CHECKED && which <= HOLD;
}

/* A request of the corpus with changed texts. */
static void fuzzed(void) {
    static uint8_t texts[TEXTS][MOST_TEXT];
    struct request it = requests[draw(request_count)];
    size_t most = is_of_markers(it.which) ? MOST_MARKER : MOST_TEXT;
    it.most = (struct bounds){draw(MOST_LIMIT), draw(MOST_NODES), draw(MOST_CLAUSES), draw(MOST_CASES)};
    for (uint64_t i = 0; i < it.count; i++) {
        it.size[i] = it.size[i] < most ? it.size[i] : most;
        memcpy(texts[i], it.text[i], it.size[i]);
        it.text[i] = texts[i];
        for (uint64_t times = draw(3) == 0 ? 0 : draw(6); times > 0; times--) {
            it.size[i] = changed(texts[i], it.size[i], most);
        }
    }
    ask_all(&it);
}

int main(int count, char **words) {
    if (count != 5) {
        return 2;
    }
    read_requests(words[1]);
    int file = open(words[2], O_RDWR | O_CREAT, 0666);
    if (file < 0 || ftruncate(file, (TEXTS + 1) * SPACE) != 0) {
        return 2;
    }
    current = mmap(NULL, (TEXTS + 1) * SPACE, PROT_READ | PROT_WRITE, MAP_SHARED, file, 0);
    for (int i = 0; i < TEXTS; i++) {
        fenced[i] = fence();
    }
    fenced_out = fence();
    signal(SIGALRM, hangs);
    for (size_t i = 0; i < request_count; i++) {
        ask_all(&requests[i]);
    }
    uint64_t seed = strtoull(words[3], NULL, 10);
    time_t end = time(NULL) + (time_t)strtoull(words[4], NULL, 10);
    while (time(NULL) < end) {
        round_number += 1;
        state = seed << 32 ^ round_number;
        fuzzed();
    }
    printf("%zu requests, %llu rounds: %llu answered, %llu different, %llu refused\n", request_count, (unsigned long long)round_number,
           (unsigned long long)ended[0], (unsigned long long)ended[1], (unsigned long long)ended[2]);
    return 0;
}
