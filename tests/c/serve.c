/* Makes the calls that it is told on standard input, one after another, and tells on standard output how each ended.
 *
 * A request is the number of a call, how many cases of a package, nodes, clauses and cases in all it may make, the room for the
 * answer, how many texts there are and their lengths, each 8 bytes in the machine's order, and then the texts. A reply is what the call returned (of reqs_reply the six members,
 * else one number and five zeros), by how many bytes the heap has grown, whether a byte behind the room was written, and
 * the room. It takes no memory of its own. */

#include "calls.h"

#include <malloc.h>
#include <stdlib.h>
#include <string.h>
#include <unistd.h>

#define MOST (48u << 20)
#define ROOM (1u << 20)
#define BEHIND 64

static uint8_t texts[MOST], out[ROOM + BEHIND], was[ROOM + BEHIND];
static const uint8_t *text[4];
static uint64_t size[4];

static void take(void *to, size_t count) {
    uint8_t *at = to;
    while (count > 0) {
        ssize_t got = read(0, at, count);
        if (got <= 0) {
            _exit(got == 0 && at == to ? 0 : 2);
        }
        at += got;
        count -= (size_t)got;
    }
}

static void give(const void *from, size_t count) {
    const uint8_t *at = from;
    while (count > 0) {
        ssize_t gone = write(1, at, count);
        if (gone <= 0) {
            _exit(3);
        }
        at += gone;
        count -= (size_t)gone;
    }
}

int main(void) {
    memset(was, 0xA5, sizeof was);
    /* The first request of a process that isn't refused takes memory for the allocator itself. */
    for (int i = 0; i < 2; i++) {
        void *volatile taken = malloc(1);
        free(taken);
    }
    for (;;) {
        uint64_t head[7];
        take(head, sizeof head);
        if (head[0] >= CALLS || head[5] > ROOM || head[6] > 4) {
            return 4;
        }
        take(size, head[6] * sizeof *size);
        uint8_t *end = texts;
        for (uint64_t i = 0; i < head[6]; i++) {
            if (size[i] > (uint64_t)(texts + MOST - end)) {
                return 4;
            }
            text[i] = end;
            take(end, size[i]);
            end += size[i];
        }
        struct bounds most = {head[1], head[2], head[3], head[4]};
        size_t room = (size_t)head[5];
        memcpy(out, was, room + BEHIND);
        size_t before = mallinfo2().uordblks;
        reqs_reply reply = made(head[0], text, size, &most, out, room);
        uint64_t grown = mallinfo2().uordblks - before;
        uint64_t told[8] = {reply.status, reply.input, reply.length, reply.line, reply.start, reply.len, grown,
                            memcmp(out + room, was + room, BEHIND) != 0};
        give(told, sizeof told);
        give(out, room);
    }
}
