/*
 * The three functions for memory, of this program's own in the place of heap.c: they count what is taken and given back,
 * hand out memory that is full of rubbish, and refuse a request when they are told to. So each request of a call is
 * refused in turn; a line takes none; and a session that is opened and closed 10,000 times leaves nothing.
 */
#define _DEFAULT_SOURCE
#include "check.h"

#include <stdbool.h>
#include <stdint.h>
#include <stdlib.h>
#include <sys/resource.h>

/* In front of each block, as long as the strictest alignment. */
union head {
    size_t size;
    max_align_t align;
};

struct rattle_block {
    bool found;
    void *at;
};

struct rattle_block rattle_alloc(size_t size, size_t align);
struct rattle_block rattle_realloc(void *at, size_t kept, size_t size, size_t align);
void rattle_dealloc(void *at);

/* Requests that are granted before one is refused; requests in all; blocks and bytes that are held. */
static size_t granted = SIZE_MAX, requests, blocks, bytes;

/* Whether each request kept to what its contract says. */
static bool asked_rightly = true;

static bool is_refused(size_t align) {
    requests++;
    asked_rightly = asked_rightly && align > 0 && align <= 16 && (align & (align - 1)) == 0;
    if (granted == 0)
        return true;
    granted--;
    return false;
}

static struct rattle_block refused(void) {
    static char none;
    return (struct rattle_block){false, &none};
}

struct rattle_block rattle_alloc(size_t size, size_t align) {
    if (is_refused(align))
        return refused();
    union head *head = malloc(sizeof *head + size);
    if (head == NULL)
        return refused();
    head->size = size;
    memset(head + 1, 0xA5, size);
    blocks++;
    bytes += size;
    return (struct rattle_block){true, head + 1};
}

struct rattle_block rattle_realloc(void *at, size_t kept, size_t size, size_t align) {
    union head *old = (union head *)at - 1;
    asked_rightly = asked_rightly && kept <= old->size && kept <= size;
    struct rattle_block block = rattle_alloc(size, align);
    if (block.found) {
        memcpy(block.at, at, kept);
        rattle_dealloc(at);
    }
    return block;
}

void rattle_dealloc(void *at) {
    union head *head = (union head *)at - 1;
    blocks--;
    bytes -= head->size;
    memset(at, 0x5A, head->size);
    free(head);
}

static poincare_session session;
static poincare_stopper stopper;

/* Opening is refused its first request, then its second, and so on, until it is granted all. */
static void check_opening(uint32_t pool) {
    uint32_t code = POINCARE_NO_MEMORY;
    size_t last = 0;

    poincare_session_init(&session);
    for (size_t request = 0; code == POINCARE_NO_MEMORY && request < 1000; request++) {
        requests = 0;
        granted = request;
        code = poincare_open(&session, pool);
        last = requests;
        granted = SIZE_MAX;
        if (code == POINCARE_NO_MEMORY)
            CHECK(blocks == 0 && bytes == 0 && last == request + 1 && poincare_close(&session) == POINCARE_NOT_OPENED);
    }
    CHECK(code == POINCARE_DONE && last > 3);
    printf("opening with %u bytes: %zu requests, %zu bytes\n", (unsigned)pool, last, bytes);
    CHECK(answers(&session, "1+1", POINCARE_SHOWN, "2"));
    CHECK(poincare_close(&session) == POINCARE_DONE && blocks == 0 && bytes == 0);

    /* A slot that was closed before is closed still. */
    granted = last - 1;
    CHECK(poincare_open(&session, pool) == POINCARE_NO_MEMORY && blocks == 0);
    granted = SIZE_MAX;
    CHECK(poincare_close(&session) == POINCARE_CLOSED);
}

/* So with a whole text, of which nothing is answered then. */
static void check_answers(void) {
    uint32_t code = POINCARE_NO_MEMORY;
    char out[16] = "as before";
    size_t count = 77, request;

    for (request = 0; code == POINCARE_NO_MEMORY && request < 1000; request++) {
        granted = request;
        code = poincare_answers(32768, "1+1\n", 4, out, sizeof out, &count);
        granted = SIZE_MAX;
        CHECK(blocks == 0 && bytes == 0);
        if (code == POINCARE_NO_MEMORY)
            CHECK(count == 77 && strcmp(out, "as before") == 0);
    }
    CHECK(code == POINCARE_DONE && request > 3 && count == 2 && memcmp(out, "2\n", 2) == 0);
}

/* A stopper, of a session that is used behind it. */
static void check_stopper(void) {
    poincare_session_init(&session);
    poincare_stopper_init(&stopper);
    CHECK(poincare_open(&session, 64) == POINCARE_DONE);
    requests = 0;
    granted = 0;
    uint32_t code = poincare_stopper_open(&stopper, &session);
    granted = SIZE_MAX;
    CHECK(requests == 0 ? code == POINCARE_DONE : code == POINCARE_NO_MEMORY);
    if (code == POINCARE_NO_MEMORY) {
        CHECK(poincare_stop(&stopper) == POINCARE_NOT_OPENED);
        CHECK(poincare_stopper_open(&stopper, &session) == POINCARE_DONE);
    }
    CHECK(poincare_close(&session) == POINCARE_DONE);
    CHECK(poincare_stop(&stopper) == POINCARE_DONE);
    CHECK(poincare_stopper_close(&stopper) == POINCARE_DONE);
    CHECK(blocks == 0 && bytes == 0);
}

/* No line takes memory, nor does what is asked between lines. */
static void check_lines(void) {
    static const char *lines[] = {
        "1+1", "x+1→y", "1/(√(2)+√(3))", "2^127", "1/0", "2+", "", ":dump", ":layout", ":draw", ":forget y", ":after 3",
        "1+2+3", "x→k", ":expand (a+b+c)^9", ":diff x 1/(x^2+√(x))", ":solve u+v=3;u-v=w", "(√(2)+√(3)+√(5)+√(7))^4",
        "((a+b)/(c+d))^2/√(z)", ":nothing", "a+b+c+d+e+f+g+h+i+j+k+l+m+n+o+p+q+r+s+t→t",
    };
    static char out[1 << 20];
    uint32_t used, left;
    size_t count;

    poincare_session_init(&session);
    poincare_stopper_init(&stopper);
    CHECK(poincare_open(&session, 32768) == POINCARE_DONE);
    CHECK(poincare_stopper_open(&stopper, &session) == POINCARE_DONE);
    requests = 0;
    granted = 0;
    for (size_t at = 0; at < sizeof lines / sizeof *lines; at++) {
        CHECK(poincare_line(&session, lines[at], strlen(lines[at])) < POINCARE_NO_ROOM);
        CHECK(poincare_text(&session, out, sizeof out, &count) == POINCARE_DONE);
        CHECK(poincare_line_within(&session, lines[at], strlen(lines[at]), 5) < POINCARE_NO_ROOM);
        CHECK(poincare_draw(&session, out, sizeof out, &count) == POINCARE_DONE);
        CHECK(poincare_pool(&session, &used, &left) == POINCARE_DONE);
        CHECK(poincare_stop(&stopper) == POINCARE_DONE && poincare_clear(&stopper) == POINCARE_DONE);
    }
    CHECK(requests == 0);
    granted = SIZE_MAX;
    CHECK(poincare_stopper_close(&stopper) == POINCARE_DONE);
    CHECK(poincare_close(&session) == POINCARE_DONE);
    CHECK(blocks == 0 && bytes == 0);
}

static long resident(void) {
    struct rusage usage;
    return getrusage(RUSAGE_SELF, &usage) == 0 ? usage.ru_maxrss : -1;
}

/* Opened and closed again and again: what is held in between is nothing, and what the process takes stays as it is. */
static void check_times(int times) {
    size_t opened = 0;
    long before = 0;
    bool same = true;

    poincare_session_init(&session);
    for (int time = 0; time < times; time++) {
        same = same && poincare_open(&session, 32768) == POINCARE_DONE && (opened == 0 || bytes == opened);
        opened = bytes;
        same = same && answers(&session, "1/3+1/6→y", POINCARE_STORED, "1/2");
        same = same && poincare_close(&session) == POINCARE_DONE && blocks == 0 && bytes == 0;
        if (time == times / 10)
            before = resident();
    }
    CHECK(same);
    /* In kilobytes; a tool that watches memory keeps some of its own, and is told fewer times. */
    CHECK(times < 10000 || resident() <= before + 256);
}

/* The first word is how often a session is opened. */
int main(int count, char **word) {
    check_opening(64);
    check_opening(32768);
    check_opening(524280);
    check_answers();
    check_stopper();
    check_lines();
    check_times(count > 1 ? atoi(word[1]) : 10000);
    CHECK(asked_rightly);
    return ended();
}
