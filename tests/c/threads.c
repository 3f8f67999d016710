/*
 * Sessions in several threads at once, and lines that another thread stops: each is interrupted at its next check, the
 * session is as it was before, and the next line is answered.
 */
#define _POSIX_C_SOURCE 200809L
#include "check.h"

#include <pthread.h>
#include <stdatomic.h>
#include <stdbool.h>
#include <stdlib.h>
#include <time.h>

enum { SESSIONS = 2, ROUNDS = 50, LINE_ROOM = 1025, TEXT_ROOM = 1 << 18 };

static const char *lines[] = {
    "1/(√(2)+√(3))", "x+1→y", "5→x", "y", "(√(2)+√(3)+√(5))^3", "2^127", ":dump", ":expand (a+b+c)^5", "ans/y", "1/0",
};
enum { LINES = sizeof lines / sizeof *lines };

/* What a thread's session answered to the lines, one after another. */
struct worker {
    pthread_t thread;
    char *told;
    size_t length;
    bool same;
};

static bool answer_all(struct worker *worker) {
    static const size_t room = TEXT_ROOM;
    poincare_session session;
    size_t length = 0;

    poincare_session_init(&session);
    if (poincare_open(&session, 32768) != POINCARE_DONE)
        return false;
    for (size_t at = 0; at < LINES; at++) {
        size_t count = 0;
        poincare_line(&session, lines[at], strlen(lines[at]));
        if (poincare_text(&session, worker->told + length, room - length, &count) != POINCARE_DONE)
            return false;
        length += count;
    }
    worker->length = length;
    return poincare_close(&session) == POINCARE_DONE;
}

/* The body of a thread: each round tells what the first one told. */
static void *work(void *argument) {
    struct worker *worker = argument, again = {.told = malloc(TEXT_ROOM)};

    worker->same = again.told != NULL && answer_all(worker);
    for (int round = 0; round < ROUNDS && worker->same; round++)
        worker->same = answer_all(&again) && again.length == worker->length &&
                       memcmp(again.told, worker->told, worker->length) == 0;
    free(again.told);
    return NULL;
}

static void check_sessions(void) {
    struct worker alone = {.told = malloc(TEXT_ROOM)}, workers[SESSIONS];

    CHECK(alone.told != NULL && answer_all(&alone) && alone.length > 100);
    for (int at = 0; at < SESSIONS; at++) {
        workers[at] = (struct worker){.told = malloc(TEXT_ROOM)};
        CHECK(pthread_create(&workers[at].thread, NULL, work, &workers[at]) == 0);
    }
    for (int at = 0; at < SESSIONS; at++) {
        CHECK(pthread_join(workers[at].thread, NULL) == 0);
        CHECK(workers[at].same && workers[at].length == alone.length);
        CHECK(memcmp(workers[at].told, alone.told, alone.length) == 0);
        free(workers[at].told);
    }
    free(alone.told);
}

/* Between the thread that answers and the one that stops. */
static struct {
    poincare_stopper stopper;
    atomic_int round;   /* the round that has begun */
    atomic_int stopped; /* the round in which the stop was asked for */
    int rounds;
} shared;

/* Stops one line of each round, a while after the round has begun. */
static void *stop_each(void *unused) {
    (void)unused;
    for (int round = 1; round <= shared.rounds; round++) {
        while (atomic_load(&shared.round) < round)
            nanosleep(&(struct timespec){.tv_nsec = 1000}, NULL);
        nanosleep(&(struct timespec){.tv_nsec = 20000L * (round % 50)}, NULL);
        poincare_stop(&shared.stopper);
        atomic_store(&shared.stopped, round);
    }
    return NULL;
}

/* A line of so many sums of fractions of roots as fit: it has hundreds of nodes. */
static void make_long_line(char *line) {
    static const char *term = "1/(√(2)+√(3))";
    size_t length = 0, each = strlen(term);

    while (length + each + 1 < LINE_ROOM) {
        if (length > 0)
            line[length++] = '+';
        memcpy(line + length, term, each);
        length += each;
    }
    line[length] = '\0';
}

static void check_stops(int rounds) {
    static poincare_session session;
    static char line[LINE_ROOM], before[TEXT_ROOM], after[TEXT_ROOM];
    pthread_t thread;
    int within = 0, late = 0, changed = 0, unanswered = 0, other = 0;

    make_long_line(line);
    poincare_session_init(&session);
    poincare_stopper_init(&shared.stopper);
    CHECK(poincare_open(&session, 32768) == POINCARE_DONE);
    CHECK(poincare_stopper_open(&shared.stopper, &session) == POINCARE_DONE);
    CHECK(ask(&session, "x+1→y", before, sizeof before) == POINCARE_STORED);
    CHECK(ask(&session, line, before, sizeof before) == POINCARE_SHOWN);
    shared.rounds = rounds;
    CHECK(pthread_create(&thread, NULL, stop_each, NULL) == 0);
    for (int round = 1; round <= rounds; round++) {
        uint32_t code;
        bool stopped_before;
        atomic_store(&shared.round, round);
        do {
            other += ask(&session, ":dump", before, sizeof before) != POINCARE_REPORT;
            stopped_before = atomic_load(&shared.stopped) == round;
            code = poincare_line(&session, line, strlen(line));
            other += code != POINCARE_SHOWN && code != POINCARE_INTERRUPTED;
            late += stopped_before && code != POINCARE_INTERRUPTED;
        } while (code == POINCARE_SHOWN && !stopped_before);
        within += !stopped_before;
        while (atomic_load(&shared.stopped) != round)
            continue;
        changed += ask(&session, ":dump", after, sizeof after) != POINCARE_REPORT || strcmp(before, after) != 0;
        unanswered += ask(&session, "ans", after, sizeof after) != POINCARE_SHOWN;
    }
    CHECK(pthread_join(thread, NULL) == 0);
    printf("%d stops, %d of them while a line ran\n", rounds, within);
    CHECK(within > 0);
    CHECK(late == 0);
    CHECK(changed == 0);
    CHECK(unanswered == 0);
    CHECK(other == 0);
    CHECK(poincare_stopper_close(&shared.stopper) == POINCARE_DONE);
    CHECK(poincare_close(&session) == POINCARE_DONE);
}

/* The first word is how many lines are stopped. */
int main(int count, char **word) {
    check_sessions();
    check_stops(count > 1 ? atoi(word[1]) : 100);
    return ended();
}
