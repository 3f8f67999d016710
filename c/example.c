/*
 * A session for C: a root, stores, an overflow, an interruption by a count and by another thread, and a picture.
 */
#include "poincare.h"

#include <pthread.h>
#include <stdio.h>
#include <string.h>

/* The most bytes that are printed of a text or of a picture. */
enum { ROOM = 512 };

static const char *name_of(uint32_t code) {
    switch (code) {
    case POINCARE_SHOWN: return "shown";
    case POINCARE_STORED: return "stored";
    case POINCARE_UNDEFINED: return "undefined";
    case POINCARE_BLANK: return "blank";
    case POINCARE_REPORT: return "report";
    case POINCARE_DRAW: return "to be drawn";
    case POINCARE_INTERRUPTED: return "interrupted";
    default: return code > POINCARE_REFUSED && code < POINCARE_NO_ROOM ? "refused" : "not answered";
    }
}

/* Prints what became of the last line, and its text. */
static void print_answer(poincare_session *session, const char *line, uint32_t code) {
    char text[ROOM];
    size_t count = 0;

    uint32_t told = poincare_text(session, text, sizeof text, &count);
    size_t fit = count < sizeof text ? count : sizeof text;
    printf("%s\n    %s: %.*s%s\n", line, name_of(code), (int)fit, text, told == POINCARE_NO_ROOM ? ".." : "");
}

static uint32_t answer(poincare_session *session, const char *line) {
    uint32_t code = poincare_line(session, line, strlen(line));
    print_answer(session, line, code);
    return code;
}

/* The body of a thread that asks for a stop. */
static void *stop(void *stopper) {
    poincare_stop(stopper);
    return NULL;
}

/* Asks a line again and again, until another thread has stopped it. */
static void answer_until_stopped(poincare_session *session, const char *line) {
    poincare_stopper stopper;
    pthread_t thread;

    poincare_stopper_init(&stopper);
    if (poincare_stopper_open(&stopper, session) != POINCARE_DONE)
        return;
    if (pthread_create(&thread, NULL, stop, &stopper) == 0) {
        uint32_t code;
        do
            code = poincare_line(session, line, strlen(line));
        while (code == POINCARE_SHOWN);
        pthread_join(thread, NULL);
        print_answer(session, line, code);
    }
    poincare_stopper_close(&stopper);
}

static void draw(poincare_session *session) {
    char rows[ROOM];
    size_t count = 0;

    if (poincare_draw(session, rows, sizeof rows, &count) == POINCARE_DONE)
        fwrite(rows, 1, count, stdout);
}

int main(void) {
    static poincare_session session;
    const char *sum = "1+2+3";
    uint32_t code, used, left;

    /* Whether the header has room for what the library puts into a slot. */
    if (poincare_session_size() > sizeof session || poincare_stopper_size() > sizeof(poincare_stopper))
        return 2;
    poincare_session_init(&session);
    if (poincare_open(&session, 32768) != POINCARE_DONE)
        return 1;

    answer(&session, "1/(√(2)+√(3))");
    answer(&session, "x+1→y");
    answer(&session, "5→x");
    answer(&session, "y");
    answer(&session, "2^127");
    answer(&session, "1/0");
    answer(&session, "2+");

    /* A sum of three numbers has four nodes. */
    for (uint64_t checks = 3; checks <= 4; checks++) {
        code = poincare_line_within(&session, sum, strlen(sum), checks);
        print_answer(&session, sum, code);
    }
    answer_until_stopped(&session, "(√(2)+√(3)+√(5)+√(7))^3");

    if (answer(&session, "√(z)/2+1/3") == POINCARE_SHOWN)
        draw(&session);
    if (poincare_pool(&session, &used, &left) == POINCARE_DONE)
        printf("pool: %u bytes in use, %u free\n", (unsigned)used, (unsigned)left);

    poincare_close(&session);
    return 0;
}
