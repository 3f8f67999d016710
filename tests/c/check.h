/* Checks that are counted, and what several of these tests share. */
#ifndef CHECK_H
#define CHECK_H

#include "poincare.h"

#include <stdio.h>
#include <string.h>

static int passed, failed;

#define CHECK(holds)                                                        \
    do {                                                                    \
        if (holds)                                                          \
            passed++;                                                       \
        else                                                                \
            printf("failed: %s:%d: %s\n", __FILE__, __LINE__, #holds), failed++; \
    } while (0)

/* Tells how the checks ended; the status of the program. */
static int ended(void) {
    printf("%d passed, %d failed\n", passed, failed);
    return failed > 0;
}

/* Answers a line, whose text is put into `text`, ended by a 0. */
static uint32_t ask(poincare_session *session, const char *line, char *text, size_t room) {
    size_t count = 0;
    uint32_t code = poincare_line(session, line, strlen(line));

    if (poincare_text(session, text, room - 1, &count) != POINCARE_DONE)
        count = 0;
    text[count] = '\0';
    return code;
}

/* Whether a line is answered by this code and this text. */
static inline int answers(poincare_session *session, const char *line, uint32_t code, const char *wanted) {
    static _Thread_local char text[1 << 17];

    return ask(session, line, text, sizeof text) == code && strcmp(text, wanted) == 0;
}

#endif
