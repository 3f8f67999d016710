/*
 * The program once more, over the library for C: the same words, and the same answers on standard output. So a script of
 * this folder that takes a program as its first word tries the library.
 *
 *     program [--pool N] [--interrupt K] [--draw] [--gen N] [--whole]
 *
 * With --whole the input is answered by one call of poincare_answers, else line by line. Statuses are 0, 2 for wrong
 * words, and 1 where the library answers what its header does not say.
 */
#include "poincare.h"

#include <errno.h>
#include <stdbool.h>
#include <stdio.h>
#include <stdlib.h>
#include <string.h>

struct words {
    uint64_t pool, interrupt, session;
    bool has_pool, has_interrupt, has_session, draws, whole;
};

struct bytes {
    char *at;
    size_t length, room;
};

/* How many lines of each kind were answered. */
struct summary {
    unsigned lines, shown, stored, undefined, refused;
    unsigned long bytes;
};

static void fail(const char *what) {
    fprintf(stderr, "unexpected: %s\n", what);
    exit(1);
}

static void wrong_words(void) {
    fputs("usage: poincare [--pool N] [--interrupt K] [--draw] [--gen N]\n", stderr);
    exit(2);
}

static void make_room(struct bytes *bytes, size_t room) {
    if (bytes->room >= room)
        return;
    bytes->at = realloc(bytes->at, room);
    if (bytes->at == NULL)
        fail("no memory");
    bytes->room = room;
}

/* One to twenty digits. */
static uint64_t number_of(const char *digits) {
    size_t length = digits == NULL ? 0 : strlen(digits);

    if (length < 1 || length > 20 || strspn(digits, "0123456789") != length)
        wrong_words();
    errno = 0;
    unsigned long long number = strtoull(digits, NULL, 10);
    if (errno != 0)
        wrong_words();
    return number;
}

/* Takes a word with its number, where the next word is it; a second one is wrong. */
static bool takes(char ***word, const char *name, bool *had, uint64_t *number) {
    size_t length = strlen(name);

    if (strncmp(**word, name, length) != 0 || ((**word)[length] != '\0' && (**word)[length] != '='))
        return false;
    if (*had)
        wrong_words();
    *had = true;
    const char *digits = (**word)[length] == '=' ? **word + length + 1 : *++*word;
    *number = number_of(digits);
    return true;
}

static struct words words_of(char **word) {
    struct words words = {.pool = 32768};

    for (; *word != NULL; word++) {
        if (strcmp(*word, "--draw") == 0 && !words.draws)
            words.draws = true;
        else if (strcmp(*word, "--whole") == 0)
            words.whole = true;
        else if (!takes(&word, "--pool", &words.has_pool, &words.pool) &&
                 !takes(&word, "--interrupt", &words.has_interrupt, &words.interrupt) &&
                 !takes(&word, "--gen", &words.has_session, &words.session))
            wrong_words();
    }
    if (words.pool > UINT32_MAX || words.session > UINT32_MAX)
        wrong_words();
    return words;
}

static struct bytes input(void) {
    struct bytes bytes = {0};

    do {
        make_room(&bytes, 2 * bytes.length + 4096);
        bytes.length += fread(bytes.at + bytes.length, 1, bytes.room - bytes.length, stdin);
    } while (!feof(stdin) && !ferror(stdin));
    return bytes;
}

/* The 2,000 lines of a generated session. */
static struct bytes generated(uint64_t number) {
    struct bytes bytes = {0};
    unsigned state = (unsigned)(number % 65537);

    make_room(&bytes, 2000 * 64);
    for (int line = 1; line <= 2000; line++) {
        state = (75 * state + 74) % 65537;
        unsigned a = state % 97 + 1, b = state / 97 % 89 + 1;
        char *at = bytes.at + bytes.length;
        switch (line % 8) {
        case 1: bytes.length += (size_t)sprintf(at, "%u/%u+%u/%u\n", a, b, b, a); break;
        case 2: bytes.length += (size_t)sprintf(at, "√(%u)+√(%u)\n", a, b); break;
        case 3: bytes.length += (size_t)sprintf(at, "1/(√(%u)+√(%u))\n", a, b); break;
        case 4: bytes.length += (size_t)sprintf(at, "(%u+√(%u))^3\n", a, b); break;
        case 5: bytes.length += (size_t)sprintf(at, "%u×x+%u×x-√(%u)×x\n", a, b, a); break;
        case 6: bytes.length += (size_t)sprintf(at, "(x+%u)^2/(x+%u)\n", a, b); break;
        case 7: bytes.length += (size_t)sprintf(at, "%u/%u→y\n", a, b); break;
        default: bytes.length += (size_t)sprintf(at, "y×√(%u)+x\n", b); break;
        }
    }
    return bytes;
}

static uint32_t tells(poincare_session *session, bool picture, char *out, size_t room, size_t *count) {
    return picture ? poincare_draw(session, out, room, count) : poincare_text(session, out, room, count);
}

/* Adds what poincare_text or poincare_draw tells to the output; with too little room it is asked again with enough. */
static void add_told(poincare_session *session, bool picture, struct bytes *out) {
    size_t count = 0, left = out->room - out->length;

    uint32_t code = tells(session, picture, out->at + out->length, left, &count);
    if (code == POINCARE_NO_ROOM || (code == POINCARE_FULL && count > left)) {
        make_room(out, 2 * out->length + count);
        code = tells(session, picture, out->at + out->length, out->room - out->length, &count);
    }
    if (code != POINCARE_DONE && !(picture && code == POINCARE_FULL))
        fail("the code of a text or a picture");
    out->length += count;
}

static void add_newline(struct bytes *out) {
    if (out->length == out->room)
        make_room(out, 2 * out->room);
    out->at[out->length++] = '\n';
}

static void add_answer(poincare_session *session, uint32_t code, bool draws, struct bytes *out) {
    if (code == POINCARE_BLANK)
        return;
    if (code != POINCARE_DRAW) {
        add_told(session, false, out);
        add_newline(out);
    }
    if (code == POINCARE_DRAW || (draws && (code == POINCARE_SHOWN || code == POINCARE_STORED)))
        add_told(session, true, out);
}

static void count_answer(poincare_session *session, uint32_t code, struct summary *summary) {
    size_t count = 0;
    char none;

    poincare_text(session, &none, 0, &count);
    summary->lines++;
    summary->shown += code == POINCARE_SHOWN;
    summary->stored += code == POINCARE_STORED;
    summary->undefined += code == POINCARE_UNDEFINED;
    summary->refused += code > POINCARE_REFUSED && code < POINCARE_NO_ROOM;
    summary->bytes += count;
}

/* Answers each line of the bytes. */
static void answer_lines(poincare_session *session, struct bytes lines, const struct words *words) {
    struct bytes out = {0};
    struct summary summary = {0};

    make_room(&out, 16);
    for (size_t at = 0; at < lines.length;) {
        const char *newline = memchr(lines.at + at, '\n', lines.length - at);
        size_t end = newline != NULL ? (size_t)(newline - lines.at) : lines.length;
        size_t length = end - at;
        if (length > 0 && lines.at[end - 1] == '\r')
            length--;
        uint32_t code = poincare_line(session, lines.at + at, length);
        if (code >= POINCARE_NO_ROOM)
            fail("the code of a line");
        if (words->has_session)
            count_answer(session, code, &summary);
        else
            add_answer(session, code, words->draws, &out);
        at = end + 1;
    }
    if (words->has_session)
        printf("lines %u shown %u stored %u undef %u refused %u bytes %lu\n", summary.lines, summary.shown,
               summary.stored, summary.undefined, summary.refused, summary.bytes);
    fwrite(out.at, 1, out.length, stdout);
    free(out.at);
}

static void answer_in_session(struct bytes lines, const struct words *words) {
    poincare_session session;
    char after[40];

    poincare_session_init(&session);
    uint32_t code = poincare_open(&session, (uint32_t)words->pool);
    if (code == POINCARE_BAD_POOL)
        wrong_words();
    if (code != POINCARE_DONE)
        fail("the code of opening");
    if (words->has_interrupt) {
        int length = snprintf(after, sizeof after, ":after %llu", (unsigned long long)words->interrupt);
        if (poincare_line(&session, after, (size_t)length) != POINCARE_REPORT)
            fail("the code of :after");
    }
    answer_lines(&session, lines, words);
    if (poincare_close(&session) != POINCARE_DONE)
        fail("the code of closing");
}

/* Answers the whole text by one call, once it is known how many bytes the answers have. */
static void answer_whole(struct bytes lines, const struct words *words) {
    struct bytes out = {0};
    size_t count = 0;

    make_room(&out, 1);
    uint32_t code = poincare_answers((uint32_t)words->pool, lines.at, lines.length, out.at, 0, &count);
    if (code == POINCARE_BAD_POOL)
        wrong_words();
    if (code != (count > 0 ? POINCARE_NO_ROOM : POINCARE_DONE))
        fail("the code without room");
    make_room(&out, count);
    if (poincare_answers((uint32_t)words->pool, lines.at, lines.length, out.at, count, &count) != POINCARE_DONE)
        fail("the code with exactly the room");
    fwrite(out.at, 1, count, stdout);
    free(out.at);
}

int main(int count, char **word) {
    struct words words = words_of(count > 0 ? word + 1 : word);
    struct bytes lines = words.has_session ? generated(words.session) : input();

    if (words.whole)
        answer_whole(lines, &words);
    else
        answer_in_session(lines, &words);
    free(lines.at);
    return 0;
}
