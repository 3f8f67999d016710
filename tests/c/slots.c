/*
 * What each call answers: in slots that are open, closed or were never opened, with pools of every kind of size, with
 * lines of no bytes and of any bytes, and with less room than a text has, exactly so much, and none.
 */
#include "check.h"

#include <stdint.h>
#include <string.h>

enum { GUARD = 0x5A };

static poincare_session session;
static poincare_stopper stopper;

/* Whether each call answers this code, and writes nothing. */
static void check_not_open(uint32_t code) {
    char out[4] = {GUARD, GUARD, GUARD, GUARD};
    size_t count = 77;
    uint32_t used = 7, left = 8;

    CHECK(poincare_line(&session, "1", 1) == code);
    CHECK(poincare_line_within(&session, "1", 1, 9) == code);
    CHECK(poincare_text(&session, out, sizeof out, &count) == code);
    CHECK(poincare_draw(&session, out, sizeof out, &count) == code);
    CHECK(poincare_pool(&session, &used, &left) == code);
    CHECK(poincare_close(&session) == code);
    CHECK(poincare_stopper_open(&stopper, &session) == code);
    CHECK(count == 77 && used == 7 && left == 8 && out[0] == GUARD && out[3] == GUARD);
}

static void check_stopper_not_open(uint32_t code) {
    CHECK(poincare_stop(&stopper) == code);
    CHECK(poincare_clear(&stopper) == code);
    CHECK(poincare_stopper_close(&stopper) == code);
}

static void check_sizes_of_slots(void) {
    CHECK(poincare_session_size() <= sizeof session);
    CHECK(poincare_stopper_size() <= sizeof stopper);
    CHECK(_Alignof(poincare_session) % poincare_session_align() == 0);
    CHECK(_Alignof(poincare_stopper) % poincare_stopper_align() == 0);
}

/* What POINCARE_NEW makes is what the calls write, byte by byte, and needs no call before it is opened. */
static void check_new(void) {
    static poincare_session fresh = POINCARE_NEW;
    static poincare_stopper still = POINCARE_NEW;
    static const char line[] = "1/3+1/6";

    memset(&session, GUARD, sizeof session);
    memset(&stopper, GUARD, sizeof stopper);
    poincare_session_init(&session);
    poincare_stopper_init(&stopper);
    CHECK(memcmp(&session, &fresh, poincare_session_size()) == 0);
    CHECK(memcmp(&stopper, &still, poincare_stopper_size()) == 0);
    CHECK(poincare_close(&fresh) == POINCARE_NOT_OPENED && poincare_stop(&still) == POINCARE_NOT_OPENED);
    CHECK(poincare_open(&fresh, POINCARE_DEFAULT_POOL) == POINCARE_DONE);
    CHECK(poincare_stopper_open(&still, &fresh) == POINCARE_DONE && poincare_stopper_close(&still) == POINCARE_DONE);
    CHECK(poincare_line(&fresh, line, sizeof line - 1) == POINCARE_SHOWN);
    CHECK(poincare_close(&fresh) == POINCARE_DONE);
}

/* The sizes that the header names are the last ones that are taken. */
static void check_limits(void) {
    char line[POINCARE_LONGEST_LINE + 1];

    memset(line, '1', sizeof line);
    poincare_session_init(&session);
    CHECK(poincare_open(&session, POINCARE_LEAST_POOL - 8) == POINCARE_BAD_POOL);
    CHECK(poincare_open(&session, POINCARE_GREATEST_POOL + 8) == POINCARE_BAD_POOL);
    CHECK(poincare_open(&session, POINCARE_GREATEST_POOL) == POINCARE_DONE);
    CHECK(poincare_line(&session, line, POINCARE_LONGEST_LINE) == POINCARE_NUMBER);
    CHECK(poincare_line(&session, line, POINCARE_LONGEST_LINE + 1) == POINCARE_LONG);
    CHECK(poincare_close(&session) == POINCARE_DONE);
    CHECK(poincare_session_size() <= sizeof session);
}

/* A slot from its beginning to its second end. */
static void check_slots(void) {
    poincare_session_init(&session);
    poincare_stopper_init(&stopper);
    check_not_open(POINCARE_NOT_OPENED);
    check_stopper_not_open(POINCARE_NOT_OPENED);

    CHECK(poincare_open(&session, 64) == POINCARE_DONE);
    check_stopper_not_open(POINCARE_NOT_OPENED);
    CHECK(poincare_stopper_open(&stopper, &session) == POINCARE_DONE);
    CHECK(poincare_stopper_open(&stopper, &session) == POINCARE_OPEN);

    /* An open slot stays as it is. */
    CHECK(answers(&session, "7", POINCARE_SHOWN, "7"));
    CHECK(poincare_open(&session, 128) == POINCARE_OPEN);
    CHECK(poincare_open(&session, 63) == POINCARE_OPEN);
    CHECK(answers(&session, ":pool", POINCARE_REPORT, "pool 16/64 nodes 1 trees 1"));
    CHECK(answers(&session, "ans", POINCARE_SHOWN, "7"));

    CHECK(poincare_close(&session) == POINCARE_DONE);
    CHECK(poincare_stopper_open(&stopper, &session) == POINCARE_OPEN);
    CHECK(poincare_stop(&stopper) == POINCARE_DONE);
    CHECK(poincare_clear(&stopper) == POINCARE_DONE);
    CHECK(poincare_stopper_close(&stopper) == POINCARE_DONE);
    check_not_open(POINCARE_CLOSED);
    check_stopper_not_open(POINCARE_CLOSED);

    /* Another session, of which nothing is left of the first. */
    CHECK(poincare_open(&session, 128) == POINCARE_DONE);
    CHECK(answers(&session, "ans", POINCARE_SHOWN, "0"));
    CHECK(poincare_stopper_open(&stopper, &session) == POINCARE_DONE);
    CHECK(poincare_stopper_close(&stopper) == POINCARE_DONE);
    CHECK(poincare_close(&session) == POINCARE_DONE);
    check_not_open(POINCARE_CLOSED);
    poincare_session_init(&session);
    poincare_stopper_init(&stopper);
    check_not_open(POINCARE_NOT_OPENED);
    check_stopper_not_open(POINCARE_NOT_OPENED);
}

static void check_pools(void) {
    static const uint32_t wrong[] = {0, 1, 8, 56, 63, 65, 100, 524279, 524281, 524288, 1u << 31, UINT32_MAX, UINT32_MAX - 7};
    static const uint32_t right[] = {64, 72, 32768, 524272, 524280};
    char out[8];
    size_t count = 77;

    for (size_t at = 0; at < sizeof wrong / sizeof *wrong; at++) {
        poincare_session_init(&session);
        CHECK(poincare_open(&session, wrong[at]) == POINCARE_BAD_POOL);
        CHECK(poincare_close(&session) == POINCARE_NOT_OPENED);
        CHECK(poincare_answers(wrong[at], "1", 1, out, sizeof out, &count) == POINCARE_BAD_POOL && count == 77);
    }
    for (size_t at = 0; at < sizeof right / sizeof *right; at++) {
        uint32_t used = 0, left = 0;
        poincare_session_init(&session);
        CHECK(poincare_open(&session, right[at]) == POINCARE_DONE);
        CHECK(poincare_pool(&session, &used, &left) == POINCARE_DONE && used == 16 && left == right[at] - 16);
        CHECK(answers(&session, "1+1", POINCARE_SHOWN, "2"));
        CHECK(poincare_close(&session) == POINCARE_DONE);
        CHECK(poincare_open(&session, 63) == POINCARE_BAD_POOL);
        CHECK(poincare_close(&session) == POINCARE_CLOSED);
    }
}

/* Each code of a line, with its text. */
static void check_codes(void) {
    static const struct {
        const char *line;
        uint32_t code;
        const char *text;
    } rows[] = {
        {"1+1", POINCARE_SHOWN, "2"},
        {"x+1→y", POINCARE_STORED, "1+x"},
        {"1->k", POINCARE_STORED, "1"},
        {"1/0", POINCARE_UNDEFINED, "undef"},
        {"", POINCARE_BLANK, ""},
        {" \t ", POINCARE_BLANK, ""},
        {":forget k", POINCARE_REPORT, "forgot k"},
        {":diff x x^2", POINCARE_REPORT, "2×x"},
        {":draw", POINCARE_DRAW, ""},
        {"2$3", POINCARE_CHARACTER, "! character 2"},
        {"170141183460469231731687303715884105728", POINCARE_NUMBER, "! number 1"},
        {"2+", POINCARE_SYNTAX, "! syntax"},
        {"5→ans", POINCARE_RESERVED, "! reserved"},
        {"2^127", POINCARE_OVERFLOW, "! overflow 2^127"},
        {"x+1→x", POINCARE_CIRCULAR, "! circular x"},
        {":nothing", POINCARE_COMMAND, "! command"},
        {":expand 1/x", POINCARE_NOT_POLYNOMIAL, "! not polynomial"},
        {":diff x x^z", POINCARE_NO_DERIVATIVE, "! no derivative"},
        {":solve x^2=1", POINCARE_NOT_LINEAR, "! not linear 1"},
        {":solve a+b+c+d+e+f+g=1", POINCARE_TOO_MANY, "! too many"},
        {":decimal 2 x", POINCARE_NO_DECIMAL, "! no decimal"},
        {":roots x x^3=2", POINCARE_DEGREE, "! degree"},
        {":roots x x^2=2", POINCARE_REPORT, "x=-√(2);x=√(2)"},
        {":decimal 2 1/8", POINCARE_REPORT, "≈0.13"},
        {":sign 1-√(2)", POINCARE_REPORT, "negative"},
        {":after 1", POINCARE_REPORT, "after 1"},
        {"1+2", POINCARE_INTERRUPTED, "! interrupted"},
        {"1+2", POINCARE_SHOWN, "3"},
    };
    char deep[80], name[32];

    poincare_session_init(&session);
    CHECK(poincare_open(&session, 32768) == POINCARE_DONE);
    for (size_t at = 0; at < sizeof rows / sizeof *rows; at++)
        if (!answers(&session, rows[at].line, rows[at].code, rows[at].text))
            printf("failed: %s\n", rows[at].line), failed++;
        else
            passed++;
    memset(deep, '-', 64);
    strcpy(deep + 64, "1");
    CHECK(answers(&session, deep, POINCARE_DEEP, "! deep"));
    for (int at = 0; at < 63; at++) {
        snprintf(name, sizeof name, "1→a%d", at);
        CHECK(answers(&session, name, POINCARE_STORED, "1"));
    }
    CHECK(answers(&session, "1→b", POINCARE_NAMES_FULL, "! names full"));
    CHECK(poincare_close(&session) == POINCARE_DONE);
    CHECK(poincare_open(&session, 64) == POINCARE_DONE);
    CHECK(answers(&session, "1+1+1+1", POINCARE_FULL, "! full needed 16 free 0"));
    CHECK(poincare_close(&session) == POINCARE_DONE);
}

/* Lines that are longer than is said, of no bytes, too long, and of bytes that are no UTF-8. */
static void check_lines(void) {
    static char line[1200];
    static const char *no_text[] = {"\xff", "1\x80", "\xe2\x88", "\xe2\x88\x9a", "\xc3\x97", "\xf0\x9f\x98\x80", "1+\xc3"};
    char text[64];
    size_t count;

    poincare_session_init(&session);
    CHECK(poincare_open(&session, 32768) == POINCARE_DONE);
    CHECK(poincare_line(&session, "1+23456", 3) == POINCARE_SHOWN);
    CHECK(poincare_text(&session, text, sizeof text, &count) == POINCARE_DONE && count == 1 && text[0] == '3');
    CHECK(poincare_line(&session, "1", 0) == POINCARE_BLANK);
    CHECK(poincare_text(&session, text, sizeof text, &count) == POINCARE_DONE && count == 0);
    CHECK(poincare_line_within(&session, "1", 0, 0) == POINCARE_BLANK);
    CHECK(poincare_line(&session, "1\0", 2) == POINCARE_CHARACTER);
    CHECK(poincare_line(&session, "1\n", 2) == POINCARE_CHARACTER);
    memset(line, ' ', sizeof line);
    CHECK(poincare_line(&session, line, 1024) == POINCARE_BLANK);
    CHECK(poincare_line(&session, line, 1025) == POINCARE_LONG);
    for (size_t at = 0; at < sizeof no_text / sizeof *no_text; at++) {
        uint32_t code = ask(&session, no_text[at], text, sizeof text);
        CHECK(code == POINCARE_CHARACTER || code == POINCARE_SYNTAX);
    }
    for (int byte = 0; byte < 256; byte++) {
        line[0] = (char)byte;
        uint32_t code = poincare_line(&session, line, 1);
        CHECK(code < POINCARE_NO_ROOM && poincare_text(&session, text, sizeof text, &count) == POINCARE_DONE);
    }
    CHECK(poincare_close(&session) == POINCARE_DONE);
}

static uint32_t text_of(poincare_session *from, char *out, size_t room, size_t *count) {
    return poincare_text(from, out, room, count);
}

/* Whether a call that writes `wanted` does so with each room up to one byte more than that. */
static void check_room(uint32_t call(poincare_session *, char *, size_t, size_t *), const char *line, uint32_t whole,
                       const char *wanted) {
    char out[256];
    size_t length = strlen(wanted);

    for (size_t room = 0; room <= length + 1; room++) {
        size_t count = 77;
        memset(out, GUARD, sizeof out);
        poincare_line(&session, line, strlen(line));
        uint32_t code = call(&session, out, room, &count);
        size_t fit = room < length ? room : length;
        CHECK(count == length && code == (room < length && whole == POINCARE_DONE ? POINCARE_NO_ROOM : whole));
        CHECK(memcmp(out, wanted, fit) == 0 && out[fit] == GUARD && out[fit + 1] == GUARD);
    }
}

static uint32_t answers_of_lines(poincare_session *unused, char *out, size_t room, size_t *count) {
    static const char lines[] = "1+1\r\n\n2+\n1/2\n:draw";

    (void)unused;
    return poincare_answers(128, lines, sizeof lines - 1, out, room, count);
}

static void check_rooms(void) {
    char text[64];
    size_t count = 77;

    poincare_session_init(&session);
    CHECK(poincare_open(&session, 200) == POINCARE_DONE);
    CHECK(poincare_text(&session, text, 0, &count) == POINCARE_DONE && count == 0);
    check_room(text_of, "√(8)+√(2)", POINCARE_DONE, "3×√(2)");
    check_room(text_of, "2+", POINCARE_DONE, "! syntax");
    check_room(text_of, "", POINCARE_DONE, "");
    check_room(text_of, ":draw", POINCARE_DONE, "");
    check_room(poincare_draw, "1/2", POINCARE_DONE, "1\n-\n2\n");
    CHECK(poincare_text(&session, text, sizeof text, &count) == POINCARE_DONE && count == 0);
    check_room(poincare_draw, "a+b+c+d+e", POINCARE_FULL, "! full needed 8 free 0\n");
    CHECK(answers(&session, "ans", POINCARE_SHOWN, "a+b+c+d+e"));
    check_room(answers_of_lines, "", POINCARE_DONE, "2\n! syntax\n1/2\n1\n-\n2\n");
    CHECK(poincare_answers(64, "1", 0, text, 0, &count) == POINCARE_DONE && count == 0);
    CHECK(poincare_answers(64, "\n \n\r\n", 5, text, 0, &count) == POINCARE_DONE && count == 0);
    CHECK(poincare_close(&session) == POINCARE_DONE);
}

/* Counts of checks: a sum of three numbers has four nodes. */
static void check_counts(void) {
    poincare_session_init(&session);
    CHECK(poincare_open(&session, 32768) == POINCARE_DONE);
    for (uint64_t checks = 0; checks < 4; checks++) {
        CHECK(poincare_line_within(&session, "1+2+3", 5, checks) == POINCARE_INTERRUPTED);
        CHECK(answers(&session, ":pool", POINCARE_REPORT, "pool 16/32768 nodes 1 trees 1"));
    }
    CHECK(poincare_line_within(&session, "1+2+3", 5, 4) == POINCARE_SHOWN);
    CHECK(poincare_line_within(&session, "1+2+3", 5, UINT64_MAX) == POINCARE_SHOWN);

    /* What is left of a count is over, and so is what `:after` asked for. */
    CHECK(poincare_line_within(&session, "1", 1, 2) == POINCARE_SHOWN);
    CHECK(answers(&session, "1+2+3", POINCARE_SHOWN, "6"));
    CHECK(answers(&session, ":after 5", POINCARE_REPORT, "after 5"));
    CHECK(poincare_line_within(&session, "1", 1, 7) == POINCARE_SHOWN);
    CHECK(answers(&session, "1+2+3+4+5+6+7+8", POINCARE_SHOWN, "36"));

    /* `:after` may be asked again and again, and counts over lines. */
    for (int time = 0; time < 3; time++) {
        CHECK(answers(&session, ":after 4", POINCARE_REPORT, "after 4"));
        CHECK(answers(&session, "1+2+3", POINCARE_SHOWN, "6"));
        CHECK(answers(&session, "7", POINCARE_INTERRUPTED, "! interrupted"));
        CHECK(answers(&session, "7", POINCARE_SHOWN, "7"));
    }
    CHECK(poincare_close(&session) == POINCARE_DONE);
}

/* Stops between lines, on one thread. */
static void check_stops(void) {
    static poincare_stopper second;

    poincare_session_init(&session);
    poincare_stopper_init(&stopper);
    poincare_stopper_init(&second);
    CHECK(poincare_open(&session, 32768) == POINCARE_DONE);
    CHECK(poincare_stopper_open(&stopper, &session) == POINCARE_DONE);
    CHECK(poincare_stopper_open(&second, &session) == POINCARE_DONE);

    /* A line that makes no check leaves the request for the next one; the one that is interrupted meets it. */
    CHECK(poincare_stop(&stopper) == POINCARE_DONE);
    CHECK(poincare_stop(&second) == POINCARE_DONE);
    CHECK(answers(&session, "", POINCARE_BLANK, ""));
    CHECK(answers(&session, "2+", POINCARE_SYNTAX, "! syntax"));
    CHECK(answers(&session, ":pool", POINCARE_REPORT, "pool 16/32768 nodes 1 trees 1"));
    CHECK(answers(&session, "1+1", POINCARE_INTERRUPTED, "! interrupted"));
    CHECK(answers(&session, "1+1", POINCARE_SHOWN, "2"));

    /* A line within a count is interrupted too, and the count does not take the request away. */
    CHECK(poincare_stop(&stopper) == POINCARE_DONE);
    CHECK(poincare_line_within(&session, "1+1", 3, 100) == POINCARE_INTERRUPTED);
    CHECK(poincare_line_within(&session, "1+1", 3, 100) == POINCARE_SHOWN);

    /* Taken back, by either. */
    CHECK(poincare_stop(&stopper) == POINCARE_DONE);
    CHECK(poincare_clear(&second) == POINCARE_DONE);
    CHECK(answers(&session, "1+1", POINCARE_SHOWN, "2"));
    CHECK(poincare_clear(&stopper) == POINCARE_DONE);

    /* What a stopper asked for stays asked when it is closed; one that outlives its session stops nothing. */
    CHECK(poincare_stop(&second) == POINCARE_DONE);
    CHECK(poincare_stopper_close(&second) == POINCARE_DONE);
    CHECK(answers(&session, "1+1", POINCARE_INTERRUPTED, "! interrupted"));
    CHECK(poincare_close(&session) == POINCARE_DONE);
    CHECK(poincare_open(&session, 64) == POINCARE_DONE);
    CHECK(poincare_stop(&stopper) == POINCARE_DONE);
    CHECK(answers(&session, "1+1", POINCARE_SHOWN, "2"));
    CHECK(poincare_stopper_close(&stopper) == POINCARE_DONE);
    CHECK(poincare_close(&session) == POINCARE_DONE);
}

int main(void) {
    check_sizes_of_slots();
    check_new();
    check_limits();
    check_slots();
    check_pools();
    check_codes();
    check_lines();
    check_rooms();
    check_counts();
    check_stops();
    return ended();
}
