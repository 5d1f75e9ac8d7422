#include "check.h"

#include <signal.h>
#include <stdio.h>
#include <stdlib.h>
#include <string.h>
#include <sys/mman.h>
#include <unistd.h>

enum { GUARD = 64, MOST_FILL = 1 << 15, FILLS = 1 << 12, MOST_BYTES = MOST_GIVEN + GUARD };
enum place { BEFORE_END, AFTER_START, NOWHERE, PLACES };

static const char *const PLACE_NAMES[PLACES] = { "before a page", "after a page", "NULL" };

/* Pages that can be used, from start to end, between two that cannot. */
struct pages { uint8_t *start, *end; };

/* Bytes within pages, with guard bytes on the side where there is no forbidden page. */
struct piece { uint8_t *bytes; size_t before, after; };

static struct pages given_pages, lent_pages;
static uint8_t fills[MOST_FILL];
static uint8_t own[GUARD + MOST_BYTES + GUARD];
static const struct call *now;

static struct pages new_pages(void) {
    size_t page = (size_t)sysconf(_SC_PAGESIZE), size = (MOST_BYTES + page - 1) / page * page;
    uint8_t *start = mmap(NULL, size + 2 * page, PROT_NONE, MAP_PRIVATE | MAP_ANONYMOUS, -1, 0);
    if (start == MAP_FAILED || mprotect(start + page, size, PROT_READ | PROT_WRITE) != 0) {
        perror("pages");
        exit(1);
    }
    return (struct pages){ start + page, start + page + size };
}

static void astray(int signal) {
    printf("signal %d in ", signal);
    print_call(now);
    fflush(stdout);
    _exit(1);
}

void start_checks(void) {
    uint32_t state = 1989;
    for (int i = 0; i < MOST_FILL; i++) {
        state = state * 1664525 + 1013904223;
        fills[i] = (uint8_t)(state >> 24);
    }
    given_pages = new_pages();
    lent_pages = new_pages();
}

void print_astray(void) {
    static const int SIGNALS[] = { SIGSEGV, SIGBUS, SIGILL, SIGFPE, SIGABRT };
    for (size_t i = 0; i < sizeof SIGNALS / sizeof *SIGNALS; i++) signal(SIGNALS[i], astray);
}

static struct piece piece_at(enum place place, struct pages pages, size_t count) {
    if (place == NOWHERE && count == 0) return (struct piece){ NULL, 0, 0 };
    if (place == AFTER_START) return (struct piece){ pages.start, 0, GUARD };
    return (struct piece){ pages.end - count, GUARD, 0 };
}

/* Where fills has what a piece is filled with, guard bytes too. */
static const uint8_t *filling(uint32_t fill) {
    return fills + GUARD + fill % FILLS;
}

static void fill_piece(struct piece piece, size_t count, uint32_t fill) {
    if (piece.bytes != NULL) memcpy(piece.bytes - piece.before, filling(fill) - piece.before, piece.before + count + piece.after);
}

static bool is_piece(struct piece piece, const uint8_t *expected, size_t count) {
    size_t whole = piece.before + count + piece.after;
    return piece.bytes == NULL || memcmp(piece.bytes - piece.before, expected - piece.before, whole) == 0;
}

static bool are_guards(struct piece piece, const uint8_t *expected, size_t count) {
    return piece.bytes == NULL || (memcmp(piece.bytes - piece.before, expected - piece.before, piece.before) == 0
                                   && memcmp(piece.bytes + count, expected + count, piece.after) == 0);
}

static bool is_equal(struct answer a, struct answer b) {
    return a.refusal == b.refusal && memcmp(a.value, b.value, sizeof a.value) == 0;
}

static bool is_all_zero(struct answer answer) {
    return answer.value[0] == 0 && answer.value[1] == 0 && answer.value[2] == 0;
}

/* What holds of any answer, whatever the independent implementation says. */
static bool is_in_order(const struct call *call, struct answer answer, struct piece lent, uint32_t fill) {
    size_t kept = call->room, written = 0;
    if (answer.refusal != 0) return is_all_zero(answer) && is_piece(lent, filling(fill), call->room);
    if (KINDS[call->function].is_lent) {
        written = (size_t)answer.value[0];
        if (written > call->room) return false;
        kept = call->room - written;
    }
    return lent.bytes == NULL || memcmp(lent.bytes + written, filling(fill) + written, kept) == 0;
}

static bool is_input_kept(const struct call *call, struct piece given, uint32_t fill) {
    if (call->length > 0 && memcmp(given.bytes, call->given, call->length) != 0) return false;
    return are_guards(given, filling(fill), call->length);
}

static bool tell(const char *what, const struct call *call, enum place place, const struct answer answers[2], const uint8_t *lent) {
    printf("%s, %s: ", what, PLACE_NAMES[place]);
    print_call(call);
    print_answer("other", answers[0]);
    print_answer("independent", answers[1]);
    if (lent != NULL) print_bytes("other's buffer", lent, call->room);
    if (lent != NULL) print_bytes("independent's buffer", own + GUARD, call->room);
    fflush(stdout);
    return false;
}

static bool is_same_at(enum place place, const struct implementation *other, const struct call *call, uint32_t fill,
                       struct answer expected) {
    struct piece given = piece_at(place, given_pages, call->length), lent = piece_at(place, lent_pages, call->room);
    fill_piece(given, call->length, fill);
    fill_piece(lent, call->room, fill);
    if (call->length > 0) memcpy(given.bytes, call->given, call->length);
    struct answer answers[2] = { answer_of(other, call, given.bytes, lent.bytes), expected };
    if (!is_input_kept(call, given, fill)) return tell("input changed", call, place, answers, NULL);
    if (!is_in_order(call, answers[0], lent, fill)) return tell("out of order", call, place, answers, lent.bytes);
    if (!is_equal(answers[0], answers[1])) return tell("different answer", call, place, answers, lent.bytes);
    if (!is_piece(lent, own + GUARD, call->room)) return tell("different bytes", call, place, answers, lent.bytes);
    return true;
}

/* The last of the places that make a difference to a call. */
static enum place last_place(const struct call *call) {
    const struct kind *kind = &KINDS[call->function];
    if (!kind->is_given && !kind->is_lent) return BEFORE_END;
    return (kind->is_given && call->length == 0) || (kind->is_lent && call->room == 0) ? NOWHERE : AFTER_START;
}

bool is_same(const struct implementation *other, const struct call *call, uint32_t fill, struct answer *answer) {
    now = call;
    memcpy(own, filling(fill) - GUARD, GUARD + call->room + GUARD);
    *answer = answer_of(&INDEPENDENT, call, call->given, own + GUARD);
    for (enum place place = BEFORE_END; place <= last_place(call); place++) {
        if (!is_same_at(place, other, call, fill, *answer)) return false;
    }
    return true;
}
