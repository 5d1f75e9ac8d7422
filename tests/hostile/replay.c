/* Plays inputs of the fuzzer through the archive: replay, with the inputs on standard input, each after its length in four bytes,
   big-endian. Each is compared and checked as the fuzzer's target does it with the archive. Prints how many it played, and ends
   with 1 at the first that fails, or where an input is too long or cut. */
#define ARCHIVE
#include "fuzz.c"
#include "tally.h"

#include <stdio.h>
#include <stdlib.h>

enum { SHORT_INPUT = 64 };

static uint8_t input[1 << 16];

/* False at the end of standard input. */
static bool take_input(size_t *size) {
    uint8_t length[4];
    size_t taken = fread(length, 1, sizeof length, stdin);
    if (taken == 0) return false;
    *size = big_endian(length);
    if (taken == sizeof length && *size <= sizeof input && fread(input, 1, *size, stdin) == *size) return true;
    puts("an input is too long or cut");
    exit(1);
}

static void play(size_t size) {
    static uint8_t lent[MOST_ROOM];
    struct call call;
    LLVMFuzzerTestOneInput(input, size);
    if (take_call(input, size, &call)) count_call(&call, answer_of(&INDEPENDENT, &call, call.given, lent));
}

/* The fuzzer may not see the branches of the archive: so what is one bit away from a short input is played too. */
static void play_near(size_t size) {
    for (size_t bit = 0; size <= SHORT_INPUT && bit < 8 * size; bit++) {
        input[bit / 8] ^= (uint8_t)(1 << bit % 8);
        play(size);
        input[bit / 8] ^= (uint8_t)(1 << bit % 8);
    }
}

int main(void) {
    size_t size, played = 0;
    start_checks();
    print_astray();
    for (; take_input(&size); played++) {
        play(size);
        play_near(size);
    }
    print_tally();
    printf("%zu inputs played through the archive\n", played);
    return 0;
}
