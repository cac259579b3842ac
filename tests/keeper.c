/*
 * Reads sayings as the program board does, says them by the functions of keeper.h, and prints the same lines; so it can be compared with what that prints.
 * It ends at the first byte that says nothing.
 */
#include "keeper.h"
#include <inttypes.h>
#include <stdio.h>

static uint64_t memory[KEEPER_MEMORY], out[KEEPER_OUTPUT], row[KEEPER_OUTPUT];

static uint64_t card(void) {
    int low = getchar();
    int high = getchar();
    return (uint64_t)low + 256 * (uint64_t)high;
}

static KeeperAnswer say_several(void) {
    KeeperLink links[256];
    int count = getchar();
    size_t n = count == 0 ? 256 : (size_t)count;
    for (size_t i = 0; i < n; i++) {
        links[i].from = card();
        links[i].to = card();
    }
    return keeper_several(memory, KEEPER_MEMORY, links, n, out, KEEPER_OUTPUT);
}

static KeeperAnswer say_of_one(int kind) {
    uint64_t one = card();
    return kind == 0 ? keeper_comes(memory, KEEPER_MEMORY, one, out, KEEPER_OUTPUT)
                     : keeper_goes(memory, KEEPER_MEMORY, one, out, KEEPER_OUTPUT);
}

static KeeperAnswer say_of_two(int kind) {
    uint64_t a = card();
    uint64_t b = card();
    switch (kind) {
    case 2:
        return keeper_link(memory, KEEPER_MEMORY, a, b, out, KEEPER_OUTPUT);
    case 3:
        return keeper_unlink(memory, KEEPER_MEMORY, a, b, out, KEEPER_OUTPUT);
    default:
        return keeper_places(memory, KEEPER_MEMORY, a, b, out, KEEPER_OUTPUT);
    }
}

static KeeperAnswer say(int kind) {
    switch (kind) {
    case 0:
    case 1:
        return say_of_one(kind);
    case 5:
        return say_several();
    case 6:
        return keeper_anew(memory, KEEPER_MEMORY, out, KEEPER_OUTPUT);
    default:
        return say_of_two(kind);
    }
}

static void print(const uint64_t *numbers, uint64_t n) {
    for (uint64_t i = 0; i < n; i++) {
        printf("%s%" PRIu64, i > 0 ? " " : "", numbers[i]);
    }
    printf("\n");
}

static void print_answer(KeeperAnswer answer) {
    if (!answer.done) {
        printf("refused %" PRIu64 "%s", answer.reason, answer.shown > 0 ? ": " : "");
        print(out, answer.shown);
    } else if (answer.shown > 0) {
        print(out, answer.shown);
    } else {
        print(row, keeper_row(memory, KEEPER_MEMORY, row, KEEPER_OUTPUT));
    }
}

int main(void) {
    for (int kind = getchar(); kind >= 0 && kind <= 6; kind = getchar()) {
        print_answer(say(kind));
    }
    return 0;
}
