/* Every answer by its name, first where it is checked and in the order of the checks; that a refused call changes nothing; and what an opening leaves. */
#include "bleidhvan.h"
#include "other_length.h"
#include <math.h>
#include <stdio.h>
#include <stdlib.h>
#include <string.h>

enum { FRAMES = BLEIDHVAN_FRAMES + 1 };

/* All that is lent to a call, and what a render is told. */
typedef struct {
    uint8_t bank[BLEIDHVAN_BANK_BYTES + 1];
    float lines[BLEIDHVAN_LINES + 1], buffers[4][FRAMES + 1];
    uint32_t word;
    size_t bank_len, lines_len, slot, lens[4], counts[3];
    uint32_t kind;
    float rate, knobs[5]; /* f0, accent, structure, brightness, damping: in the order of their numbers */
} World;

static World world, before;

static void hold(bool holds, const char *what, uint32_t number) {
    if (!holds) {
        printf("answers: %s, %u\n", what, (unsigned)number);
        exit(1);
    }
}

static uint32_t fresh(void) { return bleidhvan_fresh(world.bank, world.bank_len); }

static uint32_t open(void) { return bleidhvan_open(world.bank, world.bank_len, world.lines, world.lines_len, world.slot, world.kind, world.rate); }

static uint32_t reset(void) { return bleidhvan_reset(world.bank, world.bank_len, world.lines, world.lines_len, world.slot); }

static uint32_t render(void) {
    World *w = &world;
    return bleidhvan_render(w->bank, w->bank_len, w->lines, w->lines_len, &w->word, w->slot, false, true, w->knobs[1], w->knobs[0], w->knobs[2], w->knobs[3], w->knobs[4],
                            w->buffers[0], w->lens[0], w->buffers[1], w->lens[1], w->buffers[2], w->lens[2], w->buffers[3], w->lens[3], &w->counts[0], &w->counts[1],
                            &w->counts[2], false);
}

/* A string in slot 0, a modal voice in slot 1, and arguments that are accepted. */
static void begin(void) {
    memset(&world, 0x3c, sizeof world);
    world.bank_len = BLEIDHVAN_BANK_BYTES;
    world.lines_len = BLEIDHVAN_LINES;
    world.rate = 48000;
    for (int k = 0; k < 5; k++) world.knobs[k] = 0.5f;
    for (int k = 0; k < 4; k++) world.lens[k] = BLEIDHVAN_FRAMES;
    hold(fresh() == BLEIDHVAN_ACCEPTED, "fresh", 0);
    for (world.slot = 2; world.slot-- > 0;) {
        world.kind = world.slot == 0 ? BLEIDHVAN_STRING : BLEIDHVAN_MODAL;
        hold(open() == BLEIDHVAN_ACCEPTED, "open", 0);
    }
    world.slot = 0;
    world.kind = BLEIDHVAN_STRING;
}

/* What is wrong, by the numbers of the answers; the places of a bank that number 1 reads are in slot 7. */
static void spoil(uint32_t number, int way) {
    World *w = &world;
    float beyond[] = {nextafterf(1, 2), -0x1p-149f, NAN, INFINITY};
    float off[] = {nextafterf(0.5f, 1), nextafterf(0x1p-20f, 0), NAN, -0.25f};
    float rates[] = {nextafterf(8000, 0), nextafterf(192000, 1e9f), NAN, -48000};
    uint32_t kinds[] = {0, 3, UINT32_MAX, 256};
    size_t slots[] = {BLEIDHVAN_SLOTS, 9, SIZE_MAX, (size_t)1 << 32};
    uint8_t *last = w->bank + 7 * BLEIDHVAN_SLOT_BYTES;
    if (number == BLEIDHVAN_MEMORY) {
        if (way == 0) w->lines_len++;
        if (way == 1) last[0] = 3;
        if (way == 2) last[25] = 4, last[29] = 1;
        if (way == 3) last[392] = 2;
    }
    if (number == BLEIDHVAN_NO_SLOT) w->slot = slots[way];
    if (number == BLEIDHVAN_KIND) w->kind = kinds[way];
    if (number == BLEIDHVAN_SAMPLE_RATE) w->rate = rates[way];
    if (number == BLEIDHVAN_EMPTY) w->slot = 2 + (size_t)way;
    if (number == BLEIDHVAN_NO_RESET) w->slot = 1;
    other_length(w->lens, number, way);
    if (number == BLEIDHVAN_TOO_LONG)
        for (int k = 0; k < 4; k++) w->lens[k] = FRAMES;
    if (number == BLEIDHVAN_F0) w->knobs[0] = off[way];
    if (number > BLEIDHVAN_F0 && number <= BLEIDHVAN_DAMPING) w->knobs[number - BLEIDHVAN_F0] = beyond[way];
}

/* Each of a call's numbers alone, and beside every later one of them, gives its own number and changes nothing. */
static void refused(uint32_t call(void), const uint32_t *numbers, int n) {
    for (int first = 0; first < n; first++)
        for (int later = first; later < n; later++)
            for (int way = 0; way < 4; way++) {
                begin();
                spoil(numbers[later], way);
                spoil(numbers[first], way);
                before = world;
                uint32_t number = call();
                hold(number == numbers[first], "another answer than", numbers[first]);
                if (call == render) memset(before.counts, 0, sizeof before.counts);
                hold(memcmp(&world, &before, sizeof world) == 0, "a refused call changed something", number);
            }
}

static void every_answer(void) {
    const uint32_t opening[] = {BLEIDHVAN_MEMORY, BLEIDHVAN_NO_SLOT, BLEIDHVAN_KIND, BLEIDHVAN_SAMPLE_RATE};
    const uint32_t resetting[] = {BLEIDHVAN_MEMORY, BLEIDHVAN_NO_SLOT, BLEIDHVAN_EMPTY};
    const uint32_t modal[] = {BLEIDHVAN_MEMORY, BLEIDHVAN_NO_RESET};
    const uint32_t rendering[] = {BLEIDHVAN_MEMORY,   BLEIDHVAN_NO_SLOT, BLEIDHVAN_EMPTY,  BLEIDHVAN_TEMP_2_LENGTH, BLEIDHVAN_OUT_LENGTH, BLEIDHVAN_AUX_LENGTH,
                                  BLEIDHVAN_TOO_LONG, BLEIDHVAN_F0,      BLEIDHVAN_ACCENT, BLEIDHVAN_STRUCTURE,     BLEIDHVAN_BRIGHTNESS, BLEIDHVAN_DAMPING};
    refused(open, opening, 4);
    refused(reset, resetting, 3);
    refused(reset, modal, 2);
    refused(render, rendering, 12);
    for (size_t len = 0; len < 2; len++) {
        begin();
        world.bank_len += 1 - 2 * len;
        before = world;
        hold(fresh() == BLEIDHVAN_MEMORY && memcmp(&world, &before, sizeof world) == 0, "fresh of another length", 1);
    }
}

/* The ends of every range are accepted, and -0 where 0 is. */
static void ends(void) {
    float rates[] = {8000, 192000}, f0s[] = {0x1p-20f, 0.5f}, knobs[] = {0, 1, -0.0f};
    size_t frames[] = {0, 1, BLEIDHVAN_FRAMES};
    for (size_t slot = 0; slot < BLEIDHVAN_SLOTS; slot++)
        for (int k = 0; k < 24; k++) {
            begin();
            world.slot = slot;
            world.kind = 1 + (uint32_t)k % 2;
            world.rate = rates[k / 2 % 2];
            for (int b = 0; b < 4; b++) world.lens[b] = frames[k % 3];
            for (int knob = 1; knob < 5; knob++) world.knobs[knob] = knobs[(k + knob) % 3];
            world.knobs[0] = f0s[k / 4 % 2];
            hold(open() == BLEIDHVAN_ACCEPTED && render() == BLEIDHVAN_ACCEPTED, "an end of a range is refused", (uint32_t)k);
        }
}

static bool zeros(const void *from, size_t size) {
    for (const uint8_t *byte = from; size > 0; byte++, size--)
        if (*byte != 0) return false;
    return true;
}

static float float_at(const uint8_t *bytes) {
    float x;
    memcpy(&x, bytes, sizeof x);
    return x;
}

/* A slot that is opened keeps nothing of what it held: what docs/ABI.md does not name is 0, the fields of the other kind too. */
static void openings(void) {
    for (uint32_t held = 0; held < 3; held++)
        for (uint32_t kind = 1; kind < 3; kind++) {
            begin();
            world.slot = held == 2 ? 1 : 0;
            uint8_t *slot = world.bank + world.slot * BLEIDHVAN_SLOT_BYTES;
            if (held > 0) hold(render() == BLEIDHVAN_ACCEPTED, "a render", 0);
            if (held == 0) memset(slot + 96, 0x41, 296), memset(slot + 32, 0x41, 60), slot[392] = 1;
            world.kind = kind;
            world.rate = 40000;
            hold(open() == BLEIDHVAN_ACCEPTED, "open", 0);
            hold(slot[0] == kind && zeros(slot + 1, 3), "the kind", kind);
            hold(zeros(world.lines + world.slot * BLEIDHVAN_SLOT_LINES, BLEIDHVAN_SLOT_LINES * sizeof(float)), "the slot's lines", kind);
            hold(zeros(slot + 92, 4) && zeros(slot + 96, 8) && zeros(slot + 200, 193), "left, the modal voice's filters, the flag", kind);
            if (kind == BLEIDHVAN_MODAL) {
                hold(zeros(slot + 4, 88), "the string voice of a modal slot", kind);
                for (int k = 0; k < 24; k++) hold(fabsf(float_at(slot + 104 + 4 * k)) <= 1 && float_at(slot + 104 + 4 * k) != 0, "an amplitude", kind);
                continue;
            }
            hold(zeros(slot + 104, 96), "the amplitudes of a string slot", kind);
            hold(zeros(slot + 16, 16) && zeros(slot + 44, 8) && zeros(slot + 56, 8) && zeros(slot + 68, 20), "the string's memory", kind);
            hold(memcmp(slot + 4, slot + 32, 12) == 0 && float_at(slot + 8) == 1 / 100.0f, "g, r and h", kind);
            hold(float_at(slot + 52) == 1 - 20 / 40000.0f && float_at(slot + 64) == 100 && float_at(slot + 88) == 40000, "pole, delay and rate", kind);
        }
}

int main(void) {
    every_answer();
    ends();
    openings();
    return 0;
}
