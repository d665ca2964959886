/* Sheets from C: the renders of a sheet beside the same renders by themselves, the ends of what is accepted, and every number of a sheet, alone and beside each later one. */
#include "bleidhvan.h"
#include "other_length.h"
#include <math.h>
#include <stdio.h>
#include <stdlib.h>
#include <string.h>

enum { FRAMES = BLEIDHVAN_FRAMES + 1, MOST = BLEIDHVAN_EVENTS + 1, BLOCK = 100 };

_Static_assert(sizeof(bleidhvan_event) == 36 && offsetof(bleidhvan_event, f0) == 16 && offsetof(bleidhvan_event, damping) == 32, "an event has nine words");
_Static_assert(sizeof(bleidhvan_answer) == 32 && offsetof(bleidhvan_answer, burst) == 8 && offsetof(bleidhvan_answer, dispersion) == 24, "an answer has 32 bytes");

/* All that is lent to a sheet's call, but for the answers. */
typedef struct {
    uint8_t bank[BLEIDHVAN_BANK_BYTES + 1];
    float lines[BLEIDHVAN_LINES + 1], buffers[4][FRAMES + 1];
    uint32_t word;
    bleidhvan_event sheet[MOST];
    size_t bank_len, lines_len, events, answers_len, lens[4];
} World;

static World world, before;
static bleidhvan_answer answers[BLEIDHVAN_EVENTS + 1];

static void hold(bool holds, const char *what, uint32_t number) {
    if (!holds) {
        printf("sheet: %s, %u\n", what, (unsigned)number);
        exit(1);
    }
}

static uint32_t play(void) {
    World *w = &world;
    memset(answers, 0x5a, sizeof answers);
    return bleidhvan_play(w->bank, w->bank_len, w->lines, w->lines_len, &w->word, w->sheet, w->events, answers, w->answers_len, w->buffers[0], w->lens[0], w->buffers[1],
                          w->lens[1], w->buffers[2], w->lens[2], w->buffers[3], w->lens[3], false);
}

/* The render of an event by itself, on the frames up to one. */
static bleidhvan_answer render(World *w, const bleidhvan_event *e, size_t to) {
    bleidhvan_answer a;
    size_t n = to - e->frame;
    float *at[4];
    for (int k = 0; k < 4; k++) at[k] = w->buffers[k] + e->frame;
    a.number = bleidhvan_render(w->bank, w->bank_len, w->lines, w->lines_len, &w->word, e->slot, e->sustain == 1, e->trigger == 1, e->accent, e->f0, e->structure,
                                e->brightness, e->damping, at[0], n, at[1], n, at[2], n, at[3], n, &a.burst, &a.dust, &a.dispersion, false);
    return a;
}

/* Strings in the even slots of 0 to 5, modal voices in the odd ones, two empty slots, and a full sheet that is accepted. */
static void begin(size_t frames) {
    World *w = &world;
    memset(w, 0x3c, sizeof *w);
    w->bank_len = BLEIDHVAN_BANK_BYTES;
    w->lines_len = BLEIDHVAN_LINES;
    w->events = w->answers_len = BLEIDHVAN_EVENTS;
    for (int k = 0; k < 4; k++) w->lens[k] = frames;
    hold(bleidhvan_fresh(w->bank, w->bank_len) == BLEIDHVAN_ACCEPTED, "fresh", 0);
    for (uint32_t slot = 0; slot < 6; slot++) hold(bleidhvan_open(w->bank, w->bank_len, w->lines, w->lines_len, slot, 1 + slot % 2, 48000) == BLEIDHVAN_ACCEPTED, "open", slot);
    for (uint32_t k = 0; k < MOST; k++)
        w->sheet[k] = (bleidhvan_event){.frame = k, .slot = k % 6, .trigger = k % 3 == 0, .sustain = k % 5 == 0, .f0 = 0.3f / (1 + k), .accent = 0.5f, .structure = k / 64.0f};
}

static bool same(const bleidhvan_answer *a, const bleidhvan_answer *b) {
    return a->number == b->number && a->burst == b->burst && a->dust == b->dust && a->dispersion == b->dispersion;
}

/* A frame that several events share, slots that are empty or not there, and a knob that is out of its range. */
static void odd_events(void) {
    for (uint32_t k = 20; k < 30; k++) world.sheet[k].frame = 22;
    for (uint32_t k = 40; k < 50; k++) world.sheet[k].slot = k % 10;
    world.sheet[50].slot = UINT32_MAX;
    world.sheet[51].f0 = nextafterf(0.5f, 1);
    world.sheet[52].accent = NAN;
    world.sheet[53].structure = -0x1p-149f;
    world.sheet[54].brightness = nextafterf(1, 2);
    world.sheet[55].damping = INFINITY;
}

/* Every event makes its render, in order, from its frame to the next event of its slot or the block's end. */
static void renders(size_t events, size_t frames) {
    static const uint32_t numbers[] = {2, 5, 9, 10, 11, 12, 13};
    size_t seen[14] = {0};
    begin(frames);
    odd_events();
    world.events = events;
    before = world;
    hold(play() == BLEIDHVAN_ACCEPTED, "a sheet is refused", (uint32_t)events);
    for (size_t k = 0; k < BLEIDHVAN_EVENTS; k++) {
        bleidhvan_answer expected = {0, 0, 0, 0};
        size_t to = frames;
        for (size_t later = events; later-- > k + 1;)
            if (before.sheet[later].slot == before.sheet[k].slot) to = before.sheet[later].frame;
        if (k < events) expected = render(&before, &before.sheet[k], to);
        hold(same(&answers[k], &expected), "another answer of event", (uint32_t)k);
        seen[expected.number]++;
    }
    hold(memcmp(&world, &before, sizeof world) == 0, "a sheet leaves something else than its renders", (uint32_t)events);
    for (int k = 0; k < 7; k++) hold(events < BLEIDHVAN_EVENTS || seen[numbers[k]] > 0, "no event was refused with", numbers[k]);
}

/* Refused whole: each answer is the number with zeros, where there are 64 of them, and nothing else has changed. */
static void refused(uint32_t number) {
    before = world;
    hold(play() == number, "another number than", number);
    hold(memcmp(&world, &before, sizeof world) == 0, "a refused sheet changed something", number);
    bleidhvan_answer zeros = {number, 0, 0, 0}, untouched;
    memset(&untouched, 0x5a, sizeof untouched);
    bool written = world.answers_len == BLEIDHVAN_EVENTS;
    for (int k = 0; k < BLEIDHVAN_EVENTS; k++) hold(same(&answers[k], written ? &zeros : &untouched), "the answers of a sheet refused with", number);
    hold(same(&answers[BLEIDHVAN_EVENTS], &untouched), "an answer beyond the last", number);
}

/* What is wrong, by the numbers of a sheet. */
static void spoil(uint32_t number, int way) {
    World *w = &world;
    uint8_t *last = w->bank + 7 * BLEIDHVAN_SLOT_BYTES;
    bleidhvan_event *event = &w->sheet[w->events - 1];
    uint32_t past[] = {BLEIDHVAN_FRAMES, FRAMES, UINT32_MAX, 1u << 31};
    if (number == BLEIDHVAN_MEMORY) {
        if (way == 0) w->lines_len++;
        if (way == 1) w->bank_len--;
        if (way == 2) last[0] = 3;
        if (way == 3) last[392] = 2;
        if (way == 4) event->trigger = 2;
        if (way == 5) w->sheet[0].sustain = UINT32_MAX;
        if (way == 6) w->answers_len = BLEIDHVAN_EVENTS - 1;
        if (way == 7) w->answers_len = BLEIDHVAN_EVENTS + 1;
    }
    other_length(w->lens, number, way);
    if (number == BLEIDHVAN_TOO_LONG)
        for (int k = 0; k < 4; k++) w->lens[k] = FRAMES;
    if (number == BLEIDHVAN_TOO_MANY) w->events = BLEIDHVAN_EVENTS + 1;
    if (number == BLEIDHVAN_OUT_OF_ORDER) w->sheet[way + 1].frame = (uint32_t)way - (way > 0);
    if (number == BLEIDHVAN_OUT_OF_ORDER && way == 0) w->sheet[0].frame = 2;
    if (number == BLEIDHVAN_PAST_END) event->frame = past[way % 4];
}

/* Each number alone, and beside every later one. */
static void every_number(void) {
    static const uint32_t numbers[] = {BLEIDHVAN_MEMORY,   BLEIDHVAN_TEMP_2_LENGTH, BLEIDHVAN_OUT_LENGTH,   BLEIDHVAN_AUX_LENGTH,
                                       BLEIDHVAN_TOO_LONG, BLEIDHVAN_TOO_MANY,      BLEIDHVAN_OUT_OF_ORDER, BLEIDHVAN_PAST_END};
    for (int first = 0; first < 8; first++)
        for (int later = first; later < 8; later++)
            for (int way = 0; way < 8; way++) {
                begin(BLEIDHVAN_FRAMES);
                spoil(numbers[later], way);
                spoil(numbers[first], way);
                refused(numbers[first]);
            }
}

/* The last that is accepted and the first that is not, of each number of a sheet by itself. */
static void ends(void) {
    begin(BLOCK);
    world.events = 0;
    for (int k = 0; k < 4; k++) world.lens[k] = 0;
    before = world;
    hold(play() == BLEIDHVAN_ACCEPTED && memcmp(&world, &before, sizeof world) == 0, "a block of no frames takes a sheet of no events", 0);
    world.events = 1;
    refused(BLEIDHVAN_PAST_END);
    begin(BLOCK);
    for (int k = 0; k < MOST; k++) world.sheet[k].frame = BLOCK - 1;
    hold(play() == BLEIDHVAN_ACCEPTED, "64 events at the last frame", 0);
    world.events = MOST;
    refused(BLEIDHVAN_TOO_MANY);
    world.events = 2;
    world.sheet[1].frame = BLOCK;
    refused(BLEIDHVAN_PAST_END);
    world.sheet[1].frame = BLOCK - 2;
    refused(BLEIDHVAN_OUT_OF_ORDER);
}

int main(void) {
    for (size_t events = 0; events <= BLEIDHVAN_EVENTS; events++) renders(events, BLOCK);
    renders(BLEIDHVAN_EVENTS, BLEIDHVAN_FRAMES);
    every_number();
    ends();
    return 0;
}
