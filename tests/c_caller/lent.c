/* What a C caller may lend: an empty slice by a null pointer, memory at odd addresses, banks in several threads at once; and the stack that a call takes. */
#include "bleidhvan.h"
#include <pthread.h>
#include <stdio.h>
#include <stdlib.h>
#include <string.h>

enum { FRAMES = 96, BLOCKS = 40, THREADS = 4, CALLS = 4096, EVENTS = 6, KINDS = 5, STACK = 1 << 16, MOST = 6144 };

static const size_t SIZE = BLEIDHVAN_BANK_BYTES, COUNT = BLEIDHVAN_LINES;

static void hold(bool holds, const char *what) {
    if (!holds) {
        printf("lent: %s\n", what);
        exit(1);
    }
}

/* All that is lent to a call. */
typedef struct {
    uint8_t *bank;
    float *lines, *temp, *temp_2, *out, *aux;
    uint32_t *word;
    size_t *burst, *dust, *dispersion;
    bleidhvan_event *sheet;
    bleidhvan_answer *answers;
} World;

/* A world whose every part begins so many bytes behind an address that suits any number. */
static World lend(size_t odd) {
    size_t floats = FRAMES * sizeof(float), number = sizeof(size_t);
    size_t events = EVENTS * sizeof(bleidhvan_event), answers = BLEIDHVAN_EVENTS * sizeof(bleidhvan_answer);
    size_t sizes[12] = {SIZE, COUNT * sizeof(float), floats, floats, floats, floats, sizeof(uint32_t), number, number, number, events, answers};
    uint8_t *part[12];
    for (int k = 0; k < 12; k++) {
        part[k] = calloc(1, sizes[k] + 16);
        hold(part[k] != NULL, "there is no memory");
        part[k] += odd;
    }
    void *at[12];
    memcpy(at, part, sizeof at);
    return (World){at[0], at[1], at[2], at[3], at[4], at[5], at[6], at[7], at[8], at[9], at[10], at[11]};
}

static uint32_t open(const World *w, size_t slot, uint32_t kind) { return bleidhvan_open(w->bank, SIZE, w->lines, COUNT, slot, kind, 48000); }

static uint32_t reset(const World *w, size_t slot) { return bleidhvan_reset(w->bank, SIZE, w->lines, COUNT, slot); }

/* A render whose settings are drawn from k: struck, left and sustained, of high and low pitch, over a bridge and with dispersion. */
static uint32_t render(const World *w, size_t slot, size_t k, size_t frames) {
    bool sustain = k % 16 > 11, trigger = k % 16 < 2;
    float f0 = k % 4 < 2 ? 0.3f : 0.0009f, structure = k % 8 < 4 ? 0.1f : 0.9f;
    return bleidhvan_render(w->bank, SIZE, w->lines, COUNT, w->word, slot, sustain, trigger, 0.8f, f0, structure, 0.9f, 0.3f, w->temp, frames, w->temp_2, frames, w->out,
                            frames, w->aux, frames, w->burst, w->dust, w->dispersion, k % 5 == 0);
}

/* A sheet of the slots 3 to 5, the last of which is never opened, whose settings are drawn from k; of no events where there are no frames. */
static uint32_t sheet(const World *w, size_t k, size_t frames) {
    bleidhvan_event events[EVENTS];
    for (uint32_t e = 0; e < EVENTS; e++) {
        bool high = (k + e) % 4 < 2, bridge = (k + e) % 8 < 4;
        events[e] = (bleidhvan_event){.frame = (uint32_t)(e * frames / EVENTS),
                                      .slot = 3 + e % 3,
                                      .trigger = (k + e) % 16 < 2,
                                      .sustain = (k + e) % 16 > 11,
                                      .f0 = high ? 0.3f : 0.0009f,
                                      .accent = 0.8f,
                                      .structure = bridge ? 0.1f : 0.9f,
                                      .brightness = 0.9f,
                                      .damping = 0.3f};
    }
    memcpy(w->sheet, events, sizeof events);
    return bleidhvan_play(w->bank, SIZE, w->lines, COUNT, w->word, w->sheet, frames > 0 ? EVENTS : 0, w->answers, BLEIDHVAN_EVENTS, w->temp, frames, w->temp_2, frames, w->out,
                          frames, w->aux, frames, k % 5 == 0);
}

static void mix(uint64_t *sum, const void *from, size_t size) {
    for (const uint8_t *byte = from; size > 0; byte++, size--) *sum = (*sum ^ *byte) * 0x100000001b3;
}

/* The answers of a sheet, but for the four bytes of each that say nothing. */
static void mix_answers(uint64_t *sum, const World *w) {
    for (size_t k = 0; k < BLEIDHVAN_EVENTS; k++) {
        const uint8_t *answer = (const uint8_t *)w->answers + k * sizeof(bleidhvan_answer);
        mix(sum, answer, sizeof(uint32_t));
        mix(sum, answer + offsetof(bleidhvan_answer, burst), 3 * sizeof(size_t));
    }
}

/* A call's answer, and all that it left. */
static void mix_left(uint64_t *sum, uint32_t answer, const World *w) {
    mix(sum, &answer, sizeof answer);
    mix(sum, w->bank, SIZE);
    mix(sum, w->lines, COUNT * sizeof(float));
    mix(sum, w->temp, FRAMES * sizeof(float));
    mix(sum, w->temp_2, FRAMES * sizeof(float));
    mix(sum, w->out, FRAMES * sizeof(float));
    mix(sum, w->aux, FRAMES * sizeof(float));
    mix(sum, w->word, sizeof(uint32_t));
    mix(sum, w->burst, sizeof(size_t));
    mix(sum, w->dust, sizeof(size_t));
    mix(sum, w->dispersion, sizeof(size_t));
    mix_answers(sum, w);
}

/* Both voices, from a fresh bank: a checksum of all answers and of all that each call left. */
static uint64_t play(const World *w) {
    uint64_t sum = 0xcbf29ce484222325;
    uint32_t seed = 33;
    memcpy(w->word, &seed, sizeof seed);
    mix_left(&sum, bleidhvan_fresh(w->bank, SIZE), w);
    mix_left(&sum, open(w, 3, BLEIDHVAN_STRING), w);
    mix_left(&sum, open(w, 4, BLEIDHVAN_MODAL), w);
    for (size_t k = 0; k < BLOCKS; k++) {
        mix_left(&sum, render(w, 3, k, k % 3 == 0 ? FRAMES : 1 + k), w);
        mix_left(&sum, render(w, 4, k, k % 3 == 0 ? FRAMES : 1 + k), w);
        mix_left(&sum, sheet(w, k, k % 3 == 0 ? FRAMES : 1 + k), w);
    }
    mix_left(&sum, reset(w, 3), w);
    mix_left(&sum, render(w, 5, 0, FRAMES), w);
    return sum;
}

/* An empty slice may have a null pointer: it is a slice of length 0 like any other. */
static void empty_slices(void) {
    World w = lend(0), other = lend(0);
    hold(play(&w) == play(&other), "two worlds differ");
    World null = w;
    null.temp = null.temp_2 = null.out = null.aux = NULL;
    hold(bleidhvan_play(w.bank, SIZE, w.lines, COUNT, w.word, NULL, 0, w.answers, BLEIDHVAN_EVENTS, NULL, 0, NULL, 0, NULL, 0, NULL, 0, false) == 0, "a sheet of nothing is refused");
    hold(sheet(&other, 0, 0) == 0, "a sheet of no events is refused");
    for (size_t k = 0; k < 16; k++)
        for (size_t slot = 3; slot < 5; slot++) {
            hold(render(&null, slot, k, 0) == 0 && render(&other, slot, k, 0) == 0, "a block of no frames is refused");
            hold(*w.burst == 0 && *w.dust == 0 && *w.dispersion == 0, "a block of no frames draws words");
        }
    uint64_t sum = 0, others = 0;
    mix_left(&sum, 0, &w);
    mix_left(&others, 0, &other);
    hold(sum == others, "null pointers leave something else");
    hold(bleidhvan_fresh(NULL, 0) == 1, "fresh of no bytes");
    hold(bleidhvan_open(NULL, 0, w.lines, COUNT, 0, 1, 48000) == 1, "an opening in no bank");
    hold(bleidhvan_open(w.bank, SIZE, NULL, 0, 0, 1, 48000) == 1, "an opening with no lines");
    hold(bleidhvan_reset(NULL, 0, w.lines, COUNT, 3) == 1, "a reset in no bank");
    hold(bleidhvan_reset(w.bank, SIZE, NULL, 0, 3) == 1, "a reset with no lines");
    hold(bleidhvan_render(NULL, 0, NULL, 0, w.word, 3, true, true, 0, 0.1f, 0, 0, 0, NULL, 0, NULL, 0, NULL, 0, NULL, 0, w.burst, w.dust, w.dispersion, false) == 1,
         "a render of nothing");
    hold(bleidhvan_render(w.bank, SIZE, w.lines, COUNT, w.word, 3, true, true, 0, 0.1f, 0, 0, 0, NULL, 0, w.temp_2, FRAMES, w.out, FRAMES, w.aux, FRAMES, w.burst, w.dust,
                          w.dispersion, false) == 7, "one empty buffer");
    hold(bleidhvan_play(NULL, 0, NULL, 0, w.word, NULL, 0, NULL, 0, NULL, 0, NULL, 0, NULL, 0, NULL, 0, false) == 1, "a sheet in no bank");
    sum = 0;
    mix_left(&sum, 0, &w);
    hold(sum == others, "a refused call changes something");
}

/* C itself makes no float pointer at an odd address. The compiled calls read floats at any. */
static void odd_addresses(uint64_t plain) {
    for (size_t odd = 1; odd < 16; odd++) {
        World w = lend(odd);
        hold(play(&w) == plain, "other bits at an odd address");
    }
}

static pthread_barrier_t all_here;

static void *in_thread(void *sum) {
    World w = lend(0);
    pthread_barrier_wait(&all_here);
    *(uint64_t *)sum = play(&w);
    return NULL;
}

static void threads(uint64_t plain) {
    pthread_t thread[THREADS];
    uint64_t sums[THREADS];
    hold(pthread_barrier_init(&all_here, NULL, THREADS) == 0, "there is no barrier");
    for (int k = 0; k < THREADS; k++) hold(pthread_create(&thread[k], NULL, in_thread, &sums[k]) == 0, "there is no thread");
    for (int k = 0; k < THREADS; k++) hold(pthread_join(thread[k], NULL) == 0 && sums[k] == plain, "other bits beside other threads");
}

static World played;
static uint8_t *stack;
static size_t most[KINDS];

/* One of many calls of each kind. */
static void call(int kind, size_t k) {
    if (kind == 0) open(&played, k % 8, 1 + k % 2);
    if (kind == 1) reset(&played, k % 4 * 2);
    if (kind == 2) render(&played, 2, k, FRAMES);
    if (kind == 3) render(&played, 3, k % 1024 > 1000 ? k : k % 1024 == 0 ? 0 : 2 + k % 10, FRAMES);
    if (kind == 4) sheet(&played, k, FRAMES);
}

/* Fills the stack below itself with a pattern, but for what it takes. */
__attribute__((noinline)) static void fill(void) {
    volatile uint8_t *top = (uint8_t *)__builtin_frame_address(0) - 128;
    for (volatile uint8_t *byte = stack; byte < top; byte++) *byte = 0xa5;
}

/* How far below this function a call has written. */
__attribute__((noinline)) static size_t depth(int kind, size_t k) {
    fill();
    call(kind, k);
    volatile uint8_t *byte = stack;
    while (*byte == 0xa5) byte++;
    return (size_t)((uint8_t *)__builtin_frame_address(0) - byte);
}

static void *measure(void *none) {
    for (int kind = 0; kind < KINDS; kind++)
        for (size_t k = 0; k < CALLS; k++) {
            size_t now = depth(kind, k);
            if (now > most[kind]) most[kind] = now;
        }
    return none;
}

/* The stack is measured in a thread whose stack is known. What was called before has bound what the dynamic linker binds at a first call. */
static void stacks(bool say) {
    static const char *names[KINDS] = {"an opening", "a reset", "a string's render", "a modal voice's render", "a sheet"};
    pthread_attr_t attributes;
    pthread_t thread;
    played = lend(0);
    play(&played);
    stack = aligned_alloc(4096, STACK);
    hold(stack != NULL && pthread_attr_init(&attributes) == 0 && pthread_attr_setstack(&attributes, stack, STACK) == 0, "there is no stack");
    hold(pthread_create(&thread, &attributes, measure, NULL) == 0 && pthread_join(thread, NULL) == 0, "there is no thread");
    for (int kind = 0; kind < KINDS; kind++) {
        if (say) printf("%s: %zu bytes of stack\n", names[kind], most[kind]);
        hold(most[kind] > 256 && most[kind] < MOST, "the stack that a call takes");
    }
}

/* With an argument it prints the stack that each call takes. */
int main(int argc, char **argv) {
    World w = lend(0);
    uint64_t plain = play(&w);
    empty_slices();
    odd_addresses(plain);
    threads(plain);
    stacks(argc > 1 && argv[1] != NULL);
    return 0;
}
