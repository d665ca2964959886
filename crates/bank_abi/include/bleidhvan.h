/* The bank's calls, of libbank_abi.a (make target/staticlib/libbank_abi.a). docs/ABI.md has the same at more length, examples, the bytes of a bank, and what no
   theorem covers.

   A slice is a pointer and the number of its elements. Each pointer has as many elements as its length says, and nothing lent to one call may overlap. A pointer may be
   null where its length is 0, and no other may. A bool is 0 or 1. Nothing is kept between calls but what the caller lends: bank, line memory and word. So a call may
   come from any thread, and calls on different banks at the same time.

   The calls take floats as a process has them at its start: rounded to nearest, with subnormal numbers. Where flush to zero, denormals as zero or another rounding is
   set, set MXCSR to 0x1f80 before the calls and restore it behind them. */
#ifndef BLEIDHVAN_H
#define BLEIDHVAN_H

#include <stdbool.h>
#include <stddef.h>
#include <stdint.h>

/* A bank has 8 slots, 0 to 7, of 393 bytes each. */
#define BLEIDHVAN_SLOTS 8
#define BLEIDHVAN_BANK_BYTES 3144
#define BLEIDHVAN_SLOT_BYTES 393

/* Line memory has 10,240 floats, of which slot s owns 1,280, from 1280 * s on. */
#define BLEIDHVAN_LINES 10240
#define BLEIDHVAN_SLOT_LINES 1280

/* The most frames of a block. */
#define BLEIDHVAN_FRAMES 4096

/* The most events of a sheet, and the answers that its call is lent. */
#define BLEIDHVAN_EVENTS 64

/* What a slot is opened with; 0 is the kind of an empty slot. */
#define BLEIDHVAN_STRING 1
#define BLEIDHVAN_MODAL 2

/* The answers. A call makes its checks in the order of this list and gives the first that applies. The ends of a range are within it, and a NaN is in no range.
   A refused call changes nothing: bank, line memory, word and buffers are as they were. A refused render writes 0 to its three counts, and a sheet that is refused whole
   its number and three zeros to each answer. */
enum {
    BLEIDHVAN_ACCEPTED = 0,
    BLEIDHVAN_MEMORY = 1,      /* every call: bank_len is not 3144; every call but fresh: lines_len is not 10240, or of any slot a kind above 2, a write place at or
                                  above 1024 (string) or 256 (stretch), left above 1048576, or a flag above 1; play also: a trigger or sustain of any event above 1, or
                                  answers_len is not 64 */
    BLEIDHVAN_NO_SLOT = 2,     /* open, reset, render: slot above 7 */
    BLEIDHVAN_KIND = 3,        /* open: kind neither 1 nor 2 */
    BLEIDHVAN_SAMPLE_RATE = 4, /* open: sample_rate_hz not within 8000 to 192000 */
    BLEIDHVAN_EMPTY = 5,       /* reset, render: the slot is empty */
    BLEIDHVAN_NO_RESET = 6,    /* reset: the slot has a modal voice, which has no reset */
    BLEIDHVAN_TEMP_2_LENGTH = 7, /* render, play: temp_2_len is not temp_len, and likewise the next two */
    BLEIDHVAN_OUT_LENGTH = 17,
    BLEIDHVAN_AUX_LENGTH = 18,
    BLEIDHVAN_TOO_LONG = 8,    /* render, play: temp_len is above 4096 */
    BLEIDHVAN_F0 = 9,          /* render: f0 not within 1/1048576 to 0.5 */
    BLEIDHVAN_ACCENT = 10,     /* render: accent not within 0 to 1, and likewise the next three */
    BLEIDHVAN_STRUCTURE = 11,
    BLEIDHVAN_BRIGHTNESS = 12,
    BLEIDHVAN_DAMPING = 13,
    BLEIDHVAN_TOO_MANY = 14,     /* play: more than 64 events */
    BLEIDHVAN_OUT_OF_ORDER = 15, /* play: the frame of an event is below that of the event before it in the sheet, whatever their slots */
    BLEIDHVAN_PAST_END = 16      /* play: the frame of an event is at or past the end of the block */
};

/* An event of a sheet, of 36 bytes: from its frame on, counted from 0 in the block, its slot sounds as a render with these knobs makes it. */
typedef struct {
    uint32_t frame, slot, trigger, sustain;
    float f0, accent, structure, brightness, damping;
} bleidhvan_event;

/* What an event is answered, of 32 bytes: the number and the counts of its render. */
typedef struct {
    uint32_t number;
    size_t burst, dust, dispersion;
} bleidhvan_answer;

#ifdef __cplusplus
extern "C" {
#endif

/* The length of a bank in bytes: 3144. */
size_t bleidhvan_bank_bytes(void);

/* The bytes become a fresh bank, every slot of it empty: 0, or 1 where their length is another. */
uint32_t bleidhvan_fresh(uint8_t *bank, size_t bank_len);

/* A slot is opened with a new voice of the kind, whatever it held: 0, or 1 to 4. Every field of the other kind becomes 0, and so do the slot's 1,280 numbers of line memory. */
uint32_t bleidhvan_open(uint8_t *bank, size_t bank_len, float *lines, size_t lines_len, size_t slot, uint32_t kind, float sample_rate_hz);

/* A string slot is reset, and its lines are cleared; what is left of a burst stays: 0, or 1, 2, 5 or 6. */
uint32_t bleidhvan_reset(uint8_t *bank, size_t bank_len, float *lines, size_t lines_len, size_t slot);

/* A block of a slot's voice: 0, or 1, 2, 5, 7 to 13, 17 or 18. The four buffers have one length, the frames of the block, which may be 0. temp and temp_2 are written over;
   the sound is added to out, and what excites it to aux.
   sustain: whether the voice is excited all along; trigger: whether it is struck at the first frame. Struck in a block of no frames, a modal voice keeps the strike.
   accent: how hard a strike is; structure: the string's non-linearity, the stiffness of the modes; brightness of the excitation; damping: how long the sound rings.
   f0: the pitch as a fraction of the sample rate, of which 0.5 is half: in hertz it is f0 times the sample rate at which the slot was opened.
   word: the generator's, at first the seed. Each word drawn moves it once, to word * 1664525 + 1013904223 modulo 2^32.
   burst, dust, dispersion: how many words were drawn for the noise of a strike, for the noise of sustain, and for the string's dispersion.
   slow_subnormals: whether this processor takes long over subnormal numbers; either value gives the same results, one of them sooner. */
uint32_t bleidhvan_render(uint8_t *bank, size_t bank_len, float *lines, size_t lines_len, uint32_t *word, size_t slot, bool sustain, bool trigger,
                          float accent, float f0, float structure, float brightness, float damping, float *temp, size_t temp_len, float *temp_2,
                          size_t temp_2_len, float *out, size_t out_len, float *aux, size_t aux_len, size_t *burst, size_t *dust, size_t *dispersion,
                          bool slow_subnormals);

/* A block of several slots, by a sheet of up to 64 events whose frames never go down: 0, or 1, 7, 8 or 14 to 18 where the sheet is refused whole.
   The events make a render each, in the order of the sheet, on the frames from their own to the frame of the next event of their slot in the sheet, or to the end of the
   block. So of two events of a slot on one frame the first makes a render of no frames, and a slot that no event names is left as it is.
   answers: 64 of them. Each event's has at its place the number and the counts of its render, and those past the events are 0. An event that is refused, with 2, 5 or 9 to
   13, changes nothing, and the others go on. Refused whole, all 64 have the sheet's number and zeros, and where answers_len is another they stay as they are. */
uint32_t bleidhvan_play(uint8_t *bank, size_t bank_len, float *lines, size_t lines_len, uint32_t *word, const bleidhvan_event *sheet, size_t sheet_len,
                        bleidhvan_answer *answers, size_t answers_len, float *temp, size_t temp_len, float *temp_2, size_t temp_2_len, float *out, size_t out_len,
                        float *aux, size_t aux_len, bool slow_subnormals);

#ifdef __cplusplus
}
#endif

#endif
