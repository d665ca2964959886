/* The ledger's starred value of 01 from C: a fresh string at f0 = 1/2048, 8 frames, a trigger, structure 0.5. */
#include "bleidhvan.h"
#include <stdio.h>

static uint8_t bank[BLEIDHVAN_BANK_BYTES + 1];
static float lines[BLEIDHVAN_LINES], temp[8], temp_2[8], out[8], aux[8];
static uint32_t word = 33;

static void say(const char *what, uint32_t number) { printf("%s: %u\n", what, number); }

static void render(const char *what, size_t bank_len, size_t slot) {
    size_t burst, dust, dispersion;
    bool slow_subnormals = false;
    say(what, bleidhvan_render(bank, bank_len, lines, BLEIDHVAN_LINES, &word, slot, false, true, 0.5f, 1.0f / 2048, 0.5f, 0.5f, 0.5f, temp, 8,
                               temp_2, 8, out, 8, aux, 8, &burst, &dust, &dispersion, slow_subnormals));
    printf("  burst %zu, dust %zu, dispersion %zu, word %u\n", burst, dust, dispersion, word);
}

int main(void) {
    size_t size = bleidhvan_bank_bytes();
    say("fresh, of another length", bleidhvan_fresh(bank, size + 1));
    say("fresh", bleidhvan_fresh(bank, size));
    render("render of an empty slot", size, 3);
    say("open", bleidhvan_open(bank, size, lines, BLEIDHVAN_LINES, 3, BLEIDHVAN_STRING, 48000));
    render("render", size, 3);
    say("left", bank[3 * 393 + 92] + 256 * bank[3 * 393 + 93]);
    bank[7 * 393 + 392] = 2;
    render("render with a flag of 2 in another slot", size, 3);
    bank[7 * 393 + 392] = 1;
    render("render in a slot that is not there", size, 8);
    render("render of another length", size + 1, 3);
    say("reset", bleidhvan_reset(bank, size, lines, BLEIDHVAN_LINES, 3));
    return 0;
}
