/* Of the lengths of temp, temp_2, out and aux one becomes another than temp's, by the number that it is refused with: temp's own too, which is 7. */
#include "bleidhvan.h"

static void other_length(size_t lens[4], uint32_t number, int way) {
    size_t lengths[] = {24, lens[0] - 1, lens[0] + 1, 0};
    if (number == BLEIDHVAN_TEMP_2_LENGTH) lens[way % 4 == 3 ? 0 : 1] = lengths[way % 4];
    if (number == BLEIDHVAN_OUT_LENGTH) lens[2] = lengths[way % 4];
    if (number == BLEIDHVAN_AUX_LENGTH) lens[3] = lengths[way % 4];
}
