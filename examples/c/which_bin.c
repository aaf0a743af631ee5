/*
 * Which bin holds this probe peg? Two grain bins stand four kilometres out, a tenth of a millimetre between their walls, and pegs sit
 * at the foot of that gap. Each bin is drawn near its own origin, where 32-bit positions are fine enough, and a plan places both by
 * whole micrometres: the nearest bin is found exactly. Then the same bins are drawn where they stand, in one drawing. Positions are a
 * quarter of a millimetre apart there, both walls fall together, and no peg tells the bins apart any more.
 *
 *     cc which_bin.c dist/libcad_tess.a -Idist -o which_bin && ./which_bin examples/twin-bins.plan
 */
#include "cad_tess.h"

#include <inttypes.h>
#include <stdio.h>
#include <string.h>

enum { BINS = 2, CORNERS = 8, INDICES = 36, ENTRIES = 16, BYTES = 1024 };

/* The bodies of both bins lent as one, a row for each, and where each row stands. */
struct yard {
    uint32_t rows[BINS * CAD_ROW_NUMBERS];
    float positions[3 * BINS * CORNERS];
    float normals[3 * BINS * CORNERS]; /* no peg asks for them: they stay 0 */
    uint32_t indices[BINS * INDICES];
    int64_t places[BINS * CAD_PLACE_NUMBERS];
};

/* A peg's place in micrometres, and how far it is from the corners of both bins. */
struct peg {
    int64_t x, y, z;
    const char *words;
};

static const struct peg pegs[] = {
    {0, INT64_C(4002500030), 0, "30 from bin 1 and 70 from bin 2"},
    {0, INT64_C(4002500070), 0, "70 from bin 1 and 30 from bin 2"},
    {0, INT64_C(4002500050), 0, "50 from both"},
    {-1000000, INT64_C(4002500050), 0, "a metre from both"},
};

/* Draws a bin of 3 m by 2.5 m, 6 m high, from y = front on, as the row of that number; bit 0 of a corner is x, bit 1 is y, bit 2 is z. */
static void draw_bin(struct yard *yard, size_t row, double front)
{
    static const uint32_t walls[INDICES] = {0, 2, 3, 0, 3, 1, 4, 5, 7, 4, 7, 6, 0, 1, 5, 0, 5, 4,
                                            2, 6, 7, 2, 7, 3, 0, 4, 6, 0, 6, 2, 1, 3, 7, 1, 7, 5};
    const uint32_t number = (uint32_t)row, own[CAD_ROW_NUMBERS] = {number, number, 0, CORNERS, INDICES, number + 1};
    memcpy(yard->rows + CAD_ROW_NUMBERS * row, own, sizeof own);
    memcpy(yard->indices + INDICES * row, walls, sizeof walls);
    for (size_t corner = 0; corner < CORNERS; corner++) {
        float *position = yard->positions + 3 * (CORNERS * row + corner);
        position[0] = corner & 1u ? 3000.0f : 0.0f;
        position[1] = (float)(corner & 2u ? front + 2500.0 : front);
        position[2] = corner & 4u ? 6000.0f : 0.0f;
    }
}

/* Gives each row the place of its bin; false if the plan's list doesn't have a bin exactly once. */
static bool place_rows(struct yard *yard, const int64_t *list, uint64_t entries)
{
    for (size_t row = 0; row < BINS; row++) {
        unsigned found = 0;
        for (size_t k = 0; k < entries; k++) {
            const int64_t *entry = list + CAD_PLAN_ENTRY_NUMBERS * k;
            if (entry[0] == yard->rows[CAD_ROW_NUMBERS * row + 5]) {
                memcpy(yard->places + CAD_PLACE_NUMBERS * row, entry + 1, CAD_PLACE_NUMBERS * sizeof entry[0]);
                found++;
            }
        }
        if (found != 1)
            return false;
    }
    return true;
}

/* Where a corner of a row stands in y, in micrometres; those drawn here are whole. */
static int64_t stands_at(const struct yard *yard, size_t row, size_t corner)
{
    return yard->places[CAD_PLACE_NUMBERS * row + 1] + (int64_t)(1000.0 * (double)yard->positions[3 * (CORNERS * row + corner) + 1]);
}

static int refused(const char *call, uint32_t refusal)
{
    fprintf(stderr, "%s: refused with %" PRIu32 "\n", call, refusal);
    return 1;
}

/* Where the two walls stand, and the nearest bins of every peg. */
static int ask(const struct yard *yard)
{
    const int64_t back = stands_at(yard, 0, 2), front = stands_at(yard, 1, 0);
    printf("  bin 1's wall at y %" PRId64 ", bin 2's at y %" PRId64 ": %" PRId64 " micrometres between them\n", back, front, front - back);
    for (size_t k = 0; k < sizeof pegs / sizeof pegs[0]; k++) {
        const struct peg peg = pegs[k];
        uint32_t bins[BINS];
        const CadNearestBins near = cad_nearest_bins(yard->rows, BINS * CAD_ROW_NUMBERS, yard->positions, 3 * BINS * CORNERS,
                                                     yard->normals, 3 * BINS * CORNERS, yard->indices, BINS * INDICES,
                                                     yard->places, BINS * CAD_PLACE_NUMBERS, peg.x, peg.y, peg.z, bins, BINS);
        if (near.refusal != CAD_DONE)
            return refused("cad_nearest_bins", near.refusal);
        printf("  peg at (%" PRId64 ", %" PRId64 ", %" PRId64 "), %s: ", peg.x, peg.y, peg.z, peg.words);
        printf("%s", near.bins == 0 ? "no bin" : near.bins == 1 ? "bin" : "bins");
        for (size_t b = 0; b < near.bins; b++)
            printf("%s %" PRIu32, b == 0 ? "" : " and", bins[b]);
        printf("\n");
    }
    return 0;
}

static struct yard placed, drawn;
static uint8_t text[BYTES];
static int64_t list[ENTRIES * CAD_PLAN_ENTRY_NUMBERS];

int main(int count, char **words)
{
    FILE *file = count == 2 ? fopen(words[1], "rb") : NULL;
    if (file == NULL) {
        fprintf(stderr, "usage: which_bin PLAN\n");
        return 2;
    }
    const size_t length = fread(text, 1, BYTES, file);
    const bool whole = feof(file);
    fclose(file);
    if (!whole) {
        fprintf(stderr, "which_bin: the plan can't be read, or is longer than this example takes\n");
        return 1;
    }
    const CadPlanRead plan = cad_read_plan(text, length, list, ENTRIES * CAD_PLAN_ENTRY_NUMBERS);
    if (plan.refusal != CAD_DONE)
        return refused("cad_read_plan", plan.refusal);

    printf("each bin drawn near its own origin and placed by the plan:\n");
    for (size_t row = 0; row < BINS; row++)
        draw_bin(&placed, row, 0.0);
    if (!place_rows(&placed, list, plan.entries)) {
        fprintf(stderr, "which_bin: the plan doesn't place bins 1 and 2 once each\n");
        return 1;
    }
    if (ask(&placed) != 0)
        return 1;

    printf("both bins in one drawing, four kilometres out:\n");
    draw_bin(&drawn, 0, 4000000.0);
    draw_bin(&drawn, 1, 4002500.1);
    return ask(&drawn);
}
