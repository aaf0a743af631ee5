/* Every call once, and every refusal once, each with its answer. */
#include "cad_tess.h"

#include <inttypes.h>
#include <stdio.h>
#include <string.h>

enum { ROWS = CAD_MOST_ROWS + 1, ROOM = 16, WORDS = 512 };

/* A body and all that the calls are lent with it. */
struct lent {
    uint32_t rows[ROWS * CAD_ROW_NUMBERS], out_rows[2 * CAD_ROW_NUMBERS];
    float positions[3 * ROOM], normals[3 * ROOM], out_positions[3 * ROOM], out_normals[3 * ROOM];
    uint32_t indices[3 * ROOM], out_indices[3 * ROOM], parts[2 * CAD_PART_NUMBERS], ranges[2 * CAD_RANGE_NUMBERS];
    uint64_t failures[2 * CAD_FAILURE_NUMBERS], work[WORDS];
    size_t rows_len, positions_len, indices_len, out_len, work_len;
};

static struct lent lent;

/* Two rows: a triangle, and two triangles that meet in the middle of its first edge. */
static void fresh(void)
{
    static const uint32_t rows[2 * CAD_ROW_NUMBERS] = {0, 0, 0, 3, 3, 7, 0, 1, 0, 6, 6, 8}, indices[9] = {0, 1, 2, 0, 1, 2, 3, 4, 5};
    static const float positions[27] = {0, 0, 0, 10, 0, 0, 0, 10, 0, 0, 0, 0, 0, -10, 0, 5, 0, 0, 5, 0, 0, 0, -10, 0, 10, 0, 0};
    memset(&lent, 0, sizeof lent);
    memcpy(lent.rows, rows, sizeof rows);
    memcpy(lent.positions, positions, sizeof positions);
    memcpy(lent.indices, indices, sizeof indices);
    lent.rows_len = 2 * CAD_ROW_NUMBERS;
    lent.positions_len = 27;
    lent.indices_len = 9;
    lent.out_len = 3 * ROOM;
    lent.work_len = CAD_WORK_WORDS(9, 9, 2);
}

static CadTurned turn(void)
{
    return cad_turn(lent.rows, lent.rows_len, lent.positions, lent.positions_len, lent.normals, lent.positions_len,
                    lent.indices, lent.indices_len, lent.work, lent.work_len);
}

static CadStitched stitch(double sag)
{
    return cad_stitch(lent.rows, lent.rows_len, lent.positions, lent.positions_len, lent.normals, lent.positions_len,
                      lent.indices, lent.indices_len, sag, lent.out_rows, 2 * CAD_ROW_NUMBERS, lent.out_positions, lent.out_len,
                      lent.out_normals, 3 * ROOM, lent.out_indices, 3 * ROOM, lent.work, lent.work_len);
}

static CadAssembled assemble(uint64_t default_material)
{
    return cad_assemble(lent.rows, lent.rows_len, lent.positions, lent.positions_len, lent.normals, lent.positions_len,
                        lent.indices, lent.indices_len, 0, 0, 0, 0, 0, 0, NULL, 0, default_material,
                        lent.out_positions, lent.out_len, lent.out_normals, 3 * ROOM, lent.out_indices, 3 * ROOM,
                        lent.parts, 2 * CAD_PART_NUMBERS, lent.ranges, 2 * CAD_RANGE_NUMBERS,
                        lent.failures, 2 * CAD_FAILURE_NUMBERS, lent.work, lent.work_len);
}

/* The bins nearest to a peg on the y axis; the first row stands 4 km out and the second a tenth of a millimetre further. */
static CadNearestBins nearest(int64_t y, uint32_t *bins, size_t bins_len)
{
    static const int64_t places[2 * CAD_PLACE_NUMBERS] = {0, INT64_C(4000000000), 0, 0, INT64_C(4000000100), 0};
    return cad_nearest_bins(lent.rows, lent.rows_len, lent.positions, lent.positions_len, lent.normals, lent.positions_len,
                            lent.indices, lent.indices_len, places, 2 * CAD_PLACE_NUMBERS, 0, y, 0, bins, bins_len);
}

/* The body added to a page, with no box that it could escape. */
static CadReported report(const CadReported *page, uint32_t *faces, size_t faces_len)
{
    return cad_report(lent.rows, lent.rows_len, lent.positions, lent.positions_len, lent.normals, lent.positions_len,
                      lent.indices, lent.indices_len, 0, 0, 0, 0, 0, 0, page->bodies, page->accepted, page->failed,
                      page->triangles, page->vertices, page->empty, page->upstream, page->escaped, page->listed,
                      faces, faces_len, lent.work, lent.work_len);
}

/* The stitched body, which stands in the output slices, assembled into those of the body before, with a work area of so many words. */
static CadAssembled assemble_stitched(const CadStitched *sewn, size_t words)
{
    return cad_assemble(lent.out_rows, lent.rows_len, lent.out_positions, (size_t)3 * sewn->vertices, lent.out_normals, (size_t)3 * sewn->vertices,
                        lent.out_indices, sewn->indices, 0, 0, 0, 0, 0, 0, NULL, 0, CAD_NO_MATERIAL,
                        lent.positions, 3 * ROOM, lent.normals, 3 * ROOM, lent.indices, 3 * ROOM,
                        lent.parts, 2 * CAD_PART_NUMBERS, lent.ranges, 2 * CAD_RANGE_NUMBERS,
                        lent.failures, 2 * CAD_FAILURE_NUMBERS, lent.work, words);
}

/* A float's and a double's bits. */
static uint32_t bits32(float v)
{
    uint32_t bits;
    memcpy(&bits, &v, sizeof bits);
    return bits;
}

static uint64_t bits64(double v)
{
    uint64_t bits;
    memcpy(&bits, &v, sizeof bits);
    return bits;
}

static void steps(void)
{
    const CadCell small = cad_cell(0.0078125f), large = cad_cell(17592186044416.0f);
    const CadKey key = cad_key(1.0f, 2.0f, 3.0f), beyond = cad_key(1.0f, -17592186044416.0f, 3.0f);
    printf("cell of 2^-7: %" PRId64 ", clamped %" PRIu32 "; of 2^44: %" PRId64 ", clamped %" PRIu32 "\n", small.value, small.clamped, large.value,
           large.clamped);
    printf("key of (1, 2, 3): %016" PRIX64 ", clamped %" PRIu32 "; of (1, -2^44, 3): %016" PRIX64 ", clamped %" PRIu32 "\n", key.value, key.clamped,
           beyond.value, beyond.clamped);
    printf("root of 2: %016" PRIX64 "\n", cad_sqrt(bits64(2.0)));
    printf("1 + 3 * 2^-24 narrowed: %08" PRIX32 "\n", cad_narrow(bits64(1.0 + 3.0 / 16777216.0)));
    printf("-0.1 widened: %016" PRIX64 "\n", cad_widen(bits32(-0.1f)));
    printf("-2.5 rounded: %016" PRIX64 "\n", cad_round(bits64(-2.5)));
    printf("the larger of -0 and +0: %016" PRIX64 "\n", cad_larger(bits64(-0.0), bits64(0.0)));
}

/* A tetrahedron's volume both ways, and a vertex just beyond the diagonal of a box of 6 by 8. */
static void patches(void)
{
    static const float corners[12] = {0, 0, 0, 1, 0, 0, 0, 1, 0, 0, 0, 1}, normals[12] = {0}, far[3] = {13.000001f, 4, 0};
    static const float clamped[3] = {0, 17592186044416.0f, 0};
    static const uint32_t triangles[12] = {0, 2, 1, 0, 1, 3, 0, 3, 2, 1, 2, 3};
    printf("volume: %016" PRIX64 "\n", bits64(cad_patch_volume(corners, 12, normals, 12, triangles, 12, false).value));
    printf("reversed: %016" PRIX64 "\n", bits64(cad_patch_volume(corners, 12, normals, 12, triangles, 12, true).value));
    printf("farthest: %016" PRIX64 "\n", bits64(cad_farthest(far, 3, normals, 3, NULL, 0, 0, 0, 0, 6, 8, 0).value));
    printf("escapes: %" PRIu32 "\n", cad_escapes_body(far, 3, normals, 3, NULL, 0, 0, 0, 0, 6, 8, 0).verdict);
    printf("a patch whose vertex is at 2^44: refused with %" PRIu32 "\n", cad_farthest(clamped, 3, normals, 3, NULL, 0, 0, 0, 0, 6, 8, 0).refusal);
    printf("a patch with a normal missing: refused with %" PRIu32 "\n", cad_patch_volume(corners, 12, normals, 9, triangles, 12, false).refusal);
}

/* What face number row k has, and its indices once the body is stitched, in room for five. */
static void face(size_t k)
{
    uint32_t own[5] = {0};
    const uint64_t count = cad_face_indices(lent.rows, lent.rows_len, lent.indices, lent.indices_len,
                                            lent.out_rows, 2 * CAD_ROW_NUMBERS, lent.out_indices, 3 * ROOM, k, own, 5);
    printf("row %zu: face %" PRIu32 ", %" PRIu64 " indices:", k, cad_face_at((const CadRow *)lent.rows, 2, k), count);
    for (size_t i = 0; i < 5; i++)
        printf(" %" PRIu32, own[i]);
    printf("\n");
}

static void done(void)
{
    fresh();
    const CadTurned turned = turn();
    printf("turn: %" PRIu32 ", turned %" PRIu32 ", against %" PRIu64 "\n", turned.refusal, turned.turned, turned.against);
    const CadStitched sewn = stitch(0.25);
    printf("stitch: %" PRIu32 ", %" PRIu32 " vertices, %" PRIu32 " indices, %" PRIu64 " splits\n", sewn.refusal, sewn.vertices, sewn.indices,
           sewn.splits);
    for (size_t k = 0; k < 3; k++)
        face(k);
    const CadAssembled mesh = assemble(CAD_MATERIAL(UINT32_MAX));
    printf("assemble: %" PRIu32 ", %" PRIu32 " vertices, %" PRIu32 " indices, %" PRIu32 " parts, %" PRIu32 " ranges, %" PRIu32 " failures, ",
           mesh.refusal, mesh.vertices, mesh.indices, mesh.parts, mesh.ranges, mesh.failures);
    printf("%" PRIu64 " edges, %" PRIu64 " open, %" PRIu64 " over, closed %" PRIu32 ", material %" PRIu32 "\n", mesh.edges, mesh.opens, mesh.overs,
           mesh.closed, lent.parts[0]);
    const CadAssembled none = cad_assemble(NULL, 0, NULL, 0, NULL, 0, NULL, 0, 0, 0, 0, 0, 0, 0, NULL, 0, CAD_NO_MATERIAL, NULL, 0, NULL, 0,
                                           NULL, 0, NULL, 0, NULL, 0, NULL, 0, NULL, 0);
    printf("no rows, all pointers null: %" PRIu32 ", closed %" PRIu32 "\n", none.refusal, none.closed);
    printf("ranges of bins %" PRIu32 " and %" PRIu32 "\n", lent.ranges[1], lent.ranges[CAD_RANGE_NUMBERS + 1]);
    const CadStitched again = stitch(0.25);
    printf("rows of bins %" PRIu32 " and %" PRIu32 "\n", lent.out_rows[5], lent.out_rows[CAD_ROW_NUMBERS + 5]);
    printf("the stitched body with a work area for the body before: refused with %" PRIu32 "\n", assemble_stitched(&again, lent.work_len).refusal);
    printf("with one for itself: %" PRIu32 "\n", assemble_stitched(&again, CAD_WORK_WORDS(again.vertices, again.indices, 2)).refusal);
}

/* A plan as a text without its final 0, read into a list. */
static CadPlanRead read_plan(const char *text, int64_t *list, size_t list_len)
{
    return cad_read_plan((const uint8_t *)text, strlen(text), list, list_len);
}

/* A bin in no group, and one in a group within a group, listed and written back. */
static void plans(void)
{
    static const char text[] = "(bin 1 5 0 0)\n(group 4000000000 0 -250\n(group 0 100 0\n(bin 2 7 8 9)\n)\n)\n";
    int64_t list[2 * CAD_PLAN_ENTRY_NUMBERS];
    uint8_t out[2 * CAD_MOST_PLAN_LINE];
    const CadPlanRead plan = read_plan(text, list, 2 * CAD_PLAN_ENTRY_NUMBERS);
    printf("read plan: %" PRIu32 ", %" PRIu64 " entries, the last:", plan.refusal, plan.entries);
    for (size_t k = 0; k < CAD_PLAN_ENTRY_NUMBERS; k++)
        printf(" %" PRId64, list[CAD_PLAN_ENTRY_NUMBERS + k]);
    const CadPlanWritten listing = cad_write_plan(list, 2 * CAD_PLAN_ENTRY_NUMBERS, out, sizeof out);
    printf("\nwrite plan: %" PRIu32 ", %" PRIu64 " bytes:\n%.*s", listing.refusal, listing.length, (int)listing.length, (const char *)out);
    const CadPlanRead none = cad_read_plan(NULL, 0, NULL, 0);
    printf("an empty plan, all pointers null: %" PRIu32 ", %" PRIu64 " entries\n", none.refusal, none.entries);
}

/* A peg nearer to the second row's bin, one in the middle, and one a metre off; in room for three bins, each 9 before. */
static void pegs(void)
{
    static const int64_t along[3] = {INT64_C(4000000070), INT64_C(4000000050), INT64_C(4001000000)};
    fresh();
    for (size_t k = 0; k < 3; k++) {
        uint32_t bins[3] = {9, 9, 9};
        const CadNearestBins near = nearest(along[k], bins, 3);
        printf("nearest bins: %" PRIu32 ", %" PRIu32 " bins:", near.refusal, near.bins);
        for (size_t b = 0; b < 3; b++)
            printf(" %" PRIu32, bins[b]);
        printf("\n");
    }
    const CadNearestBins none = cad_nearest_bins(NULL, 0, NULL, 0, NULL, 0, NULL, 0, NULL, 0, 0, 0, 0, NULL, 0);
    printf("no rows, all pointers null: %" PRIu32 ", %" PRIu32 " bins\n", none.refusal, none.bins);
}

static void show_page(const CadReported *page)
{
    printf("report: %" PRIu32 ", %" PRIu64 " bodies, %" PRIu64 " accepted, %" PRIu64 " failed, %" PRIu64 " triangles, %" PRIu64 " vertices, ",
           page->refusal, page->bodies, page->accepted, page->failed, page->triangles, page->vertices);
    printf("%" PRIu64 " empty, %" PRIu64 " upstream, %" PRIu64 " escaped, %" PRIu64 " listed, share %" PRIu64 " of %" PRIu64 "\n", page->empty,
           page->upstream, page->escaped, page->listed, page->share_accepted, page->share_faces);
}

/* A body whose last triangle is wound against the one before it, then with its second row left empty; in room for two entries and a
   half, each number 9 before. */
static void reports(void)
{
    const CadReported empty = {0};
    uint32_t faces[5] = {9, 9, 9, 9, 9};
    fresh();
    lent.indices[7] = 5;
    lent.indices[8] = 4;
    CadReported page = report(&empty, faces, 5);
    show_page(&page);
    lent.rows[CAD_ROW_NUMBERS + 4] = 0;
    lent.indices_len = 3;
    page = report(&page, faces, 5);
    show_page(&page);
    printf("faces listed:");
    for (size_t k = 0; k < 5; k++)
        printf(" %" PRIu32, faces[k]);
    const CadReported none = cad_report(NULL, 0, NULL, 0, NULL, 0, NULL, 0, 0, 0, 0, 0, 0, 0, 0, 0, 0, 0, 0, 0, 0, 0, 0, NULL, 0, NULL, 0);
    printf("\nno rows, all pointers null: %" PRIu32 ", share %" PRIu64 " of %" PRIu64 "\n", none.refusal, none.share_accepted, none.share_faces);
}

/* The same body with as many unused vertices as there may be, so that the new one is too many. */
static uint32_t stitched_limit(void)
{
    static float positions[3 * CAD_MOST_VERTICES], normals[3 * CAD_MOST_VERTICES];
    static uint64_t work[CAD_WORK_WORDS(CAD_MOST_VERTICES, 9, 2)];
    memcpy(positions, lent.positions, sizeof lent.positions);
    lent.rows[CAD_ROW_NUMBERS + 3] = CAD_MOST_VERTICES - 3;
    return cad_stitch(lent.rows, lent.rows_len, positions, 3 * CAD_MOST_VERTICES, normals, 3 * CAD_MOST_VERTICES,
                      lent.indices, lent.indices_len, 0.25, NULL, 0, NULL, 0, NULL, 0, NULL, 0, work, sizeof work / sizeof work[0]).refusal;
}

/* A plan or a list spoiled in the way of one refusal, and the call that gives it. */
static uint32_t refused_plan(enum CadRefusal refusal)
{
    static const int64_t far[CAD_PLAN_ENTRY_NUMBERS] = {0, 0, 0, CAD_MOST_OFFSET + 1};
    char groups[17 * sizeof "(group 0 0 0"] = "";
    int64_t list[CAD_PLAN_ENTRY_NUMBERS] = {0};
    switch (refusal) {
    case CAD_REFUSED_LINE:
        return read_plan("(bin 0 -0 0 0)\n", list, CAD_PLAN_ENTRY_NUMBERS).refusal;
    case CAD_REFUSED_DEPTH:
        for (size_t k = 0; k < 17; k++)
            strcat(groups, "(group 0 0 0\n");
        return read_plan(groups, list, CAD_PLAN_ENTRY_NUMBERS).refusal;
    case CAD_REFUSED_PLACE:
        return cad_write_plan(far, CAD_PLAN_ENTRY_NUMBERS, NULL, 0).refusal;
    case CAD_REFUSED_ENTRIES:
        return read_plan("(bin 0 0 0 0)\n", list, CAD_PLAN_ENTRY_NUMBERS - 1).refusal;
    default:
        return cad_write_plan(list, CAD_PLAN_ENTRY_NUMBERS, NULL, 0).refusal;
    }
}

/* A page of too many bodies, or one whose listed face has no place in the list. */
static uint32_t refused_report(enum CadRefusal refusal)
{
    const CadReported full = {.bodies = CAD_MOST_BODIES}, listed = {.bodies = 1, .listed = 1};
    uint32_t faces[CAD_FACE_ENTRY_NUMBERS] = {0};
    return report(refusal == CAD_REFUSED_PAGE ? &full : &listed, faces, CAD_FACE_ENTRY_NUMBERS - 1).refusal;
}

/* The body spoiled in the way of one refusal, and the call that gives it. */
static uint32_t refused(enum CadRefusal refusal)
{
    uint32_t bin = 0;
    fresh();
    switch (refusal) {
    case CAD_REFUSED_TABLE:
        lent.rows_len = ROWS * CAD_ROW_NUMBERS;
        return turn().refusal;
    case CAD_REFUSED_OUTCOME:
        lent.rows[2] = CAD_MOST_OUTCOME + 1;
        return turn().refusal;
    case CAD_REFUSED_LIMIT:
        lent.rows[3] = CAD_MOST_VERTICES;
        return turn().refusal;
    case CAD_REFUSED_LENGTHS:
        lent.positions_len -= 1;
        return turn().refusal;
    case CAD_REFUSED_BIN:
        lent.rows[5] = CAD_MOST_BIN + 1;
        return turn().refusal;
    case CAD_REFUSED_TRIANGLES:
        lent.rows[CAD_ROW_NUMBERS + 4] = 5;
        lent.indices_len = 8;
        return turn().refusal;
    case CAD_REFUSED_INDEX:
        lent.indices[0] = 3;
        return turn().refusal;
    case CAD_REFUSED_NOT_FINITE:
        memset(lent.normals, 0xFF, sizeof lent.normals[0]);
        return turn().refusal;
    case CAD_REFUSED_CLAMPED:
        lent.positions[26] = -17592186044416.0f;
        return turn().refusal;
    case CAD_REFUSED_WORK_AREA:
        lent.work_len -= 1;
        return turn().refusal;
    case CAD_REFUSED_STITCHED_LIMIT:
        return stitched_limit();
    case CAD_REFUSED_OUTPUT:
        lent.out_len = 29;
        return stitch(0.25).refusal;
    case CAD_REFUSED_MATERIAL:
        return assemble(CAD_MATERIAL(UINT32_MAX) + 1).refusal;
    case CAD_REFUSED_MESH:
        lent.out_len = 26;
        return assemble(CAD_NO_MATERIAL).refusal;
    case CAD_REFUSED_PEG:
        return nearest(CAD_MOST_OFFSET + 1, &bin, 1).refusal;
    case CAD_REFUSED_BIN_LIST:
        return nearest(INT64_C(4000000050), &bin, 1).refusal;
    case CAD_REFUSED_PAGE:
    case CAD_REFUSED_FACE_LIST:
        return refused_report(refusal);
    default:
        return refused_plan(refusal);
    }
}

int main(void)
{
    static const enum CadRefusal all[] = {CAD_REFUSED_TABLE, CAD_REFUSED_OUTCOME, CAD_REFUSED_LIMIT, CAD_REFUSED_LENGTHS, CAD_REFUSED_BIN,
                                          CAD_REFUSED_TRIANGLES, CAD_REFUSED_INDEX, CAD_REFUSED_NOT_FINITE, CAD_REFUSED_CLAMPED,
                                          CAD_REFUSED_WORK_AREA, CAD_REFUSED_STITCHED_LIMIT, CAD_REFUSED_OUTPUT, CAD_REFUSED_MATERIAL,
                                          CAD_REFUSED_MESH, CAD_REFUSED_LINE, CAD_REFUSED_DEPTH, CAD_REFUSED_PLACE, CAD_REFUSED_ENTRIES,
                                          CAD_REFUSED_PEG, CAD_REFUSED_BIN_LIST, CAD_REFUSED_PAGE, CAD_REFUSED_TEXT,
                                          CAD_REFUSED_FACE_LIST};
    steps();
    patches();
    done();
    plans();
    pegs();
    reports();
    for (size_t k = 0; k < sizeof all / sizeof all[0]; k++)
        printf("refused with %" PRIu32 "\n", refused(all[k]));
    return 0;
}
