/*
 * Two grain bins side by side, 0.1 mm apart, finished by the library: three walls are wound inward, and the first bin's lid has a
 * vertex in the middle of its front edge, where the front wall has none. Millimetres.
 *
 *     cc twin_bins.c dist/libcad_tess.a -Idist
 */
#include "cad_tess.h"

#include <stdio.h>

enum { ROWS = 12, VERTICES = 64, INDICES = 128 };

/* A body, with room for what stitching adds. */
struct body {
    uint32_t rows[ROWS * CAD_ROW_NUMBERS];
    float positions[3 * VERTICES];
    float normals[3 * VERTICES];
    uint32_t indices[INDICES];
    size_t row_count, vertex_count, index_count;
};

/* A box's walls by their corners, seen from outside; bit 0 of a corner is x, bit 1 is y, bit 2 is z. */
static const unsigned wall_corners[6][4] = {{0, 2, 3, 1}, {4, 5, 7, 6}, {0, 1, 5, 4}, {2, 6, 7, 3}, {0, 4, 6, 2}, {1, 3, 7, 5}};
static const float wall_normals[6][3] = {{0, 0, -1}, {0, 0, 1}, {0, -1, 0}, {0, 1, 0}, {-1, 0, 0}, {1, 0, 0}};
enum wall { FLOOR, LID, FRONT, BACK, LEFT, RIGHT };

static void add_vertex(struct body *body, const float position[3], const float normal[3])
{
    for (size_t axis = 0; axis < 3; axis++) {
        body->positions[3 * body->vertex_count + axis] = position[axis];
        body->normals[3 * body->vertex_count + axis] = normal[axis];
    }
    body->vertex_count++;
}

/* A corner of a bin from y = front to y = back. */
static void add_corner(struct body *body, unsigned corner, float front, float back, const float normal[3])
{
    const float position[3] = {corner & 1u ? 3000.0f : 0.0f, corner & 2u ? back : front, corner & 4u ? 6000.0f : 0.0f};
    add_vertex(body, position, normal);
}

/* A row of a bin, each of which is a shell of its own. */
static void add_row(struct body *body, uint32_t shell, uint32_t vertices, const uint32_t *indices, uint32_t index_count)
{
    const uint32_t row[CAD_ROW_NUMBERS] = {shell, (uint32_t)body->row_count, 0, vertices, index_count, shell + 1};
    for (size_t k = 0; k < CAD_ROW_NUMBERS; k++)
        body->rows[CAD_ROW_NUMBERS * body->row_count + k] = row[k];
    for (size_t k = 0; k < index_count; k++)
        body->indices[body->index_count + k] = indices[k];
    body->row_count++;
    body->index_count += index_count;
}

/* A wall as two triangles, wound inward with the normal inside if asked so. */
static void add_wall(struct body *body, uint32_t shell, enum wall wall, float front, float back, bool inward)
{
    static const uint32_t outside[6] = {0, 1, 2, 0, 2, 3}, inside[6] = {0, 2, 1, 0, 3, 2};
    const float sign = inward ? -1.0f : 1.0f;
    const float *n = wall_normals[wall];
    const float normal[3] = {sign * n[0], sign * n[1], sign * n[2]};
    for (size_t k = 0; k < 4; k++)
        add_corner(body, wall_corners[wall][k], front, back, normal);
    add_row(body, shell, 4, inward ? inside : outside, 6);
}

/* The lid with a vertex more, in the middle of its front edge. */
static void add_cracked_lid(struct body *body, uint32_t shell, float front, float back)
{
    static const uint32_t indices[9] = {0, 1, 4, 1, 2, 3, 1, 3, 4};
    const float middle[3] = {1500.0f, front, 6000.0f};
    add_corner(body, 4, front, back, wall_normals[LID]);
    add_vertex(body, middle, wall_normals[LID]);
    add_corner(body, 5, front, back, wall_normals[LID]);
    add_corner(body, 7, front, back, wall_normals[LID]);
    add_corner(body, 6, front, back, wall_normals[LID]);
    add_row(body, shell, 5, indices, 9);
}

static void add_bin(struct body *body, uint32_t shell, float front, float back)
{
    add_wall(body, shell, FLOOR, front, back, false);
    if (shell == 0)
        add_cracked_lid(body, shell, front, back);
    else
        add_wall(body, shell, LID, front, back, false);
    add_wall(body, shell, FRONT, front, back, shell == 0);
    add_wall(body, shell, BACK, front, back, shell == 1);
    add_wall(body, shell, LEFT, front, back, false);
    add_wall(body, shell, RIGHT, front, back, shell == 1);
}

static int refused(const char *call, uint32_t refusal)
{
    fprintf(stderr, "%s: refused with %u\n", call, (unsigned)refusal);
    return 1;
}

static struct body body, stitched;
static float mesh_positions[3 * VERTICES], mesh_normals[3 * VERTICES];
static uint32_t mesh_indices[INDICES], parts[ROWS * CAD_PART_NUMBERS], ranges[ROWS * CAD_RANGE_NUMBERS];
static uint64_t failures[ROWS * CAD_FAILURE_NUMBERS];
/* For the largest body that the stitched slices hold: cad_assemble is handed that one. */
static uint64_t work[CAD_WORK_WORDS(VERTICES, INDICES, ROWS)];

int main(void)
{
    add_bin(&body, 0, 0.0f, 2500.0f);
    add_bin(&body, 1, 2500.1f, 5000.1f);
    const size_t words = sizeof work / sizeof work[0], floats = 3 * body.vertex_count;

    const CadTurned turned = cad_turn(body.rows, CAD_ROW_NUMBERS * body.row_count, body.positions, floats,
                                      body.normals, floats, body.indices, body.index_count, work, words);
    if (turned.refusal != CAD_DONE)
        return refused("cad_turn", turned.refusal);

    const CadStitched sewn = cad_stitch(body.rows, CAD_ROW_NUMBERS * body.row_count, body.positions, floats,
                                        body.normals, floats, body.indices, body.index_count, 0.05,
                                        stitched.rows, ROWS * CAD_ROW_NUMBERS, stitched.positions, 3 * VERTICES,
                                        stitched.normals, 3 * VERTICES, stitched.indices, INDICES, work, words);
    if (sewn.refusal != CAD_DONE)
        return refused("cad_stitch", sewn.refusal);

    /* The floor and lid of both bins are of material 2; all else has the default, material 0. */
    const uint64_t steel = CAD_MATERIAL(2);
    const uint64_t materials[8] = {steel, steel, CAD_NO_MATERIAL, CAD_NO_MATERIAL, CAD_NO_MATERIAL, CAD_NO_MATERIAL, steel, steel};
    const CadAssembled mesh = cad_assemble(stitched.rows, CAD_ROW_NUMBERS * body.row_count, stitched.positions, (size_t)3 * sewn.vertices,
                                           stitched.normals, (size_t)3 * sewn.vertices, stitched.indices, sewn.indices,
                                           0.0, 0.0, 0.0, 3000.0, 5000.1, 6000.0, materials, 8, CAD_MATERIAL(0),
                                           mesh_positions, 3 * VERTICES, mesh_normals, 3 * VERTICES, mesh_indices, INDICES,
                                           parts, ROWS * CAD_PART_NUMBERS, ranges, ROWS * CAD_RANGE_NUMBERS,
                                           failures, ROWS * CAD_FAILURE_NUMBERS, work, words);
    if (mesh.refusal != CAD_DONE)
        return refused("cad_assemble", mesh.refusal);

    printf("turned %u\nagainst %llu\nsplits %llu\n", (unsigned)turned.turned, (unsigned long long)turned.against,
           (unsigned long long)sewn.splits);
    printf("mesh of %u vertices, %u indices, %u failures\n", (unsigned)mesh.vertices, (unsigned)mesh.indices, (unsigned)mesh.failures);
    for (size_t k = 0; k < mesh.parts; k++)
        printf("material %u: %u indices from %u on\n", (unsigned)parts[CAD_PART_NUMBERS * k], (unsigned)parts[CAD_PART_NUMBERS * k + 2],
               (unsigned)parts[CAD_PART_NUMBERS * k + 1]);
    printf("edges %llu\nopen edges %llu\nover %llu\n%s\n", (unsigned long long)mesh.edges, (unsigned long long)mesh.opens,
           (unsigned long long)mesh.overs, mesh.closed ? "closed" : "not closed");
    return 0;
}
