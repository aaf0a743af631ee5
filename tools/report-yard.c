/*
 * Adds a finished body to a page over bodies, with the proved library's cad_report: report_yard ANSWER. On standard input stand the line
 *
 *     (page BODIES ACCEPTED FAILED TRIANGLES VERTICES EMPTY UPSTREAM ESCAPED LISTED)
 *
 * and the body's sheet (docs/SHEET.md); ANSWER is a file with what the proved program printed of that sheet. It prints the page with the body
 * added, the accepted share as (share ACCEPTED FACES), and (wound FACE COUNT) for each new entry of the face list; or (refused N).
 *
 * The sheet is read here a second time, by code that isn't proved. So the body is finished again from what was read, and nothing is printed
 * unless that gives ANSWER byte for byte.
 *
 * exit status  0  the page or the refusal is printed
 *              2  it was called wrongly
 *              3  the answers differ, ANSWER cannot be read, or the page could not be written
 */
#include "cad_tess.h"

#include <inttypes.h>
#include <stdio.h>
#include <stdlib.h>
#include <string.h>

/* The limits of the program that ./finish runs (docs/SHEET.md, Limits). */
enum { ROWS = 256, VERTICES = 4096, INDICES = 3 * 4096, FACES = 4096, STITCHED_VERTICES = 8192, STITCHED_INDICES = 3 * 8192 };

/* More than the longest line of a page, a sheet or an answer, without its LF. */
enum { LINE = 256 };

/* Refusals of a text: a line is malformed, out of order or missing; a line passes a limit. */
enum { MALFORMED = 51, TOO_LARGE = 52 };

/* Room for all that a page lists: a body has at most one entry a row. */
#define ENTRIES ((size_t)CAD_MOST_BODIES * ROWS)

/* A work area for the largest stitched body. */
#define WORK CAD_WORK_WORDS(STITCHED_VERTICES, STITCHED_INDICES, ROWS)

/* How many numbers a page's line has, which cad_report takes in the same order, and which of them says how many entries are listed. */
enum { PAGE_NUMBERS = 9, LISTED = 8 };

/* A body, with room for a stitched one. */
struct body {
    uint32_t rows[CAD_ROW_NUMBERS * ROWS];
    float positions[3 * STITCHED_VERTICES], normals[3 * STITCHED_VERTICES];
    uint32_t indices[STITCHED_INDICES];
    size_t row_count, vertex_count, index_count;
};

/* The body as drawn, which is turned where it stands, as stitched, and its mesh, which has no rows. */
static struct body drawn, stitched, mesh;
static double box[6], sag;
static uint64_t materials[FACES], default_material;
static uint32_t parts[CAD_PART_NUMBERS * ROWS], ranges[CAD_RANGE_NUMBERS * ROWS];
static uint64_t failures[CAD_FAILURE_NUMBERS * ROWS];
static uint32_t faces[CAD_FACE_ENTRY_NUMBERS * ENTRIES];
static uint64_t work[WORK];

/* Ends without a page. */
static void fail(const char *why)
{
    fprintf(stderr, "%s\n", why);
    exit(3);
}

/* The line that is read, and how far. */
static struct {
    char text[LINE];
    size_t length, at;
} line;

/* Takes the next line of standard input, if there is one. One that is too long, has no LF or cannot be read is taken as empty, which is no form. */
static bool next_line(void)
{
    size_t length = 0;
    int byte = getchar();
    for (; byte != EOF && byte != '\n'; byte = getchar()) {
        if (length < LINE)
            line.text[length] = (char)byte;
        length += length <= LINE;
    }
    line.at = 0;
    line.length = byte == '\n' && length <= LINE ? length : 0;
    return byte == '\n' || length > 0 || ferror(stdin);
}

/* Passes over a word, if the line goes on with it. */
static bool word(const char *expected)
{
    const size_t length = strlen(expected);
    if (line.length - line.at < length || memcmp(line.text + line.at, expected, length) != 0)
        return false;
    line.at += length;
    return true;
}

/* Whether the line's last bracket is all that is left of it. */
static bool ends(void)
{
    return line.length - line.at == 1 && line.text[line.at] == ')';
}

/* A space, then a decimal number without leading zeros that is not above most. */
static bool number(uint64_t most, uint64_t *value)
{
    if (!word(" "))
        return false;
    const size_t first = line.at;
    for (*value = 0; line.at < line.length && line.text[line.at] >= '0' && line.text[line.at] <= '9'; line.at++) {
        const uint64_t digit = (uint64_t)(line.text[line.at] - '0');
        if (*value > (most - digit) / 10)
            return false;
        *value = 10 * *value + digit;
    }
    const size_t digits = line.at - first;
    return digits == 1 || (digits > 1 && line.text[first] != '0');
}

/* So many decimal numbers below 2^32. */
static bool numbers(uint32_t *values, size_t count)
{
    for (size_t k = 0; k < count; k++) {
        uint64_t value;
        if (!number(UINT32_MAX, &value))
            return false;
        values[k] = (uint32_t)value;
    }
    return true;
}

/* A space, then so many hex digits in upper case. */
static bool bits(size_t digits, uint64_t *value)
{
    static const char hex[] = "0123456789ABCDEF";
    if (!word(" ") || line.length - line.at < digits)
        return false;
    *value = 0;
    for (size_t k = 0; k < digits; k++, line.at++) {
        const char *digit = memchr(hex, line.text[line.at], sizeof hex - 1);
        if (digit == NULL)
            return false;
        *value = 16 * *value + (uint64_t)(digit - hex);
    }
    return true;
}

/* A float of 64 bits. */
static bool wide(double *value)
{
    uint64_t read;
    if (!bits(16, &read))
        return false;
    memcpy(value, &read, sizeof read);
    return true;
}

/* Three floats of 32 bits. */
static bool point(float *xyz)
{
    for (size_t axis = 0; axis < 3; axis++) {
        uint64_t read;
        if (!bits(8, &read))
            return false;
        const uint32_t narrow = (uint32_t)read;
        memcpy(&xyz[axis], &narrow, sizeof narrow);
    }
    return true;
}

/* Reads the page's line. */
static bool read_page(uint64_t *page)
{
    if (!next_line() || !word("(page"))
        return false;
    for (size_t k = 0; k < PAGE_NUMBERS; k++)
        if (!number(UINT64_MAX, &page[k]))
            return false;
    return ends();
}

/* Where in a sheet the next line stands: what came before says which lines may. */
static enum { WANTS_BOX, WANTS_SAG, WANTS_DEFAULT, IN_MATERIALS, IN_VERTICES, IN_TRIANGLES, AFTER_FAIL } place;

/* Each of the following reads the rest of one kind of line, and answers its refusal or 0. */

static unsigned box_line(void)
{
    for (size_t k = 0; k < 6; k++)
        if (!wide(&box[k]))
            return MALFORMED;
    if (!ends() || place != WANTS_BOX)
        return MALFORMED;
    place = WANTS_SAG;
    return 0;
}

static unsigned sag_line(void)
{
    if (!wide(&sag) || !ends() || place != WANTS_SAG)
        return MALFORMED;
    place = WANTS_DEFAULT;
    return 0;
}

static unsigned default_line(void)
{
    uint32_t material = 0;
    const bool none = word(" -");
    if ((!none && !numbers(&material, 1)) || !ends() || place != WANTS_DEFAULT)
        return MALFORMED;
    default_material = none ? CAD_NO_MATERIAL : CAD_MATERIAL(material);
    place = IN_MATERIALS;
    return 0;
}

static unsigned material_line(void)
{
    uint32_t own[2];
    if (!numbers(own, 2) || !ends() || place != IN_MATERIALS)
        return MALFORMED;
    if (own[0] >= FACES)
        return TOO_LARGE;
    materials[own[0]] = CAD_MATERIAL(own[1]);
    return 0;
}

/* A row without vertices and triangles, from its shell, face and outcome; its bin is the line's last number, or 0 where the line ends before. */
static unsigned add_row(const uint32_t *own)
{
    uint32_t bin = 0;
    if ((!ends() && !numbers(&bin, 1)) || !ends() || place < IN_MATERIALS)
        return MALFORMED;
    if (own[1] >= FACES || drawn.row_count == ROWS)
        return TOO_LARGE;
    const uint32_t row[CAD_ROW_NUMBERS] = {own[0], own[1], own[2], 0, 0, bin};
    memcpy(&drawn.rows[CAD_ROW_NUMBERS * drawn.row_count], row, sizeof row);
    drawn.row_count++;
    return 0;
}

static unsigned face_line(void)
{
    uint32_t own[3] = {0};
    const unsigned refusal = numbers(own, 2) ? add_row(own) : MALFORMED;
    place = IN_VERTICES;
    return refusal;
}

static unsigned fail_line(void)
{
    uint32_t own[3];
    const unsigned refusal = numbers(own, 3) && own[2] != 0 ? add_row(own) : MALFORMED;
    place = AFTER_FAIL;
    return refusal;
}

static unsigned vertex_line(void)
{
    float position[3], normal[3];
    if (!word(" (p") || !point(position) || !word(") (n") || !point(normal) || !word(")") || !ends() || place != IN_VERTICES)
        return MALFORMED;
    if (drawn.vertex_count == VERTICES)
        return TOO_LARGE;
    memcpy(&drawn.positions[3 * drawn.vertex_count], position, sizeof position);
    memcpy(&drawn.normals[3 * drawn.vertex_count], normal, sizeof normal);
    drawn.vertex_count++;
    drawn.rows[CAD_ROW_NUMBERS * (drawn.row_count - 1) + 3]++;
    return 0;
}

static unsigned triangle_line(void)
{
    uint32_t corners[3];
    if (!numbers(corners, 3) || !ends() || (place != IN_VERTICES && place != IN_TRIANGLES))
        return MALFORMED;
    if (drawn.index_count == INDICES)
        return TOO_LARGE;
    memcpy(&drawn.indices[drawn.index_count], corners, sizeof corners);
    drawn.index_count += 3;
    drawn.rows[CAD_ROW_NUMBERS * (drawn.row_count - 1) + 4] += 3;
    place = IN_TRIANGLES;
    return 0;
}

/* Reads the sheet up to its end or its first line that is refused, and answers the refusal or 0. */
static unsigned read_sheet(void)
{
    static const struct {
        const char *name;
        unsigned (*read)(void);
    } kinds[] = {{"(box", box_line},   {"(sag", sag_line},   {"(default", default_line}, {"(material", material_line},
                 {"(face", face_line}, {"(fail", fail_line}, {"(v", vertex_line},        {"(t", triangle_line}};
    const size_t count = sizeof kinds / sizeof kinds[0];
    while (next_line()) {
        size_t k = 0;
        while (k < count && !word(kinds[k].name))
            k++;
        const unsigned refusal = k < count ? kinds[k].read() : MALFORMED;
        if (refusal != 0)
            return refusal;
    }
    return place < IN_MATERIALS ? MALFORMED : 0;
}

/* The proved program's answer, and whether all that was formed here so far is what it begins with. */
static FILE *answer;
static bool same = true;
static char formed[LINE];

/* Holds the answer to what was formed, whose length snprintf gave. */
static void hold(int length)
{
    same = same && length >= 0 && length < LINE;
    for (int k = 0; same && k < length; k++)
        same = getc(answer) == (unsigned char)formed[k];
}
#define HOLD(...) hold(snprintf(formed, sizeof formed, __VA_ARGS__))

/* Three floats as they are printed. */
static void hold_point(const char *name, const float *xyz)
{
    uint32_t own[3];
    memcpy(own, xyz, sizeof own);
    HOLD("(%s %08" PRIX32 " %08" PRIX32 " %08" PRIX32 ")", name, own[0], own[1], own[2]);
}

/* A mesh: its vertices, parts and triangles. */
static void hold_mesh(const CadAssembled *done)
{
    HOLD("(mesh %" PRIu32 " %" PRIu32 ")\n", done->vertices, done->indices);
    for (size_t k = 0; k < done->vertices; k++) {
        HOLD("(v ");
        hold_point("p", &mesh.positions[3 * k]);
        HOLD(" ");
        hold_point("n", &mesh.normals[3 * k]);
        HOLD(")\n");
    }
    for (const uint32_t *part = parts; part < parts + (size_t)CAD_PART_NUMBERS * done->parts; part += CAD_PART_NUMBERS)
        HOLD("(part %" PRIu32 " %" PRIu32 " %" PRIu32 ")\n", part[0], part[1], part[2]);
    for (const uint32_t *corners = mesh.indices; corners < mesh.indices + done->indices; corners += 3)
        HOLD("(t %" PRIu32 " %" PRIu32 " %" PRIu32 ")\n", corners[0], corners[1], corners[2]);
}

/* A face that failed. */
static void hold_failure(const uint64_t *failed)
{
    HOLD("(failed %" PRIu64 " %" PRIu64 " ", failed[0], failed[1]);
    if (failed[2] == CAD_FAILURE_EMPTY)
        HOLD("(empty))\n");
    else if (failed[2] == CAD_FAILURE_ESCAPE)
        HOLD("(escape %016" PRIX64 " %016" PRIX64 "))\n", failed[3], failed[4]);
    else
        HOLD("(upstream %" PRIu64 "))\n", failed[2]);
}

/* The ranges and failures, and the counts of all three calls. */
static void hold_counts(const CadTurned *turned, const CadStitched *sewn, const CadAssembled *done)
{
    for (const uint32_t *range = ranges; range < ranges + (size_t)CAD_RANGE_NUMBERS * done->ranges; range += CAD_RANGE_NUMBERS)
        HOLD("(range %" PRIu32 " %" PRIu32 " %" PRIu32 " %" PRIu32 ")\n", range[0], range[1], range[2], range[3]);
    for (size_t k = 0; k < done->failures; k++)
        hold_failure(&failures[CAD_FAILURE_NUMBERS * k]);
    HOLD("(turned %" PRIu32 ")\n(against %" PRIu64 ")\n(split %" PRIu64 ")\n", turned->turned, turned->against, sewn->splits);
    HOLD("(ok %" PRIu32 ")\n(edges %" PRIu64 ")\n(open %" PRIu64 ")\n", done->ranges, done->edges, done->opens);
    HOLD("(over %" PRIu64 ")\n(closed %" PRIu32 ")\n", done->overs, done->closed);
}

static CadStitched stitch(void)
{
    return cad_stitch(drawn.rows, CAD_ROW_NUMBERS * drawn.row_count, drawn.positions, 3 * drawn.vertex_count, drawn.normals, 3 * drawn.vertex_count,
                      drawn.indices, drawn.index_count, sag, stitched.rows, CAD_ROW_NUMBERS * ROWS, stitched.positions, 3 * STITCHED_VERTICES,
                      stitched.normals, 3 * STITCHED_VERTICES, stitched.indices, STITCHED_INDICES, work, WORK);
}

static CadAssembled assemble(void)
{
    return cad_assemble(stitched.rows, CAD_ROW_NUMBERS * stitched.row_count, stitched.positions, 3 * stitched.vertex_count, stitched.normals,
                        3 * stitched.vertex_count, stitched.indices, stitched.index_count, box[0], box[1], box[2], box[3], box[4], box[5],
                        materials, FACES, default_material, mesh.positions, 3 * STITCHED_VERTICES, mesh.normals, 3 * STITCHED_VERTICES,
                        mesh.indices, STITCHED_INDICES, parts, CAD_PART_NUMBERS * ROWS, ranges, CAD_RANGE_NUMBERS * ROWS,
                        failures, CAD_FAILURE_NUMBERS * ROWS, work, WORK);
}

/* Finishes the body that was read, holds the answer to it, and gives the refusal or 0. */
static unsigned finish(void)
{
    const CadTurned turned = cad_turn(drawn.rows, CAD_ROW_NUMBERS * drawn.row_count, drawn.positions, 3 * drawn.vertex_count, drawn.normals,
                                      3 * drawn.vertex_count, drawn.indices, drawn.index_count, work, WORK);
    if (turned.refusal != CAD_DONE)
        return turned.refusal;
    const CadStitched sewn = stitch();
    if (sewn.refusal != CAD_DONE)
        return sewn.refusal;
    stitched.row_count = drawn.row_count;
    stitched.vertex_count = sewn.vertices;
    stitched.index_count = sewn.indices;
    const CadAssembled done = assemble();
    if (done.refusal != CAD_DONE)
        return done.refusal;
    hold_mesh(&done);
    hold_counts(&turned, &sewn, &done);
    return 0;
}

/* The page with the stitched body added. */
static CadReported report(const uint64_t *page)
{
    return cad_report(stitched.rows, CAD_ROW_NUMBERS * stitched.row_count, stitched.positions, 3 * stitched.vertex_count, stitched.normals,
                      3 * stitched.vertex_count, stitched.indices, stitched.index_count, box[0], box[1], box[2], box[3], box[4], box[5],
                      page[0], page[1], page[2], page[3], page[4], page[5], page[6], page[7], page[LISTED],
                      faces, CAD_FACE_ENTRY_NUMBERS * ENTRIES, work, WORK);
}

/* Prints a page, and the entries from first on. */
static void print_page(const CadReported *page, uint64_t first)
{
    printf("(page %" PRIu64 " %" PRIu64 " %" PRIu64 " %" PRIu64 " %" PRIu64, page->bodies, page->accepted, page->failed, page->triangles, page->vertices);
    printf(" %" PRIu64 " %" PRIu64 " %" PRIu64 " %" PRIu64 ")\n", page->empty, page->upstream, page->escaped, page->listed);
    printf("(share %" PRIu64 " %" PRIu64 ")\n", page->share_accepted, page->share_faces);
    for (uint64_t k = first; k < page->listed; k++)
        printf("(wound %" PRIu32 " %" PRIu32 ")\n", faces[CAD_FACE_ENTRY_NUMBERS * k], faces[CAD_FACE_ENTRY_NUMBERS * k + 1]);
}

/* Adds the sheet's body to the page and prints that, or answers the refusal. */
static unsigned add(const uint64_t *page)
{
    unsigned refusal = read_sheet();
    if (refusal == 0)
        refusal = finish();
    if (refusal != 0)
        HOLD("(refused %u)\n", refusal);
    if (!same || getc(answer) != EOF || ferror(answer))
        fail("the page's reader and the proved program differ");
    if (refusal != 0)
        return refusal;
    const CadReported reported = report(page);
    if (reported.refusal == CAD_DONE)
        print_page(&reported, page[LISTED]);
    return reported.refusal;
}

int main(int count, char **words)
{
    uint64_t page[PAGE_NUMBERS];
    if (count != 2) {
        fprintf(stderr, "usage: report_yard ANSWER\n");
        return 2;
    }
    answer = fopen(words[1], "rb");
    if (answer == NULL)
        fail("the proved program's answer cannot be read");
    const unsigned refusal = read_page(page) ? add(page) : MALFORMED;
    if (refusal != 0)
        printf("(refused %u)\n", refusal);
    if (fflush(stdout) != 0 || ferror(stdout))
        fail("the page could not be written");
    return 0;
}
