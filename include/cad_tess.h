/*
 * The body finisher: the face patches of one body, as a tessellator leaves them, turned to agree on which side is outside, stitched
 * where neighbours leave cracks, and assembled into one mesh with its tables and edge counts.
 *
 * A body goes through three calls, in this order:
 *
 *     cad_turn      rewrites normals and indices where they stand
 *     cad_stitch    writes the stitched body into second slices
 *     cad_assemble  writes the mesh, its parts, ranges and failures
 *
 * cad_report adds a stitched body to a page of counts over many bodies. cad_read_plan and cad_write_plan turn the text of a yard plan,
 * which says where bins stand, into a list and back. cad_nearest_bins says which of the bins that stand there a probe peg is nearest to.
 * The other calls read a face of a body, ask about one patch alone, or are the float steps on which the three are built.
 *
 * No call allocates, keeps anything between calls, or has any state of its own: a caller lends every slice, and threads may call at
 * once with slices of their own. What each call answers and what it leaves in each slice is proved against a definition, refusals
 * included, for every content that the slices may have. Link with libcad_tess.a (x86-64, System V calling convention); it takes
 * memcpy and memset from the C library and less than 4 KiB of stack; cad_read_plan, which goes as deep as a plan's groups, less than 8.
 *
 * SLICES
 *
 * A slice is lent as a pointer and a length; the length counts elements, not bytes. What the proofs take for granted, and no call can
 * test, is the caller's part:
 *
 *   - The pointer of a slice that isn't empty points to as many elements as its length says, aligned as C aligns their type.
 *     A null pointer with a length above 0, or a length that is too large, is an access to memory that isn't yours.
 *   - An empty slice may have any pointer, a null pointer too: it isn't followed.
 *   - A slice that a call may write (a pointer without const) overlaps no other slice of that call. Slices that are only read may overlap.
 *   - flip is true or false.
 *   - The processor's floating-point state is the usual one: rounding to nearest, and subnormal numbers not flushed to zero. fesetround
 *     changes the first, and some compilers change the second when a program is linked with -ffast-math.
 *
 * A BODY
 *
 * A body has F rows, V vertices and I indices, in four slices:
 *
 *     rows       CAD_ROW_NUMBERS * F numbers: for each row its shell, its face, its outcome, its vertex count, its index count and
 *                its bin. An outcome of 0 is a patch; 1 to 255 is a failure that came from upstream, and its row has no vertices and
 *                no indices.
 *                A bin, 0 to 65,535, says whose face it is: it goes through the three calls as it is and changes nothing else, and
 *                is what cad_nearest_bins answers with.
 *     positions  3 * V floats: x, y, z of each vertex; the rows' vertices follow one another without gaps. A coordinate reaches to
 *                9,223,372,013,568 of either sign (bits 550637BD): beyond it cells clamp, and strangers would be one point (24)
 *     normals    3 * V floats, laid out likewise
 *     indices    I numbers, three a triangle; the rows' indices follow one another, and count from 0 within their row's vertices
 *
 * V and I are the sums of the rows' counts. Input slices have exactly these lengths; output slices may be longer than what is
 * written, and what stands behind it stays as it was.
 *
 * THE WORK AREA
 *
 * The three calls and cad_report want CAD_WORK_WORDS(V, I, F) 64-bit words of work area, counted for the body handed to that call. It may
 * hold anything. Keep one for all bodies: to make it anew for a large body costs about as much time as turning it.
 *
 * cad_assemble and cad_report are handed the STITCHED body, which has a vertex and three indices more for each vertex that cad_stitch
 * adds: an area sized for the body before is refused with 31 after one split. Two ways to have one that is always enough:
 *
 *   - CAD_MOST_WORK_WORDS, 110 MB, for any body.
 *   - Where the largest body is known, CAD_WORK_WORDS(V2, I2, F2) for the output slices lent to cad_stitch, with room for V2 vertices,
 *     I2 indices and F2 rows: a stitched body that doesn't fit them is refused by cad_stitch with 32, so none comes to cad_assemble
 *     that needs more. With V2 = 10,000, I2 = 30,000 and F2 = 100 that is 521,600 words, 4.2 MB.
 *
 * REFUSALS
 *
 * The answer of every call that may be refused begins with its refusal, 0 (CAD_DONE) for none. A refused call gives the number of the
 * first check that fails, in the order of enum CadRefusal, and all its other fields are 0.
 *
 *     refusal            inputs and outputs    work area
 *     11 to 31           unchanged             unchanged
 *     33, 32, 42, 41     unchanged             its first CAD_WORK_WORDS(V, I, F) words are 0, the others unchanged
 *     67, 69             unchanged             the same
 *     61 to 66, 68       unchanged             none is lent
 *     0                  as each call says     its first CAD_WORK_WORDS(V, I, F) words are 0, the others unchanged
 */
#ifndef CAD_TESS_H
#define CAD_TESS_H

#if !defined(__x86_64__) || defined(__ILP32__) || defined(_WIN32) || defined(__CYGWIN__) || defined(__APPLE__)
#error "cad_tess.h: libcad_tess.a is for x86-64 with the System V calling convention (ELF), and this compiler isn't"
#endif

#include <stdbool.h>
#include <stddef.h>
#include <stdint.h>

#ifdef __cplusplus
extern "C" {
#endif

/* Numbers a row, a part, a range and a failure take in their tables. */
#define CAD_ROW_NUMBERS 6
#define CAD_PART_NUMBERS 3
#define CAD_RANGE_NUMBERS 4
#define CAD_FAILURE_NUMBERS 5

/* The most rows, vertices and indices of a body, and of a stitched one (checks 11, 13 and 33), the largest outcome (12), the largest
   bin (15). */
#define CAD_MOST_ROWS 4096
#define CAD_MOST_VERTICES 262144
#define CAD_MOST_INDICES 786432
#define CAD_MOST_OUTCOME 255
#define CAD_MOST_BIN 65535

/* Numbers that an entry of a plan's list takes: its bin, then x, y and z of its place. The most entries of a plan (check 64), and how
   far an offset or a place may be from 0 on each axis, in micrometres: 2^40 (checks 61 and 63). */
#define CAD_PLAN_ENTRY_NUMBERS 4
#define CAD_MOST_PLAN_ENTRIES 4096
#define CAD_MOST_OFFSET INT64_C(1099511627776)

/* The most bytes of a bin's line, its LF included: cad_write_plan never refuses so many for each entry with 68. */
#define CAD_MOST_PLAN_LINE 57

/* Numbers that a row's place takes: its x, y and z. How far from a peg a vertex may be on each axis, in micrometres, to count as near. */
#define CAD_PLACE_NUMBERS 3
#define CAD_PEG_REACH 5000

/* The most bodies of a page, and what no count of it may pass a body (check 67). Numbers that an entry of its face list takes: a face
   number and its count. */
#define CAD_MOST_BODIES 4096
#define CAD_MOST_PAGE_COUNT UINT64_C(262144)
#define CAD_FACE_ENTRY_NUMBERS 2

/* The work area that a call needs for the body handed to it, in 64-bit words (check 31): for cad_assemble and cad_report the stitched
   one. Its arguments are evaluated once. */
#define CAD_WORK_WORDS(vertices, indices, rows) \
    ((size_t)16 * (size_t)(indices) + (size_t)16 * (size_t)(rows) + (size_t)4 * (size_t)(vertices))

/* A work area that is enough for every body: 13,697,024 words, 110 MB. */
#define CAD_MOST_WORK_WORDS CAD_WORK_WORDS(CAD_MOST_VERTICES, CAD_MOST_INDICES, CAD_MOST_ROWS)

/* An entry of the materials: none, or material n. The largest entry is that of material 2^32 - 1 (check 42). */
#define CAD_NO_MATERIAL UINT64_C(0)
#define CAD_MATERIAL(n) ((uint64_t)(uint32_t)(n) + UINT64_C(1))

/* The case of a failure, its third number: no triangles, upstream with its number (1 to 255), or an escape. */
#define CAD_FAILURE_EMPTY UINT64_C(0)
#define CAD_FAILURE_ESCAPE UINT64_C(256)

/*
 * Why a call is refused, in the order in which the checks go; each looks at the whole body before the next, but 61 to 64 at one line
 * of a plan, or one entry of a list, before the next line or entry. 65 and 66 come straight after 24, since their call needs no work
 * area, and 67 and 69 straight after 31. Numbers 51 and 52 are the bench program's, for its text.
 */
enum CadRefusal {
    CAD_DONE = 0,
    CAD_REFUSED_TABLE = 11,          /* rows_len is no multiple of CAD_ROW_NUMBERS, or there are more than CAD_MOST_ROWS rows */
    CAD_REFUSED_OUTCOME = 12,        /* an outcome is above 255, or a failed row has a count other than 0 */
    CAD_REFUSED_LIMIT = 13,          /* more than CAD_MOST_VERTICES vertices or CAD_MOST_INDICES indices */
    CAD_REFUSED_LENGTHS = 14,        /* positions or normals aren't 3 * V long, or indices not I */
    CAD_REFUSED_BIN = 15,            /* a row, failed or not, has a bin above CAD_MOST_BIN */
    CAD_REFUSED_TRIANGLES = 21,      /* a row's index count is no multiple of 3 */
    CAD_REFUSED_INDEX = 22,          /* an index isn't below its row's vertex count */
    CAD_REFUSED_NOT_FINITE = 23,     /* a position or normal is infinite or a NaN */
    CAD_REFUSED_CLAMPED = 24,        /* a position, of a vertex that no triangle uses too, has a cell that clamps (cad_cell) */
    CAD_REFUSED_WORK_AREA = 31,      /* the work area has fewer than CAD_WORK_WORDS(V, I, F) words, of the body handed to the call */
    CAD_REFUSED_STITCHED_LIMIT = 33, /* cad_stitch: the stitched body passes the limits of 13 */
    CAD_REFUSED_OUTPUT = 32,         /* cad_stitch: an output slice is shorter than the stitched body needs */
    CAD_REFUSED_MATERIAL = 42,       /* cad_assemble: an entry, used or not, or the default is above 2^32 */
    CAD_REFUSED_MESH = 41,           /* cad_assemble: a mesh slice is shorter than the accepted patches need, or a table than F rows */
    CAD_REFUSED_LINE = 61,           /* cad_read_plan: a line is malformed; cad_write_plan: a bin is below 0 or above CAD_MOST_BIN */
    CAD_REFUSED_DEPTH = 62,          /* cad_read_plan: a seventeenth group is open at once */
    CAD_REFUSED_PLACE = 63,          /* a bin's place is beyond plus or minus CAD_MOST_OFFSET on an axis */
    CAD_REFUSED_ENTRIES = 64,        /* there is a bin beyond CAD_MOST_PLAN_ENTRIES, or beyond the list lent to cad_read_plan */
    CAD_REFUSED_PEG = 65,            /* cad_nearest_bins: the peg or a row's place is beyond CAD_MOST_OFFSET, or places are fewer than rows */
    CAD_REFUSED_BIN_LIST = 66,       /* cad_nearest_bins: the bin list is shorter than the bins that share the smallest distance */
    CAD_REFUSED_PAGE = 67,           /* cad_report: the page has CAD_MOST_BODIES or more, or a count above CAD_MOST_PAGE_COUNT * its bodies */
    CAD_REFUSED_TEXT = 68,           /* cad_write_plan: the slice is shorter than the text */
    CAD_REFUSED_FACE_LIST = 69       /* cad_report: the face list has no room for the page's entries and the new ones */
};

/* A row of the table: the table's six numbers, in their order. A table of F rows may be lent as F of these where a call takes them. */
typedef struct CadRow {
    uint32_t shell;
    uint32_t face;
    uint32_t outcome;  /* 0 for a patch, 1 to 255 for a failure from upstream */
    uint32_t vertices; /* the row's vertex count */
    uint32_t indices;  /* its index count */
    uint32_t bin;      /* 0 to CAD_MOST_BIN */
} CadRow;

/* cad_turn's answer. */
typedef struct CadTurned {
    uint32_t refusal; /* enum CadRefusal */
    uint32_t turned;  /* rows turned */
    uint64_t against; /* how often a pair of rows that contradicts the sides chosen was met, once from each end; 0 if all agree */
} CadTurned;

/* cad_stitch's answer. */
typedef struct CadStitched {
    uint32_t refusal;  /* enum CadRefusal */
    uint32_t vertices; /* vertices of the stitched body */
    uint32_t indices;  /* its indices */
    uint64_t splits;   /* points that split a triangle */
} CadStitched;

/* cad_assemble's answer. */
typedef struct CadAssembled {
    uint32_t refusal;  /* enum CadRefusal */
    uint32_t vertices; /* vertices of the mesh */
    uint32_t indices;  /* its indices */
    uint32_t parts;    /* parts written, one a material */
    uint32_t ranges;   /* ranges written, one an accepted row */
    uint32_t failures; /* failures written, one for each other row */
    uint64_t edges;    /* edges of the mesh; its points are the same if their bits agree, and an edge with equal ends doesn't count */
    uint64_t opens;    /* those used by one triangle */
    uint64_t overs;    /* those used by more than two */
    uint32_t closed;   /* 1 if no edge is used by one triangle or by more than two where 0.0 and -0.0 are one point, so of a mesh without
                          triangles too (indices is 0), else 0. The three counts above tell the two zeros apart: so closed may be 1 beside
                          opens above 0, or 0 beside opens 0 and overs 0. */
} CadAssembled;

/* The answer of a call that measures one patch. */
typedef struct CadMeasured {
    uint32_t refusal; /* enum CadRefusal */
    double value;
} CadMeasured;

/* The answer of a call that judges one patch. */
typedef struct CadJudged {
    uint32_t refusal; /* enum CadRefusal */
    uint32_t verdict; /* 1 for yes, 0 for no */
} CadJudged;

/* cad_read_plan's answer. */
typedef struct CadPlanRead {
    uint32_t refusal; /* enum CadRefusal */
    uint64_t entries; /* bins that the plan places, CAD_PLAN_ENTRY_NUMBERS numbers of the list each */
} CadPlanRead;

/* cad_write_plan's answer. */
typedef struct CadPlanWritten {
    uint32_t refusal; /* enum CadRefusal */
    uint64_t length;  /* bytes of the text */
} CadPlanWritten;

/* cad_nearest_bins's answer. */
typedef struct CadNearestBins {
    uint32_t refusal; /* enum CadRefusal */
    uint32_t bins;    /* bins written, all at one distance from the peg; 0 if no vertex is near it */
} CadNearestBins;

/* cad_report's answer: a page over bodies. The empty page, from which the first body is reported, has 0 in every count. */
typedef struct CadReported {
    uint32_t refusal;        /* enum CadRefusal */
    uint64_t bodies;         /* bodies reported */
    uint64_t accepted;       /* their faces, a row each, that are accepted as cad_assemble accepts them */
    uint64_t failed;         /* all other faces, in the three kinds below */
    uint64_t triangles;      /* triangles of the accepted faces */
    uint64_t vertices;       /* their vertices, those that no triangle uses too */
    uint64_t empty;          /* faces without triangles (CAD_FAILURE_EMPTY) */
    uint64_t upstream;       /* faces that failed upstream */
    uint64_t escaped;        /* faces that escape their body's box (CAD_FAILURE_ESCAPE) */
    uint64_t listed;         /* entries of the face list so far */
    uint64_t share_accepted; /* the accepted share of all faces as a reduced fraction: this of share_faces, 1 of 1 without a face */
    uint64_t share_faces;
} CadReported;

/* cad_cell's answer. */
typedef struct CadCell {
    int64_t value;    /* the cell */
    uint32_t clamped; /* 1 if it is cut off at the end of 64 bits, so that other coordinates share it, else 0 */
} CadCell;

/* cad_key's answer. */
typedef struct CadKey {
    uint64_t value;   /* the key */
    uint32_t clamped; /* 1 if one of the three cells is cut off, else 0 */
} CadKey;

/* The library's layout of all these; a compiler that was told to pack structures stops here. */
typedef char cad_layout_is_the_library_s[sizeof(float) == 4 && sizeof(double) == 8 && sizeof(size_t) == 8 && sizeof(bool) == 1 &&
                                         sizeof(CadTurned) == 16 && sizeof(CadStitched) == 24 && sizeof(CadAssembled) == 56 &&
                                         sizeof(CadMeasured) == 16 && sizeof(CadJudged) == 8 &&
                                         sizeof(CadPlanRead) == 16 && sizeof(CadPlanWritten) == 16 && sizeof(CadNearestBins) == 8 &&
                                         sizeof(CadReported) == 96 &&
                                         sizeof(CadCell) == 16 && sizeof(CadKey) == 16 &&
                                         sizeof(CadRow) == CAD_ROW_NUMBERS * sizeof(uint32_t) ? 1 : -1];

/*
 * Turns the rows of a body so that neighbours of one shell agree on which side is outside; a group of neighbours whose volume comes
 * out below 0 is inverted. A turned row has corners 1 and 2 of each triangle swapped and its normals negated, where they stand.
 *
 *     rows_len CAD_ROW_NUMBERS * F, positions_len 3 * V, normals_len 3 * V, indices_len I,
 *     work_len at least CAD_WORK_WORDS(V, I, F)
 *
 * Refusals: 11, 12, 13, 14, 15, 21, 22, 23, 24, 31.
 */
CadTurned cad_turn(const uint32_t *rows, size_t rows_len,
                   const float *positions, size_t positions_len,
                   float *normals, size_t normals_len,
                   uint32_t *indices, size_t indices_len,
                   uint64_t *work, size_t work_len);

/*
 * Stitches a body, which should be a turned one: where a corner of a triangle with an open edge lies within the sag of another open
 * edge, that edge's triangle is split there. Each row keeps its place and its bin; its new vertices follow its own. A sag that isn't
 * above 0 (a NaN too) splits nothing, and the body is copied. The sag is in the unit of the positions.
 *
 *     rows_len CAD_ROW_NUMBERS * F, positions_len 3 * V, normals_len 3 * V, indices_len I,
 *     work_len at least CAD_WORK_WORDS(V, I, F)
 *     out_rows_len at least CAD_ROW_NUMBERS * F, out_positions_len and out_normals_len at least 3 * the answer's vertices,
 *     out_indices_len at least the answer's indices
 *
 * How large the stitched body is shows only when it is stitched: each new vertex comes with three new indices. Outputs of
 * 3 * CAD_MOST_VERTICES floats and CAD_MOST_INDICES indices (9.4 MB in all) are never refused with 32; smaller ones may be, and the
 * call can be made again with larger ones, since a refusal leaves the body as it was.
 *
 * The time goes with the triangles, with the points found on open edges (the answer's splits, also those dropped for being close to
 * another), and with the boxes of points that long open edges pass. Patches that meet along seams take about a microsecond a triangle;
 * a body inside the limits that is made to take long takes minutes (docs/PERFORMANCE.md, Stitching). Who takes bodies from others
 * should bound their triangles, or stitch where some minutes do no harm.
 *
 * Refusals: 11, 12, 13, 14, 15, 21, 22, 23, 24, 31, 33, 32.
 */
CadStitched cad_stitch(const uint32_t *rows, size_t rows_len,
                       const float *positions, size_t positions_len,
                       const float *normals, size_t normals_len,
                       const uint32_t *indices, size_t indices_len,
                       double sag,
                       uint32_t *out_rows, size_t out_rows_len,
                       float *out_positions, size_t out_positions_len,
                       float *out_normals, size_t out_normals_len,
                       uint32_t *out_indices, size_t out_indices_len,
                       uint64_t *work, size_t work_len);

/*
 * Assembles a body, which should be a stitched one, into one mesh. A row is accepted if it has a patch with triangles that doesn't
 * escape the box. Accepted vertices are laid in row order, indices in one run a material, materials rising.
 *
 *     rows_len CAD_ROW_NUMBERS * F, positions_len 3 * V, normals_len 3 * V, indices_len I,
 *     work_len at least CAD_WORK_WORDS(V, I, F), where V and I are those of the body handed over: the answer's vertices
 *         and indices of cad_stitch
 *     the box: its lowest and its highest corner; any doubles. If it is empty (a minimum above its maximum) nothing escapes
 *     materials: entry k is that of face number k, CAD_NO_MATERIAL or CAD_MATERIAL(n); of any length. A face whose entry is none or
 *         missing has the default, and material 0 if that is CAD_NO_MATERIAL too
 *     mesh_positions_len and mesh_normals_len at least 3 * the accepted vertices (3 * V is enough),
 *     mesh_indices_len at least the accepted indices (I is enough)
 *     parts_len at least CAD_PART_NUMBERS * F: for each part its material, its start and its count in the mesh's indices
 *     ranges_len at least CAD_RANGE_NUMBERS * F: for each accepted row its face, its bin, its first index in the mesh and
 *         one past its last
 *     failures_len at least CAD_FAILURE_NUMBERS * F: for each other row its face, its bin, its case (CAD_FAILURE_EMPTY, the
 *         upstream number, or CAD_FAILURE_ESCAPE), and for an escape the bits of two doubles, how far the patch reaches
 *         from the box's centre and how far it may, else 0 and 0
 *
 * Refusals: 11, 12, 13, 14, 15, 21, 22, 23, 24, 31, 42, 41.
 */
CadAssembled cad_assemble(const uint32_t *rows, size_t rows_len,
                          const float *positions, size_t positions_len,
                          const float *normals, size_t normals_len,
                          const uint32_t *indices, size_t indices_len,
                          double min_x, double min_y, double min_z,
                          double max_x, double max_y, double max_z,
                          const uint64_t *materials, size_t materials_len,
                          uint64_t default_material,
                          float *mesh_positions, size_t mesh_positions_len,
                          float *mesh_normals, size_t mesh_normals_len,
                          uint32_t *mesh_indices, size_t mesh_indices_len,
                          uint32_t *parts, size_t parts_len,
                          uint32_t *ranges, size_t ranges_len,
                          uint64_t *failures, size_t failures_len,
                          uint64_t *work, size_t work_len);

/*
 * Adds a body, which should be a stitched one, to a page over bodies: the answer is the page with that body added. The page so far is
 * handed over by its numbers, all 0 for the empty page; its share isn't asked for, since it is made of the new sums.
 *
 * Face numbers wound against a neighbour are listed. Over the whole body, shells ignored, each later use of an edge that runs the same
 * way as the edge's first use, by rows and triangles in their order, adds 1 to the face numbers of both rows, 2 if they are one number;
 * edges are taken as cad_turn takes them, and rows that escape take part. The face numbers with a count above 0 follow in the face list
 * as (face, count), highest count first, then by number. They go in behind the page's listed entries, so that the list of a yard is that
 * of its bodies one after another.
 *
 *     rows_len CAD_ROW_NUMBERS * F, positions_len 3 * V, normals_len 3 * V, indices_len I,
 *     work_len at least CAD_WORK_WORDS(V, I, F), where V and I are those of the body handed over
 *     the box: its lowest and its highest corner, as for cad_assemble
 *     the page: bodies below CAD_MOST_BODIES, each of the other numbers at most CAD_MOST_PAGE_COUNT * bodies
 *     faces_len at least CAD_FACE_ENTRY_NUMBERS * the answer's listed; it has room for faces_len / CAD_FACE_ENTRY_NUMBERS entries, rounded
 *         down. A body lists as many as it has rows at most. Without room for the page's own entries it is refused even if none is new.
 *         What stands before and behind the new entries stays as it was, and after a refusal all of it
 *
 * Refusals: 11, 12, 13, 14, 15, 21, 22, 23, 24, 31, 67, 69.
 */
CadReported cad_report(const uint32_t *rows, size_t rows_len,
                       const float *positions, size_t positions_len,
                       const float *normals, size_t normals_len,
                       const uint32_t *indices, size_t indices_len,
                       double min_x, double min_y, double min_z,
                       double max_x, double max_y, double max_z,
                       uint64_t bodies, uint64_t accepted, uint64_t failed,
                       uint64_t triangles, uint64_t vertices,
                       uint64_t empty, uint64_t upstream, uint64_t escaped,
                       uint64_t listed,
                       uint32_t *faces, size_t faces_len,
                       uint64_t *work, size_t work_len);

/*
 * Reads a yard plan: a text that places bodies, which are drawn near their own origin, by whole micrometres. Each line ends in LF and
 * is one of
 *
 *     (group x y z    opens a group with its offset; it may hold bins, further groups, or nothing
 *     (bin n x y z)   a bin with its offset, in the groups that are open or in none
 *     )               closes the group that was opened last
 *
 * Numbers are decimal without leading zeros, negative ones with a minus. An offset is within plus or minus CAD_MOST_OFFSET on each
 * axis, a bin's number at most CAD_MOST_BIN, and sixteen groups may be open at once. A bin's place is the sum of its own offset and
 * those of the groups it stands in. An empty text is a plan of no bins.
 *
 * The list gets the plan's bins in the order read, each as its number and x, y and z of its place; a bin named twice is two entries.
 *
 *     text_len any
 *     list_len at least CAD_PLAN_ENTRY_NUMBERS * the answer's entries; it has room for list_len / CAD_PLAN_ENTRY_NUMBERS, rounded
 *         down, but never for more than CAD_MOST_PLAN_ENTRIES (CAD_PLAN_ENTRY_NUMBERS * CAD_MOST_PLAN_ENTRIES is always enough).
 *         What stands behind the entries stays as it was
 *
 * The first line that offends decides, and on one line the checks go in their order. A group that is never closed is found past the
 * last line. A refusal leaves the whole list as it was.
 *
 * Refusals: 61, 62, 63, 64.
 */
CadPlanRead cad_read_plan(const uint8_t *text, size_t text_len,
                          int64_t *list, size_t list_len);

/*
 * Writes a list of placed bins as a plan's text, a line (bin n x y z) for each entry; cad_read_plan gives the same entries of it.
 *
 *     list_len any: the list has list_len / CAD_PLAN_ENTRY_NUMBERS entries, rounded down, and numbers behind the last are not read
 *     out_len at least the answer's length, which is at most CAD_MOST_PLAN_LINE an entry. What stands behind the text stays as it was
 *
 * The first entry that offends decides, by its bin, its place and then its being one too many; 68 comes when all entries are good.
 * A refusal leaves out as it was.
 *
 * Refusals: 61, 63, 64, 68.
 */
CadPlanWritten cad_write_plan(const int64_t *list, size_t list_len,
                              uint8_t *out, size_t out_len);

/*
 * Which bins a probe peg is nearest to, exactly. Bodies that a plan places are lent as one body, their rows one after another: each row
 * is drawn near its own bin's origin, in millimetres, and moved by its place, in whole micrometres as the peg's is.
 *
 * Each vertex, used by a triangle or not, is taken to the nearest whole micrometre, halves away from zero, and its row's place is added
 * then. One that is more than CAD_PEG_REACH from the peg on any axis is ignored. Of the others the smallest sum of the squares of the
 * three differences wins: the answer is every bin that has a vertex with that sum, ascending, each once. Without a vertex near there is
 * no bin. Distances are to vertices, never to the walls between them.
 *
 *     rows_len CAD_ROW_NUMBERS * F, positions_len 3 * V, normals_len 3 * V, indices_len I
 *     places_len at least CAD_PLACE_NUMBERS * F: x, y and z of each row's place, of a failed row's too, each within plus or minus
 *         CAD_MOST_OFFSET. Numbers behind the last row's are not looked at
 *     x, y, z: the peg, each within plus or minus CAD_MOST_OFFSET
 *     bins_len at least the answer's bins, of which there is at most one a row (F is always enough). What stands behind them stays
 *         as it was
 *
 * There is no work area. A refusal leaves the whole bin list as it was. An answer of no bins fits an empty list.
 *
 * Refusals: 11, 12, 13, 14, 15, 21, 22, 23, 24, 65, 66.
 */
CadNearestBins cad_nearest_bins(const uint32_t *rows, size_t rows_len,
                                const float *positions, size_t positions_len,
                                const float *normals, size_t normals_len,
                                const uint32_t *indices, size_t indices_len,
                                const int64_t *places, size_t places_len,
                                int64_t x, int64_t y, int64_t z,
                                uint32_t *bins, size_t bins_len);

/*
 * One face of a body. Nothing is refused: a row past the end has face 0 and no indices, and slices may be of any length.
 */

/* The face number of row k. rows_len counts rows: an array of CadRow, or a table of CAD_ROW_NUMBERS * rows_len numbers cast to one. */
uint32_t cad_face_at(const CadRow *rows, size_t rows_len, size_t k);

/*
 * Row k's indices after stitching, as they count within the row's vertices. They are a stretch of the old indices if the row came
 * through stitching unchanged, and of the new ones if it was stitched, which gives it vertices.
 *
 *     rows, indices                    the body as it was handed to cad_stitch
 *     stitched_rows, stitched_indices  what cad_stitch left in out_rows and out_indices; they may be longer than what it wrote
 *     out_len                          any: the answer says how many indices the row has, and so many are written, or as many as
 *                                      there is room for. What stands behind them stays as it was
 *
 * The tables are taken as they are. A stretch that goes beyond its slice ends where the slice does.
 */
uint64_t cad_face_indices(const uint32_t *rows, size_t rows_len,
                          const uint32_t *indices, size_t indices_len,
                          const uint32_t *stitched_rows, size_t stitched_rows_len,
                          const uint32_t *stitched_indices, size_t stitched_indices_len,
                          size_t k,
                          uint32_t *out, size_t out_len);

/*
 * One patch alone: a body of one row of bin 0 with positions_len / 3 vertices and indices_len indices. It needs no work area and
 * nothing is written. Refusals: 13 (before the lengths are looked at), 14, 21, 22, 23, 24.
 */

/* The volume between the patch and the origin, one sixth of the sum of its triangles' determinants; as if turned, where flip says so. */
CadMeasured cad_patch_volume(const float *positions, size_t positions_len,
                             const float *normals, size_t normals_len,
                             const uint32_t *indices, size_t indices_len,
                             bool flip);

/* How far the patch's farthest vertex, used or not, is from the box's centre; 0 without a vertex or if the box is empty. */
CadMeasured cad_farthest(const float *positions, size_t positions_len,
                         const float *normals, size_t normals_len,
                         const uint32_t *indices, size_t indices_len,
                         double min_x, double min_y, double min_z,
                         double max_x, double max_y, double max_z);

/* Whether the patch escapes: the box isn't empty, its diagonal is above 0, and the farthest vertex is farther than that. */
CadJudged cad_escapes_body(const float *positions, size_t positions_len,
                           const float *normals, size_t normals_len,
                           const uint32_t *indices, size_t indices_len,
                           double min_x, double min_y, double min_z,
                           double max_x, double max_y, double max_z);

/*
 * Float steps on bit patterns, of IEEE 754 binary32 (32 bits) and binary64 (64 bits); every pattern is taken. A result that is a NaN
 * is 7FF8000000000000, narrowed 7FC00000.
 */

/* The binary64 of the same value. */
uint64_t cad_widen(uint32_t bits);

/* The nearest binary32, ties to even. */
uint32_t cad_narrow(uint64_t bits);

/* The binary64 nearest to the square root, ties to even. */
uint64_t cad_sqrt(uint64_t bits);

/* The nearest whole number, halves away from zero. */
uint64_t cad_round(uint64_t bits);

/* The larger of two: a NaN is ignored, and +0 is above -0. */
uint64_t cad_larger(uint64_t a, uint64_t b);

/* The whole number nearest to 1,000,000 * v, halves away from zero, clamped to 64 bits, and whether it was; 0 for a NaN, which isn't. The
   last floats that don't clamp have the bits 550637BD and D50637BD; an infinity clamps. */
CadCell cad_cell(float v);

/* The key of a point, a digest of its three cells, and whether one of them clamps: points with one key are one point to cad_turn and
   cad_stitch, which refuse a body with a clamped one (24). */
CadKey cad_key(float x, float y, float z);

#ifdef __cplusplus
}
#endif

#endif
