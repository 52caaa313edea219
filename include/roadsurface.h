/* The road-surface library: roads and junctions made into triangles, and the height and tilt of the
 * road under a wheel. Link with libroadsurface.a (built by `rt lib` in crates/roadsurface). What each
 * function answers and what it leaves in the memory it is lent is proved; the contracts stand in
 * crates/roadsurface/src/lib.rt, and this page says them in plain words.
 *
 * What is lent. A list is a pointer and a count of its elements as the pointer's type has them: floats,
 * doubles, words of 32 bits or bytes, never points, triangles or records. `.._count` says each time which.
 * A pointer is aligned for its type and points to that many elements; with a count of 0 nothing is read or
 * written through it. A number that comes back through a pointer (`height`, `dropped`, ..) is one element;
 * that pointer is never null. What is written overlaps nothing else that is lent in the same call. Nothing is
 * kept after a call, no memory is taken, and calls of several threads do not meet unless they are lent the
 * same output. A count given in points instead of floats is often a good list too, only a shorter one, and is
 * taken: the functions rs_.._of at the end of this page take points, vertices, lanes and the like, and count
 * the elements themselves.
 *
 * What comes back. Each function returns a code. If its upper 32 bits (RS_NUMBER) are 0 the call was taken,
 * and the lower 32 (RS_COUNT) are its count, in the unit said below. Else they are the refusal's number and
 * place (RS_PLACE), and the call has written nothing: no element and no number. In a call that is taken,
 * elements past the result keep what they held, and so does a number that the answer has no value for. Float
 * memory that is left untouched keeps its values; the bits of a NaN in it may change in the payload. A count
 * or place that 32 bits do not hold is told as ffffffff; only rs_tops has one, for 2^29 points or more.
 *
 * The refusals, in the order in which they are looked for:
 *   RS_OVERSIZE       a list past its limit; place: the limit
 *   RS_RAGGED         a run that ends before it starts, starts before the last one's end or ends past
 *                     its list, or a list with a part element at its end; place: the list's position in
 *                     the call, from 0, as numbered below
 *   RS_NOT_A_VERDICT  of bytes, no verdict's sentence; place: the first byte at which no sentence goes on so, or
 *                     how many bytes there are. Of a kind and counts, no verdict; place: the first that is wrong
 *   RS_ODD_NORMALS    a part of a joining has not as many normals as vertices; place: the part, 0 or 1
 *   RS_LOOSE_CORNER   an index of a part is past that part's own vertices; place: the first such index's, in the
 *                     two parts' index lists laid end to end
 *   RS_FOREIGN_INDEX  the index is not one of this mesh; place: its first unfit word, or its length
 *   RS_BAD_RECORD     a record of a surface file is bad; place: the first such record, from 0
 *   RS_OVERSIZE       a result past its limit; place: the limit
 *   RS_SHORT_OUTPUT   an output smaller than the result; place: the count wanted, in that output's elements
 * Among several lists with one fault the first is named, in the order of the limits below.
 *
 * Lists of records are words, floats in them by their bits:
 *   lane     10 words: id; start and end of its run of points, of tangents, of widths, of banks; default width
 *   span      5 words: lane id; start and end of its vertices; start and end of its indices
 *   segment   2 words: start and end of its points
 *   grid row  6 words: the centre's bits, low word then high; start and end of its left heights; of its right
 * Runs count points, tangents, widths, banks, vertices, indices or heights. Points, vertices, tangents and
 * normals are three floats x, y, z each; a bank is two, sine and cosine; a point that is asked for is two, x
 * and y. Limits: 4,096 points, tangents, widths or banks of a lane, 1,024 lanes; 256 segments and 4,096
 * points of a boundary; 1,024 points of a ring to clip; 1,024 grid rows of 1,024 heights a side; a mesh of
 * 65,536 vertices, 65,536 normals, 196,608 indices and 1,024 spans; an index of 4,194,304 words; a surface
 * file of 2,048 records and lanes up to 4,294,967,294.
 *
 * What is trusted. The floating-point environment is the usual one: rounding to nearest, ties to even;
 * subnormals kept; no exception trapped. A program linked with -ffast-math may flush subnormals for the whole
 * process: a vertex of height z = 1e-39 then gives 0. The calls take no memory but the caller's stack, about:
 *   rs_report         231 KB
 *   rs_ring            53 KB
 *   rs_surface_mesh    18 KB
 *   rs_junction_mesh   18 KB
 *   rs_ear_clip        17 KB
 *   rs_build_index      9 KB
 *   every other       under 2 KB
 */
#ifndef ROADSURFACE_H
#define ROADSURFACE_H

#include <stdbool.h>
#include <stddef.h>
#include <stdint.h>
#include <string.h>

#ifdef __cplusplus
extern "C" {
#endif

/* The refusals by their numbers; RS_TAKEN is no refusal. */
enum {
    RS_TAKEN = 0,
    RS_OVERSIZE = 1,
    RS_RAGGED = 2,
    RS_SHORT_OUTPUT = 3,
    RS_FOREIGN_INDEX = 4,
    RS_BAD_RECORD = 5,
    RS_NOT_A_VERDICT = 6,
    RS_ODD_NORMALS = 7,
    RS_LOOSE_CORNER = 8
};

/* The verdicts of rs_validate. */
enum {
    RS_SOUND = 0,
    RS_EMPTY = 1,
    RS_NON_FINITE = 2,
    RS_OUT_OF_RANGE = 3,
    RS_DEGENERATE = 4
};

/* The record of a point: eight words. Word 0 is one of these. RS_FOUND: words 1 to 7 are the bits of the
 * height, of the normal's x, y and z, the triangle's number, whether it belongs to a lane, the lane's id (0 if
 * not). RS_NONE: the rest are zeros. RS_REFUSED, which only rs_tops writes: the refusal's number and place
 * for this point, then zeros. A NaN's bits are 7fc00000. */
enum {
    RS_NONE = 0,
    RS_FOUND = 1,
    RS_REFUSED = 2,
    RS_RECORD_WORDS = 8
};

/* Elements of one point, record and so on; and bytes of the longest sentence. */
enum {
    RS_POINT_FLOATS = 3,
    RS_BANK_FLOATS = 2,
    RS_ASKED_FLOATS = 2,
    RS_LANE_WORDS = 10,
    RS_SPAN_WORDS = 5,
    RS_SEGMENT_WORDS = 2,
    RS_ROW_WORDS = 6,
    RS_EAR_WORDS = 3,
    RS_SENTENCE_BYTES = 84
};

/* The parts of a code: the number of the refusal, or 0, and then the count or the place. */
static inline uint32_t RS_NUMBER(uint64_t code) { return (uint32_t)(code >> 32); }
static inline uint32_t RS_COUNT(uint64_t code) { return (uint32_t)code; }
static inline uint32_t RS_PLACE(uint64_t code) { return (uint32_t)code; }

/* The float that a word of a record stands for. */
static inline float RS_SINGLE(uint32_t word)
{
    float x;
    memcpy(&x, &word, sizeof x);
    return x;
}

/* The height of an elevation grid at s along and t to the left of its reference line, or under (x, y).
 * The line starts at the origin with the heading whose sine and cosine are given; the first row is at
 * `start` along it, and the points are `spacing` apart.
 * Lists: rows 0 (words), left 1 and right 2 (doubles). Every ragged row is at 0.
 * Count: 1 for a height, 0 for none. height: the height; left as it was for none. */
uint64_t rs_elevation_height(
    double origin_x, double origin_y, double sin, double cos, double start, double spacing,
    const uint32_t *rows, size_t rows_count, const double *left, size_t left_count,
    const double *right, size_t right_count,
    double s, double t, double *height);

uint64_t rs_elevation_height_at(
    double origin_x, double origin_y, double sin, double cos, double start, double spacing,
    const uint32_t *rows, size_t rows_count, const double *left, size_t left_count,
    const double *right, size_t right_count,
    double x, double y, double *height);

/* Joins boundary segments to a ring, counter-clockwise, and writes its coordinates.
 * Lists: segments 0 (words), points 1 (floats). Written: ring (floats, three a point).
 * Count: points of the ring. dropped: empty segments. gap: the greatest gap. closed: 1 if that is at most
 * 0.1, else 0. turned: 1 if the ring was reversed, else 0. */
uint64_t rs_ring(
    const uint32_t *segments, size_t segments_count, const float *points, size_t points_count,
    float *ring, size_t ring_count,
    uint32_t *dropped, float *gap, uint32_t *closed, uint32_t *turned);

/* Cuts a ring into ears. Lists: ring 0 (floats). Written: ears (words, three numbers of points an ear).
 * Count: ears. */
uint64_t rs_ear_clip(const float *ring, size_t ring_count, uint32_t *ears, size_t ears_count);

/* The ground inside a boundary as triangles, at the heights of the grid if there is one; without it
 * the six numbers count for nothing, but the lists of rows and heights are looked through all the same.
 * Lists: ring 0 (floats), rows 1 (words), left 2 and right 3 (doubles). Every ragged row is at 1.
 * Written: vertices and normals (floats, three each), indices (words).
 * Count: vertices; there are as many normals and indices. */
uint64_t rs_junction_mesh(
    const float *ring, size_t ring_count, bool has_grid,
    double origin_x, double origin_y, double sin, double cos, double start, double spacing,
    const uint32_t *rows, size_t rows_count, const double *left, size_t left_count,
    const double *right, size_t right_count,
    float *vertices, size_t vertices_count, float *normals, size_t normals_count,
    uint32_t *indices, size_t indices_count);

/* The strips of lanes. Lists: points 0, tangents 1, widths 2, banks 3 (floats), lanes 4 (words).
 * Written: vertices and normals (floats, three each), indices (words), spans (words, five each).
 * Count: vertices. normal_count, index_count, span_count: how many normals, indices and spans. */
uint64_t rs_surface_mesh(
    const float *points, size_t points_count, const float *tangents, size_t tangents_count,
    const float *widths, size_t widths_count, const float *banks, size_t banks_count,
    const uint32_t *lanes, size_t lanes_count,
    float *vertices, size_t vertices_count, float *normals, size_t normals_count,
    uint32_t *indices, size_t indices_count, uint32_t *spans, size_t spans_count,
    uint32_t *normal_count, uint32_t *index_count, uint32_t *span_count);

/* Two meshes as one: vertices, normals, indices and spans of the first, then of the second, whose indices and runs
 * of vertices move up by the first's vertices and whose runs of indices by the first's indices. Lanes keep their ids.
 * Where no covering triangle's height is a NaN, rs_height_at of the whole is the higher of what it is of the two, the
 * first's if they are equal; a triangle of the second has its number moved up by the first's triangles. A mesh of no
 * elements changes nothing, and of three in a row it is all the same which neighbours are joined first.
 * Lists: the first's vertices 0, normals 1 (floats), indices 2, spans 3 (words), the second's 4 to 7. Indices not in
 * threes are RS_RAGGED here, before the spans. Written: vertices and normals (floats, three each), indices (words),
 * spans (words, five each); they overlap neither mesh.
 * Count: vertices. normal_count, index_count, span_count: how many normals, indices and spans. */
uint64_t rs_join(
    const float *first_vertices, size_t first_vertices_count, const float *first_normals, size_t first_normals_count,
    const uint32_t *first_indices, size_t first_indices_count, const uint32_t *first_spans, size_t first_spans_count,
    const float *second_vertices, size_t second_vertices_count,
    const float *second_normals, size_t second_normals_count,
    const uint32_t *second_indices, size_t second_indices_count,
    const uint32_t *second_spans, size_t second_spans_count,
    float *vertices, size_t vertices_count, float *normals, size_t normals_count,
    uint32_t *indices, size_t indices_count, uint32_t *spans, size_t spans_count,
    uint32_t *normal_count, uint32_t *index_count, uint32_t *span_count);

/* The highest triangle over (x, y), of the lowest number among equals, by looking at all of them.
 * Lists: vertices 0, normals 1 (floats), indices 2, spans 3 (words).
 * Written: record, eight words; the lane is not looked for, so words 6 and 7 are 0. Fewer than eight words
 * are RS_SHORT_OUTPUT, 8, if nothing else is wrong. Count: 1 for a height, 0 for none. */
uint64_t rs_height_at(
    const float *vertices, size_t vertices_count, const float *normals, size_t normals_count,
    const uint32_t *indices, size_t indices_count, const uint32_t *spans, size_t spans_count,
    float x, float y, uint32_t *record, size_t record_count);

/* Builds the index of a mesh, for rs_top and rs_tops over that same mesh.
 * Lists: as rs_height_at. Written: index (words). Count: words of the index. It is quickest where many
 * more words are lent than the index takes: else these are counted first. */
uint64_t rs_build_index(
    const float *vertices, size_t vertices_count, const float *normals, size_t normals_count,
    const uint32_t *indices, size_t indices_count, const uint32_t *spans, size_t spans_count,
    uint32_t *index, size_t index_count);

/* The highest of the triangles that the index names for (x, y).
 * Lists: as rs_height_at, and index 4 (words). Written: record, eight words, and short of that as
 * rs_height_at. Count: 1 for a height, 0 for none. */
uint64_t rs_top(
    const float *vertices, size_t vertices_count, const float *normals, size_t normals_count,
    const uint32_t *indices, size_t indices_count, const uint32_t *spans, size_t spans_count,
    const uint32_t *index, size_t index_count,
    float x, float y, uint32_t *record, size_t record_count);

/* rs_top at many points; the mesh and the index's first words are looked through once for all of them.
 * Lists: as rs_top, and points 5 (floats, two a point). Written: records (words, eight a point), each what
 * rs_top writes there. Where the index is foreign in a point's own cell, the call is taken and that point's
 * record says RS_REFUSED. Count: points. */
uint64_t rs_tops(
    const float *vertices, size_t vertices_count, const float *normals, size_t normals_count,
    const uint32_t *indices, size_t indices_count, const uint32_t *spans, size_t spans_count,
    const uint32_t *index, size_t index_count, const float *points, size_t points_count,
    uint32_t *records, size_t records_count);

/* The verdict on a mesh. Lists: as rs_height_at.
 * Count: one of RS_SOUND, RS_EMPTY (no indices), RS_NON_FINITE, RS_OUT_OF_RANGE, RS_DEGENERATE (no area).
 * place: the vertex of RS_NON_FINITE, the triangle of the last two. index, vertex_count: of RS_OUT_OF_RANGE,
 * the index and the number of vertices that it is past. What a verdict does not tell is left as it was. */
uint64_t rs_validate(
    const float *vertices, size_t vertices_count, const float *normals, size_t normals_count,
    const uint32_t *indices, size_t indices_count, const uint32_t *spans, size_t spans_count,
    uint32_t *place, uint32_t *index, uint32_t *vertex_count);

/* A verdict as the sentence of a log, in ASCII with a full stop and no line feed, and back. The kind and the counts
 * place, index and vertex_count mean what they mean of rs_validate; a count may be any number of 32 bits:
 *   RS_SOUND         mesh is sound.
 *   RS_EMPTY         mesh has no triangles.
 *   RS_NON_FINITE    vertex 3 is not finite.
 *   RS_OUT_OF_RANGE  triangle 3 indexes vertex 7, past the 4 vertices present.
 *   RS_DEGENERATE    triangle 3 has no area.
 *
 * rs_verdict_write. A count that the kind does not tell must be 0: rs_validate and rs_verdict_read leave it as it was,
 * so set the three to 0 before each call of those. Refused: values that are no verdict (RS_NOT_A_VERDICT: 0 for a
 * kind past these, 1, 2 or 3 for place, index or vertex_count if it is not told and not 0); short output.
 * Written: text, RS_SENTENCE_BYTES bytes at most. Count: bytes.
 *
 * rs_verdict_read. Taken is exactly what rs_verdict_write can write; of the bytes lent 84 at most are looked at.
 * Refused: all others (RS_NOT_A_VERDICT). Count: the kind. place, index, vertex_count: what rs_validate leaves. */
uint64_t rs_verdict_write(
    uint32_t kind, uint32_t place, uint32_t index, uint32_t vertex_count, uint8_t *text, size_t text_count);
uint64_t rs_verdict_read(
    const uint8_t *text, size_t text_count, uint32_t *place, uint32_t *index, uint32_t *vertex_count);

/* A surface file's bytes as words, and back: records of eight words, little-endian in the file. Words are held as
 * they stand in the file, but for a triangle's words 4 and 7:
 *              word 4 in the file   word 7   word 4 held   word 7
 *   a lane     its id plus one      0        its id        1
 *   no lane    0                    0        0             0
 * Lanes go from 0 to 4,294,967,294. Another word 7 makes a record bad, and so does, held, a
 * word 4 that is not 0 with 0 in word 7. A surface
 * that is written and read is the same, and so is a file that is read and written. docs/FORMAT.md has all words.
 * Refused: more than 2,048 records (RS_OVERSIZE, 2048); the first bad record (RS_BAD_RECORD); by rs_surface_write a
 * triangle of lane 4,294,967,295 (RS_OVERSIZE, 4294967294); short output.
 * Written: held (words), or bytes. Count: words, or bytes. */
uint64_t rs_surface_read(const uint8_t *bytes, size_t bytes_count, uint32_t *held, size_t held_count);
uint64_t rs_surface_write(const uint32_t *held, size_t held_count, uint8_t *bytes, size_t bytes_count);

/* The text that the program `probe` prints of a surface file; that of a bad file says so. The only
 * refusal is a short output. Written: text. Count: bytes. */
uint64_t rs_report(const uint8_t *bytes, size_t bytes_count, uint8_t *text, size_t text_count);

/* ---- The same calls by points. Counts here are of points, vertices, lanes and the like, and each function
 * tells the library the elements. A count past what memory can hold becomes SIZE_MAX elements, which is
 * RS_OVERSIZE, and of an output room enough: lend no more than there is. */

static inline size_t rs_elements(size_t count, size_t each)
{
    return count > SIZE_MAX / each ? SIZE_MAX : count * each;
}

/* A mesh by its vertices, normals, indices and spans. */
struct rs_mesh {
    const float *vertices;
    size_t vertices_count;
    const float *normals;
    size_t normals_count;
    const uint32_t *indices;
    size_t indices_count;
    const uint32_t *spans;
    size_t spans_count;
};

/* Room for a mesh, in vertices, normals, indices and spans. */
struct rs_room {
    float *vertices;
    size_t vertices_count;
    float *normals;
    size_t normals_count;
    uint32_t *indices;
    size_t indices_count;
    uint32_t *spans;
    size_t spans_count;
};

/* Lanes by their points, tangents, widths and banks. */
struct rs_lanes {
    const float *points;
    size_t points_count;
    const float *tangents;
    size_t tangents_count;
    const float *widths;
    size_t widths_count;
    const float *banks;
    size_t banks_count;
    const uint32_t *lanes;
    size_t lanes_count;
};

/* An elevation grid by its rows and its heights on the left and on the right. */
struct rs_grid {
    double origin_x, origin_y, sin, cos, start, spacing;
    const uint32_t *rows;
    size_t rows_count;
    const double *left;
    size_t left_count;
    const double *right;
    size_t right_count;
};

static inline uint64_t rs_elevation_height_of(const struct rs_grid *g, double s, double t, double *height)
{
    return rs_elevation_height(g->origin_x, g->origin_y, g->sin, g->cos, g->start, g->spacing,
                               g->rows, rs_elements(g->rows_count, RS_ROW_WORDS),
                               g->left, g->left_count, g->right, g->right_count, s, t, height);
}

static inline uint64_t rs_elevation_height_at_of(const struct rs_grid *g, double x, double y, double *height)
{
    return rs_elevation_height_at(g->origin_x, g->origin_y, g->sin, g->cos, g->start, g->spacing,
                                  g->rows, rs_elements(g->rows_count, RS_ROW_WORDS),
                                  g->left, g->left_count, g->right, g->right_count, x, y, height);
}

/* Counts: segments, points, points of `ring`. */
static inline uint64_t rs_ring_of(
    const uint32_t *segments, size_t segments_count, const float *points, size_t points_count,
    float *ring, size_t ring_count, uint32_t *dropped, float *gap, uint32_t *closed, uint32_t *turned)
{
    return rs_ring(segments, rs_elements(segments_count, RS_SEGMENT_WORDS),
                   points, rs_elements(points_count, RS_POINT_FLOATS),
                   ring, rs_elements(ring_count, RS_POINT_FLOATS), dropped, gap, closed, turned);
}

/* Counts: points, ears. */
static inline uint64_t rs_ear_clip_of(const float *ring, size_t ring_count, uint32_t *ears, size_t ears_count)
{
    return rs_ear_clip(ring, rs_elements(ring_count, RS_POINT_FLOATS), ears, rs_elements(ears_count, RS_EAR_WORDS));
}

/* Count: points of the ring. `g` may be null: no grid. The room's spans are not used. */
static inline uint64_t rs_junction_mesh_of(
    const float *ring, size_t ring_count, const struct rs_grid *g, const struct rs_room *m)
{
    return rs_junction_mesh(ring, rs_elements(ring_count, RS_POINT_FLOATS), g != NULL,
                            g ? g->origin_x : 0, g ? g->origin_y : 0, g ? g->sin : 0, g ? g->cos : 1,
                            g ? g->start : 0, g ? g->spacing : 0,
                            g ? g->rows : NULL, g ? rs_elements(g->rows_count, RS_ROW_WORDS) : 0,
                            g ? g->left : NULL, g ? g->left_count : 0, g ? g->right : NULL, g ? g->right_count : 0,
                            m->vertices, rs_elements(m->vertices_count, RS_POINT_FLOATS),
                            m->normals, rs_elements(m->normals_count, RS_POINT_FLOATS),
                            m->indices, m->indices_count);
}

static inline uint64_t rs_surface_mesh_of(
    const struct rs_lanes *l, const struct rs_room *m,
    uint32_t *normal_count, uint32_t *index_count, uint32_t *span_count)
{
    return rs_surface_mesh(l->points, rs_elements(l->points_count, RS_POINT_FLOATS),
                           l->tangents, rs_elements(l->tangents_count, RS_POINT_FLOATS),
                           l->widths, l->widths_count, l->banks, rs_elements(l->banks_count, RS_BANK_FLOATS),
                           l->lanes, rs_elements(l->lanes_count, RS_LANE_WORDS),
                           m->vertices, rs_elements(m->vertices_count, RS_POINT_FLOATS),
                           m->normals, rs_elements(m->normals_count, RS_POINT_FLOATS),
                           m->indices, m->indices_count, m->spans, rs_elements(m->spans_count, RS_SPAN_WORDS),
                           normal_count, index_count, span_count);
}

static inline uint64_t rs_join_of(
    const struct rs_mesh *a, const struct rs_mesh *b, const struct rs_room *m,
    uint32_t *normal_count, uint32_t *index_count, uint32_t *span_count)
{
    return rs_join(a->vertices, rs_elements(a->vertices_count, RS_POINT_FLOATS),
                   a->normals, rs_elements(a->normals_count, RS_POINT_FLOATS),
                   a->indices, a->indices_count, a->spans, rs_elements(a->spans_count, RS_SPAN_WORDS),
                   b->vertices, rs_elements(b->vertices_count, RS_POINT_FLOATS),
                   b->normals, rs_elements(b->normals_count, RS_POINT_FLOATS),
                   b->indices, b->indices_count, b->spans, rs_elements(b->spans_count, RS_SPAN_WORDS),
                   m->vertices, rs_elements(m->vertices_count, RS_POINT_FLOATS),
                   m->normals, rs_elements(m->normals_count, RS_POINT_FLOATS),
                   m->indices, m->indices_count, m->spans, rs_elements(m->spans_count, RS_SPAN_WORDS),
                   normal_count, index_count, span_count);
}

/* `record` has eight words. */
static inline uint64_t rs_height_at_of(const struct rs_mesh *m, float x, float y, uint32_t *record)
{
    return rs_height_at(m->vertices, rs_elements(m->vertices_count, RS_POINT_FLOATS),
                        m->normals, rs_elements(m->normals_count, RS_POINT_FLOATS),
                        m->indices, m->indices_count, m->spans, rs_elements(m->spans_count, RS_SPAN_WORDS),
                        x, y, record, RS_RECORD_WORDS);
}

/* Counts of an index are its words. */
static inline uint64_t rs_build_index_of(const struct rs_mesh *m, uint32_t *index, size_t index_count)
{
    return rs_build_index(m->vertices, rs_elements(m->vertices_count, RS_POINT_FLOATS),
                          m->normals, rs_elements(m->normals_count, RS_POINT_FLOATS),
                          m->indices, m->indices_count, m->spans, rs_elements(m->spans_count, RS_SPAN_WORDS),
                          index, index_count);
}

static inline uint64_t rs_top_of(
    const struct rs_mesh *m, const uint32_t *index, size_t index_count, float x, float y, uint32_t *record)
{
    return rs_top(m->vertices, rs_elements(m->vertices_count, RS_POINT_FLOATS),
                  m->normals, rs_elements(m->normals_count, RS_POINT_FLOATS),
                  m->indices, m->indices_count, m->spans, rs_elements(m->spans_count, RS_SPAN_WORDS),
                  index, index_count, x, y, record, RS_RECORD_WORDS);
}

/* Counts: points asked for, records that there is room for. */
static inline uint64_t rs_tops_of(
    const struct rs_mesh *m, const uint32_t *index, size_t index_count,
    const float *points, size_t points_count, uint32_t *records, size_t records_count)
{
    return rs_tops(m->vertices, rs_elements(m->vertices_count, RS_POINT_FLOATS),
                   m->normals, rs_elements(m->normals_count, RS_POINT_FLOATS),
                   m->indices, m->indices_count, m->spans, rs_elements(m->spans_count, RS_SPAN_WORDS),
                   index, index_count, points, rs_elements(points_count, RS_ASKED_FLOATS),
                   records, rs_elements(records_count, RS_RECORD_WORDS));
}

static inline uint64_t rs_validate_of(
    const struct rs_mesh *m, uint32_t *place, uint32_t *index, uint32_t *vertex_count)
{
    return rs_validate(m->vertices, rs_elements(m->vertices_count, RS_POINT_FLOATS),
                       m->normals, rs_elements(m->normals_count, RS_POINT_FLOATS),
                       m->indices, m->indices_count, m->spans, rs_elements(m->spans_count, RS_SPAN_WORDS),
                       place, index, vertex_count);
}

#ifdef __cplusplus
}
#endif

#endif
