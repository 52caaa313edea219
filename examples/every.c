/* Every call of the library once. Each line says what came of it; examples/every.rs prints the same. */
#include <stdio.h>
#include "roadsurface.h"

static uint32_t count(const char *what, uint64_t code)
{
    if (RS_NUMBER(code)) printf("%s: refused %u at %u\n", what, (unsigned)RS_NUMBER(code), (unsigned)RS_PLACE(code));
    else printf("%s: %u\n", what, (unsigned)RS_COUNT(code));
    return RS_NUMBER(code) ? 0 : RS_COUNT(code);
}

int main(void)
{
    /* a square of four metres as two boundary segments, and a grid of two rows over it */
    float border[] = {0, 0, 0, 4, 0, 0, 4, 4, 0, 4, 4, 0, 0, 4, 0, 0, 0, 0};
    uint32_t segments[] = {0, 3, 3, 6};
    double left[] = {10, 10};
    uint32_t rows[] = {0, 0, 0, 1, 0, 0, 0, 0, 1, 2, 0, 0};
    struct rs_grid grid = {0, 0, 0, 1, 0, 10, rows, 2, left, 2, NULL, 0};
    double height = -1;
    uint64_t code = rs_elevation_height_of(&grid, 5, 5, &height);
    count("rs_elevation_height", code);
    printf("height %g\n", height);
    code = rs_elevation_height_at_of(&grid, 5, -5, &height);
    count("rs_elevation_height_at", code);
    printf("height left as it was %g\n", height);

    float ring[18], gap = -1;
    uint32_t dropped = 9, closed = 9, turned = 9;
    uint32_t many = count("rs_ring", rs_ring_of(segments, 2, border, 6, ring, 6, &dropped, &gap, &closed, &turned));
    printf("dropped %u, gap %g, closed %u, turned %u\n", (unsigned)dropped, gap, (unsigned)closed, (unsigned)turned);
    uint32_t ears[12];
    count("rs_ear_clip", rs_ear_clip_of(ring, many, ears, 4));

    static float vertices[3 * 600], normals[3 * 600];
    static uint32_t indices[600], spans[5];
    struct rs_room room = {vertices, 600, normals, 600, indices, 600, spans, 1};
    count("rs_junction_mesh", rs_junction_mesh_of(ring, many, &grid, &room));

    float points[] = {0, 0, 2, 10, 0, 2}, tangents[] = {1, 0, 0, 1, 0, 0};
    uint32_t lanes[] = {7, 0, 2, 0, 2, 0, 0, 0, 0, 0x40800000}, n = 0, i = 0, s = 0;
    struct rs_lanes lane = {points, 2, tangents, 2, NULL, 0, NULL, 0, lanes, 1};
    uint32_t v = count("rs_surface_mesh", rs_surface_mesh_of(&lane, &room, &n, &i, &s));
    printf("normals %u, indices %u, spans %u\n", (unsigned)n, (unsigned)i, (unsigned)s);
    struct rs_mesh mesh = {vertices, v, normals, n, indices, i, spans, s};

    /* the lane twice as one mesh, which is asked for a height; with a normal too few the call is turned back first */
    float both_vertices[24], both_normals[24];
    uint32_t both_indices[12] = {99}, both_spans[10];
    struct rs_room both = {both_vertices, 8, both_normals, 8, both_indices, 12, both_spans, 2};
    struct rs_mesh odd = mesh;
    odd.normals_count = 3;
    n = i = s = 99;
    count("rs_join", rs_join_of(&mesh, &odd, &both, &n, &i, &s));
    printf("left as they were %u %u %u, index 0 is %u\n", (unsigned)n, (unsigned)i, (unsigned)s, (unsigned)both_indices[0]);
    count("rs_join", rs_join_of(&mesh, &mesh, &both, &n, &i, &s));
    printf("normals %u, indices %u, spans %u\n", (unsigned)n, (unsigned)i, (unsigned)s);
    printf("index 7 is %u, the second span's first vertex %u\n", (unsigned)both_indices[7], (unsigned)both_spans[6]);
    struct rs_mesh whole = {both_vertices, 8, both_normals, 8, both_indices, 12, both_spans, 2};
    uint32_t record[RS_RECORD_WORDS];
    count("rs_height_at", rs_height_at_of(&whole, 5, 1, record));
    printf("height %g, triangle %u\n", RS_SINGLE(record[1]), (unsigned)record[5]);

    uint32_t place = 99, index_past = 99, of = 99;
    count("rs_validate", rs_validate_of(&mesh, &place, &index_past, &of));
    printf("left as they were %u %u %u\n", (unsigned)place, (unsigned)index_past, (unsigned)of);
    indices[4] = 8;
    count("rs_validate", rs_validate_of(&mesh, &place, &index_past, &of));
    printf("triangle %u, index %u of %u vertices\n", (unsigned)place, (unsigned)index_past, (unsigned)of);
    uint8_t sentence[RS_SENTENCE_BYTES];
    uint32_t read[3] = {0, 0, 0};
    many = count("rs_verdict_write", rs_verdict_write(RS_OUT_OF_RANGE, place, index_past, of, sentence, RS_SENTENCE_BYTES));
    printf("%.*s\n", (int)many, (const char *)sentence);
    count("rs_verdict_read", rs_verdict_read(sentence, many, &read[0], &read[1], &read[2]));
    printf("triangle %u, index %u of %u vertices\n", (unsigned)read[0], (unsigned)read[1], (unsigned)read[2]);
    count("rs_verdict_read", rs_verdict_read(sentence, many - 1, &read[0], &read[1], &read[2]));
    indices[4] = 3;

    uint32_t index[64], records[2 * RS_RECORD_WORDS];
    count("rs_height_at", rs_height_at_of(&mesh, 5, 1, record));
    printf("height %g, lane told %u\n", RS_SINGLE(record[1]), (unsigned)record[6]);
    uint32_t words = count("rs_build_index", rs_build_index_of(&mesh, index, 64));
    count("rs_top", rs_top_of(&mesh, index, words, 5, 1, record));
    printf("height %g, lane %u\n", RS_SINGLE(record[1]), (unsigned)record[7]);
    count("rs_top", rs_top_of(&mesh, index, 8, 5, 1, record));
    float wheels[] = {5, 1, 5, 9};
    count("rs_tops", rs_tops_of(&mesh, index, words, wheels, 2, records, 2));
    printf("found %u and %u\n", (unsigned)records[0], (unsigned)records[8]);

    /* a triangle of lane 0, held and in a file; then one of the lane that no file has */
    uint32_t held[8] = {2, 0, 1, 2, 0, 0, 0, 1}, back[8];
    uint8_t bytes[32], text[64];
    count("rs_surface_write", rs_surface_write(held, 8, bytes, 32));
    printf("word 4 %u, word 7 %u\n", (unsigned)bytes[16], (unsigned)bytes[28]);
    count("rs_surface_read", rs_surface_read(bytes, 32, back, 8));
    printf("word 4 %u, word 7 %u\n", (unsigned)back[4], (unsigned)back[7]);
    held[4] = UINT32_MAX;
    count("rs_surface_write", rs_surface_write(held, 8, bytes, 32));
    uint32_t letters = count("rs_report", rs_report(bytes, 32, text, 64));
    printf("%.*s", (int)letters, (const char *)text);
    return 0;
}
