/* A lane of ten metres and the junction that it leads to: each is meshed, both are joined as one surface, and an index
 * over it is asked for the road under five wheels. */
#include <stdio.h>
#include <stdlib.h>
#include "roadsurface.h"

/* The count of a call, which ends the program where it was turned back. */
static uint32_t done(uint64_t code)
{
    if (!RS_NUMBER(code)) return RS_COUNT(code);
    printf("refused %u at %u\n", (unsigned)RS_NUMBER(code), (unsigned)RS_PLACE(code));
    exit(1);
}

int main(void)
{
    /* the lane is two metres high, and four wide */
    float points[] = {0, 0, 2, 10, 0, 2}, tangents[] = {1, 0, 0, 1, 0, 0}, widths[] = {4, 4};
    uint32_t lanes[] = {7, 0, 2, 0, 2, 0, 2, 0, 0, 0};
    struct rs_lanes lane = {points, 2, tangents, 2, widths, 2, NULL, 0, lanes, 1};
    float road_vertices[12], road_normals[12];
    uint32_t road_indices[6], road_spans[5], n, i, s;
    struct rs_room road_room = {road_vertices, 4, road_normals, 4, road_indices, 6, road_spans, 1};
    uint32_t v = done(rs_surface_mesh_of(&lane, &road_room, &n, &i, &s));
    struct rs_mesh road = {road_vertices, v, road_normals, n, road_indices, i, road_spans, s};

    /* the junction begins where the lane ends, and rises by a metre; its mesh has three vertices a triangle */
    float ring[] = {10, -2, 2, 14, -2, 3, 14, 2, 3, 10, 2, 2}, crossing_vertices[18], crossing_normals[18];
    uint32_t crossing_indices[6];
    struct rs_room crossing_room = {crossing_vertices, 6, crossing_normals, 6, crossing_indices, 6, NULL, 0};
    v = done(rs_junction_mesh_of(ring, 4, NULL, &crossing_room));
    struct rs_mesh crossing = {crossing_vertices, v, crossing_normals, v, crossing_indices, v, NULL, 0};

    float vertices[30], normals[30], wheels[] = {5, 1, 10, 0, 12, 0, 13, 1, 15, 0};
    uint32_t indices[12], spans[5], index[64], records[5 * RS_RECORD_WORDS];
    struct rs_room room = {vertices, 10, normals, 10, indices, 12, spans, 1};
    v = done(rs_join_of(&road, &crossing, &room, &n, &i, &s));
    struct rs_mesh both = {vertices, v, normals, n, indices, i, spans, s};
    uint32_t words = done(rs_build_index_of(&both, index, 64));
    uint32_t asked = done(rs_tops_of(&both, index, words, wheels, 5, records, 5));
    for (const uint32_t *r = records; r < records + RS_RECORD_WORDS * asked; r += RS_RECORD_WORDS) {
        if (r[0] == RS_FOUND && r[6]) printf("height %g, lane %u\n", RS_SINGLE(r[1]), (unsigned)r[7]);
        else if (r[0] == RS_FOUND) printf("height %g, no lane\n", RS_SINGLE(r[1]));
        else if (r[0] == RS_REFUSED) printf("refused %u at %u\n", (unsigned)r[1], (unsigned)r[2]);
        else printf("none\n");
    }
    return 0;
}
