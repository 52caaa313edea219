/* One lane of ten metres: its strip, the index of it, and the road under two wheels. */
#include <stdio.h>
#include "roadsurface.h"

/* What a record says of wheel k: a height, none, or why this wheel was turned back. */
static void wheel(unsigned k, const uint32_t *r)
{
    if (r[0] == RS_FOUND && r[6]) printf("%u: height %g, lane %u\n", k, RS_SINGLE(r[1]), (unsigned)r[7]);
    else if (r[0] == RS_FOUND) printf("%u: height %g, no lane\n", k, RS_SINGLE(r[1]));
    else if (r[0] == RS_REFUSED) printf("%u: refused %u at %u\n", k, (unsigned)r[1], (unsigned)r[2]);
    else printf("%u: none\n", k);
}

static int refused(uint64_t code)
{
    if (RS_NUMBER(code)) printf("refused %u at %u\n", (unsigned)RS_NUMBER(code), (unsigned)RS_PLACE(code));
    return RS_NUMBER(code) != 0;
}

int main(void)
{
    float points[] = {0, 0, 2, 10, 0, 2}, tangents[] = {1, 0, 0, 1, 0, 0}, widths[] = {4, 4};
    uint32_t lanes[] = {7, 0, 2, 0, 2, 0, 2, 0, 0, 0};
    float vertices[12], normals[12], wheels[] = {5, 1, 5, 9};
    uint32_t indices[6], spans[5], index[64], records[2 * RS_RECORD_WORDS], n, i, s;
    struct rs_lanes lane = {points, 2, tangents, 2, widths, 2, NULL, 0, lanes, 1};
    struct rs_room room = {vertices, 4, normals, 4, indices, 6, spans, 1};

    uint64_t made = rs_surface_mesh_of(&lane, &room, &n, &i, &s);
    if (refused(made)) return 1;
    struct rs_mesh mesh = {vertices, RS_COUNT(made), normals, n, indices, i, spans, s};
    uint64_t built = rs_build_index_of(&mesh, index, 64);
    if (refused(built)) return 1;
    uint64_t asked = rs_tops_of(&mesh, index, RS_COUNT(built), wheels, 2, records, 2);
    if (refused(asked)) return 1;
    for (unsigned k = 0; k < RS_COUNT(asked); k++) wheel(k, records + RS_RECORD_WORDS * k);

    /* an index that is spoilt where a wheel looks: that wheel is turned back, in its record */
    index[8] = 0;
    asked = rs_tops_of(&mesh, index, RS_COUNT(built), wheels, 1, records, 1);
    if (refused(asked)) return 1;
    wheel(0, records);
    return refused(rs_build_index_of(&mesh, index, 9)) ? 0 : 1;
}
