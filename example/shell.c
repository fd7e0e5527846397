/* Loads a half shell and reads its rim as a curve that a saw can follow, as it is loaded and with a side of the rim
   split in three. */
#include "rawplinth_mesh.h"

#include <stdio.h>

enum { VERTEX_SLOTS = 8, TRIANGLE_SLOTS = 8, ENTRIES = RAWPLINTH_BLOCK_ENTRIES(VERTEX_SLOTS, TRIANGLE_SLOTS) };

static uint32_t block[ENTRIES];

/* The sizes, the coordinates and the corners: the upper half of an octahedron, 27 mm from the centre to each vertex. */
static const int32_t cage[] = {
    5, 4,
    27648, 0, 0,  0, 27648, 0,  -27648, 0, 0,  0, -27648, 0,  0, 0, 27648,
    0, 1, 4,  1, 2, 4,  2, 3, 4,  3, 0, 4,
};

/* Reads the rim of a vertex and prints its curve in millimetres, three points to a vertex. */
static rawplinth_rim_read follow(const rawplinth_mesh *mesh, uint32_t vertex)
{
    int32_t curve[9 * VERTEX_SLOTS]; /* does for every rim */
    rawplinth_rim_read read = rawplinth_mesh_rim_curve(mesh, vertex, curve, 9 * VERTEX_SLOTS);
    if (read.refusal != RAWPLINTH_OK) {
        printf("the rim of vertex %u: refused with %u\n", vertex, read.refusal);
        return read;
    }
    printf("the rim of vertex %u has %u vertices\n", vertex, read.length);
    for (uint32_t i = 0; i < 3 * read.length; i++) {
        const int32_t *point = curve + 3 * i;
        printf("%5.1f %5.1f %3.1f%s", point[0] / 1024.0, point[1] / 1024.0, point[2] / 1024.0, i % 3 < 2 ? ", " : "\n");
    }
    return read;
}

int main(void)
{
    uint8_t bytes[sizeof cage];
    for (size_t i = 0; i < sizeof bytes; i++)
        bytes[i] = (uint32_t)cage[i / 4] >> 8 * (i % 4) & 255;
    rawplinth_mesh mesh = rawplinth_mesh_in(block, ENTRIES, VERTEX_SLOTS, TRIANGLE_SLOTS);
    if (rawplinth_mesh_load(&mesh, RAWPLINTH_HALF_UP, bytes, sizeof bytes).refusal != RAWPLINTH_OK)
        return 1;

    follow(&mesh, 0);
    /* The apex is not on the rim. */
    follow(&mesh, 4);
    /* A face split leaves the rim, and a rim split cuts its side from 0 to 1 at two new vertices. */
    for (int turn = 0; turn < 2; turn++)
        if (rawplinth_mesh_refine(&mesh, 0).refusal != RAWPLINTH_OK)
            return 1;
    uint32_t vertices = follow(&mesh, 0).length;
    int32_t curve[9 * VERTEX_SLOTS];
    rawplinth_rim_read read = rawplinth_mesh_rim_curve(&mesh, 0, curve, 9 * vertices - 1);
    printf("a table of %u entries: refused with %u\n", 9 * vertices - 1, read.refusal);
    return 0;
}
