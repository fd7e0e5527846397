/* Loads an octahedron, reads where ever more whole steps without rounding would take its vertices, and shows how the
   two rules round halves. */
#include "rawplinth_mesh.h"

#include <stdio.h>

enum { VERTICES = 6, TRIANGLES = 8, ENTRIES = RAWPLINTH_BLOCK_ENTRIES(VERTICES, TRIANGLES) };

static uint32_t block[ENTRIES];

/* The sizes, the coordinates and the corners: 9 mm from the centre to each vertex. */
static int32_t cage[] = {
    VERTICES, TRIANGLES,
    9216, 0, 0,  0, 9216, 0,  -9216, 0, 0,  0, -9216, 0,  0, 0, 9216,  0, 0, -9216,
    0, 1, 4,  1, 2, 4,  2, 3, 4,  3, 0, 4,  1, 0, 5,  2, 1, 5,  3, 2, 5,  0, 3, 5,
};

/* Loads the cage by a rule. */
static rawplinth_worked load(rawplinth_mesh *mesh, uint32_t rule)
{
    uint8_t bytes[sizeof cage];
    for (size_t i = 0; i < sizeof bytes; i++)
        bytes[i] = (uint32_t)cage[i / 4] >> 8 * (i % 4) & 255;
    return rawplinth_mesh_load(mesh, rule, bytes, sizeof bytes);
}

int main(void)
{
    rawplinth_mesh mesh = rawplinth_mesh_in(block, ENTRIES, VERTICES, TRIANGLES);
    if (load(&mesh, RAWPLINTH_HALF_UP).refusal != RAWPLINTH_OK)
        return 1;

    /* One entry for each coordinate of the vertices in use. */
    int32_t limits[3 * VERTICES];
    rawplinth_limit_read read = rawplinth_mesh_limit(&mesh, limits, 3 * VERTICES);
    if (read.refusal != RAWPLINTH_OK)
        return 1;
    for (int v = 0; v < VERTICES; v++) {
        const int32_t *from = mesh.positions + 3 * v, *to = limits + 3 * v;
        printf("vertex %d: cage %5d %5d %5d, limit %5d %5d %5d\n", v, from[0], from[1], from[2], to[0], to[1], to[2]);
    }

    read = rawplinth_mesh_limit(&mesh, limits, 3 * VERTICES - 1);
    printf("a table of %d entries: refused with %u\n", 3 * VERTICES - 1, read.refusal);

    /* With vertex 2 at 305834 and -305834 and all others at 0, vertex 1 has its limit at 43690.5 and -43690.5: rule 2
       keeps the two opposite. */
    for (int i = 0; i < 3 * VERTICES; i++)
        cage[2 + i] = i == 6 ? 305834 : i == 7 ? -305834 : 0;
    for (uint32_t rule = RAWPLINTH_HALF_UP; rule <= RAWPLINTH_HALF_AWAY; rule++) {
        load(&mesh, rule);
        rawplinth_mesh_limit(&mesh, limits, 3 * VERTICES);
        printf("halves by rule %u: %d and %d\n", mesh.counts.rule, limits[3], limits[4]);
    }
    return 0;
}
