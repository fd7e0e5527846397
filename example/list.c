/* Loads an octahedron, and previews lists of its triangles: one is then carried out, three would fail, one of them at a
   locked triangle. Then refines what is inside of a box. */
#include "rawplinth_mesh.h"

#include <stdio.h>

enum { VERTEX_SLOTS = 12, TRIANGLE_SLOTS = 20, ENTRIES = RAWPLINTH_BLOCK_ENTRIES(VERTEX_SLOTS, TRIANGLE_SLOTS) };

/* Room for the mesh, and as much to work in. */
static uint32_t block[ENTRIES], spare_block[ENTRIES];

/* The sizes, the coordinates and the corners. */
static const int32_t cage[] = {
    6, 8,
    9216, 0, 0,  0, 9216, 0,  -9216, 0, 0,  0, -9216, 0,  0, 0, 9216,  0, 0, -9216,
    0, 1, 4,  1, 2, 4,  2, 3, 4,  3, 0, 4,  1, 0, 5,  2, 1, 5,  3, 2, 5,  0, 3, 5,
};

/* Looks what would come of a list, and refines its triangles if it is not refused. */
static void refine_each(rawplinth_mesh *mesh, rawplinth_spares *spares, const uint32_t *list, size_t length)
{
    rawplinth_batch_foreseen look = rawplinth_mesh_preview(mesh, list, length, spares);
    printf("foreseen: %u vertices, %u triangles; ", look.foreseen_vertices, look.foreseen_triangles);
    rawplinth_counts held = rawplinth_held(spares)->counts;
    printf("the spares: %u vertices, %u triangles\n", held.vertices, held.triangles);
    switch (look.refusal) {
    case RAWPLINTH_OK:
        break;
    case RAWPLINTH_NOT_IN_USE:
    case RAWPLINTH_GENERATION:
    case RAWPLINTH_LOCKED:
    case RAWPLINTH_NO_SLOTS:
        printf("entry %zu, triangle %u: refused with %u\n", look.handled, list[look.handled], look.refusal);
        return;
    default: /* by no entry */
        printf("refused with %u\n", look.refusal);
        return;
    }
    rawplinth_batch_worked done = rawplinth_mesh_refine_list(mesh, list, length, spares);
    printf("%zu entries: %u splits, %u flips; ", done.handled, done.splits, done.flips);
    printf("the mesh: %u vertices, %u triangles\n", mesh->counts.vertices, mesh->counts.triangles);
}

/* Refines the triangles of a panel, which is marked by two corners, until none of them is below a generation. */
static void refine_panel(
    rawplinth_mesh *mesh, rawplinth_spares *spares, rawplinth_point low, rawplinth_point high, uint32_t below)
{
    rawplinth_batch_worked done = rawplinth_mesh_refine_box(mesh, low, high, below, spares);
    printf("panel to generation %u: ", below);
    if (done.refusal != RAWPLINTH_OK)
        printf("refused with %u after %zu refines; ", done.refusal, done.handled);
    else
        printf("%zu refines, %u splits, %u flips; ", done.handled, done.splits, done.flips);
    printf("the mesh: %u vertices, %u triangles\n", mesh->counts.vertices, mesh->counts.triangles);
}

int main(void)
{
    uint8_t bytes[sizeof cage];
    for (size_t i = 0; i < sizeof bytes; i++)
        bytes[i] = (uint32_t)cage[i / 4] >> 8 * (i % 4) & 255;
    rawplinth_mesh mesh = rawplinth_mesh_in(block, ENTRIES, VERTEX_SLOTS, TRIANGLE_SLOTS);
    rawplinth_spares spares = rawplinth_spares_in(spare_block, ENTRIES, &mesh);
    if (rawplinth_mesh_load(&mesh, RAWPLINTH_HALF_UP, bytes, sizeof bytes).refusal != RAWPLINTH_OK)
        return 1;

    /* Three neighbours. The first is listed twice, which does no harm. */
    refine_each(&mesh, &spares, (const uint32_t[]){0, 1, 2, 0}, 4);
    /* There are slots for three splits, but not for a fourth: the mesh stands. */
    refine_each(&mesh, &spares, (const uint32_t[]){3, 4, 5, 6}, 4);
    /* Triangle 14 comes into use by the first entry, but was not when the call began. */
    refine_each(&mesh, &spares, (const uint32_t[]){3, 14}, 2);
    /* Triangle 5 bears the maker's mark and is locked. What is beside it may be refined. */
    if (rawplinth_mesh_lock(&mesh, 5).refusal != RAWPLINTH_OK)
        return 1;
    refine_each(&mesh, &spares, (const uint32_t[]){4, 6, 5}, 3);

    /* A lettered panel. It holds vertex 3, which lies on a face of its box. */
    rawplinth_point low = {-1024, -9216, -1024}, high = {1024, -6144, 1024};
    /* There are no slots for generation 3: what was made on the way is undone. */
    refine_panel(&mesh, &spares, low, high, 3);
    refine_panel(&mesh, &spares, low, high, 2);
    /* With its corners exchanged it is no box. */
    refine_panel(&mesh, &spares, high, low, 2);
    return 0;
}
