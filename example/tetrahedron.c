/* Loads a tetrahedron, refines a triangle, reads a ring, a position and all triangles in millimetres, locks a
   triangle, takes a refine back, and redraws what refines report. */
#include "rawplinth_mesh.h"

#include <stdio.h>
#include <string.h>

enum { VERTEX_SLOTS = 64, TRIANGLE_SLOTS = 128, ENTRIES = RAWPLINTH_BLOCK_ENTRIES(VERTEX_SLOTS, TRIANGLE_SLOTS) };

static uint32_t block[ENTRIES];

/* The sizes, the coordinates and the corners. */
static const int32_t cage[] = {
    4, 4,
    0, 0, 0,  9216, 0, 0,  0, 9216, 0,  0, 0, 9216,
    0, 1, 2,  0, 3, 1,  1, 3, 2,  2, 3, 0,
};

/* Draws a triangle in what a viewer shows: nine numbers, in millimetres. */
static void draw(const rawplinth_mesh *mesh, float *view, uint32_t triangle)
{
    for (uint32_t i = 0; i < 9; i++)
        view[9 * triangle + i] = mesh->positions[3 * mesh->corners[3 * triangle + i / 3] + i % 3] / 1024.0f;
}

int main(void)
{
    uint8_t bytes[sizeof cage];
    for (size_t i = 0; i < sizeof bytes; i++)
        bytes[i] = (uint32_t)cage[i / 4] >> 8 * (i % 4) & 255;

    rawplinth_mesh mesh = rawplinth_mesh_in(block, ENTRIES, VERTEX_SLOTS, TRIANGLE_SLOTS);
    rawplinth_worked done = rawplinth_mesh_load(&mesh, RAWPLINTH_HALF_UP, bytes, sizeof bytes);
    if (done.refusal != RAWPLINTH_OK)
        return 1;

    done = rawplinth_mesh_refine(&mesh, 0);
    if (done.refusal != RAWPLINTH_OK)
        return 1;
    printf("%u split, %u flips: ", done.splits, done.flips);
    printf("%u vertices, %u triangles\n", mesh.counts.vertices, mesh.counts.triangles);

    uint32_t ring[16];
    rawplinth_ring_read read = rawplinth_mesh_ring(&mesh, 4, ring, 16);
    if (read.refusal != RAWPLINTH_OK)
        return 1;
    printf("ring of vertex 4:");
    for (uint32_t i = 0; i < read.length; i++)
        printf(" %u", ring[i]);

    rawplinth_position_read at = rawplinth_mesh_position(&mesh, 4);
    printf("\nits position: %d %d %d, ", at.x, at.y, at.z);
    rawplinth_point_seen seen = rawplinth_mesh_view_point(&mesh, 4);
    printf("in millimetres: %g %g %g\n", seen.x, seen.y, seen.z);

    /* All triangles for a viewer: nine numbers each. */
    float view[9 * TRIANGLE_SLOTS];
    rawplinth_shown shown = rawplinth_mesh_view_triangles(&mesh, view, 9 * TRIANGLE_SLOTS);
    if (shown.refusal != RAWPLINTH_OK)
        return 1;
    printf("triangle 0 in millimetres:");
    for (int i = 0; i < 9; i++)
        printf(" %g", view[i]);
    printf("\n");

    done = rawplinth_mesh_refine(&mesh, 99);
    printf("triangle 99: refused with %u\n", done.refusal);

    /* Triangle 1 is to stay as it is, until it is unlocked. Refining triangle 0 again would split it. */
    done = rawplinth_mesh_lock(&mesh, 1);
    if (done.refusal != RAWPLINTH_OK)
        return 1;
    done = rawplinth_mesh_refine(&mesh, 0);
    printf("beside a locked triangle: refused with %u\n", done.refusal);
    rawplinth_mesh_unlock(&mesh, 1);
    done = rawplinth_mesh_refine(&mesh, 0);
    printf("with it unlocked: %u split, %u flip\n", done.splits, done.flips);

    /* A refine with a note, taken back by it. */
    uint32_t note[RAWPLINTH_NOTE_ENTRIES];
    done = rawplinth_mesh_refine_noted(&mesh, 0, note, RAWPLINTH_NOTE_ENTRIES);
    if (done.refusal != RAWPLINTH_OK)
        return 1;
    printf("a note of %u slots: %u vertices, %u triangles\n", note[3], mesh.counts.vertices, mesh.counts.triangles);
    done = rawplinth_mesh_take_back(&mesh, note, RAWPLINTH_NOTE_ENTRIES);
    printf("taken back: %u vertices, %u triangles\n", mesh.counts.vertices, mesh.counts.triangles);
    done = rawplinth_mesh_take_back(&mesh, note, RAWPLINTH_NOTE_ENTRIES);
    printf("taken back again: refused with %u\n", done.refusal);

    /* A viewer is shown everything once. Then two refines are drawn by their reports alone. */
    rawplinth_mesh_view_triangles(&mesh, view, 9 * TRIANGLE_SLOTS);
    uint32_t report[RAWPLINTH_REPORT_ENTRIES];
    rawplinth_reported told;
    for (int turn = 0; turn < 2; turn++) {
        told = rawplinth_mesh_refine_reported(&mesh, 0, report, RAWPLINTH_REPORT_ENTRIES);
        if (told.worked.refusal != RAWPLINTH_OK)
            return 1;
        printf("reported and redrawn:");
        for (uint32_t i = 0; i < told.reported; i++) {
            draw(&mesh, view, report[i]);
            printf(" %u", report[i]);
        }
        printf("\n");
    }
    float afresh[9 * TRIANGLE_SLOTS];
    rawplinth_mesh_view_triangles(&mesh, afresh, 9 * TRIANGLE_SLOTS);
    int same = memcmp(view, afresh, 9 * mesh.counts.triangles * sizeof *view) == 0;
    printf("the view of %u triangles is %s\n", mesh.counts.triangles, same ? "right" : "wrong");
    told = rawplinth_mesh_refine_reported(&mesh, 0, report, 2);
    printf("a report of 2 entries: refused with %u\n", told.worked.refusal);
    return 0;
}
