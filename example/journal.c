/* Keeps a journal of what is done to a tetrahedron, loses the end of it, and makes the mesh again from what is left. */
#include "rawplinth_mesh.h"

#include <stdio.h>
#include <stdlib.h>
#include <string.h>

enum { VERTEX_SLOTS = 16, TRIANGLE_SLOTS = 28, ENTRIES = RAWPLINTH_BLOCK_ENTRIES(VERTEX_SLOTS, TRIANGLE_SLOTS) };

/* Room for the mesh, for the one that is made again, and for the spare tables of both. */
static uint32_t block[ENTRIES], again_block[ENTRIES], spare_block[ENTRIES];
static uint32_t numbers[RAWPLINTH_NOTE_ENTRIES];

/* The bytes that a service would keep in a file. Each record is written behind the ones before it. */
static uint8_t journal[1024];
static size_t end;

#define APPEND(record, ...) keep(rawplinth_record_##record(journal + end, sizeof journal - end, __VA_ARGS__))

/* A record that has no room is not written, and must not be lost. */
static void keep(size_t length)
{
    if (length == 0)
        exit(1);
    end += length;
}

static const int32_t cage[] = {
    4, 4,
    9216, 9216, 9216,  -9216, -9216, 9216,  -9216, 9216, -9216,  9216, -9216, -9216,
    0, 2, 1,  0, 1, 3,  0, 3, 2,  1, 2, 3,
};

/* Replays the first bytes of the journal from a place on, and answers where it stopped. */
static size_t replay(rawplinth_mesh *mesh, rawplinth_spares *spares, size_t length, size_t at)
{
    rawplinth_replayed done = rawplinth_mesh_replay(
        mesh, spares, numbers, RAWPLINTH_NOTE_ENTRIES, journal, length, at);
    printf("%zu bytes from %zu on: %zu records, stopped at %zu with %u", length, at, done.records, done.end, done.stop);
    if (done.stop == RAWPLINTH_STOP_REFUSED)
        printf(", refused with %u", done.refusal);
    printf("; %u vertices, %u triangles\n", mesh->counts.vertices, mesh->counts.triangles);
    return done.end;
}

int main(void)
{
    uint8_t bytes[sizeof cage];
    for (size_t i = 0; i < sizeof bytes; i++)
        bytes[i] = (uint32_t)cage[i / 4] >> 8 * (i % 4) & 255;

    rawplinth_mesh mesh = rawplinth_mesh_in(block, ENTRIES, VERTEX_SLOTS, TRIANGLE_SLOTS);
    rawplinth_spares spares = rawplinth_spares_in(spare_block, ENTRIES, &mesh);

    /* Each change that is carried out is recorded; what is refused or only reads is not. */
    APPEND(header, VERTEX_SLOTS, TRIANGLE_SLOTS);
    if (rawplinth_mesh_load(&mesh, RAWPLINTH_HALF_UP, bytes, sizeof bytes).refusal == RAWPLINTH_OK)
        APPEND(load, RAWPLINTH_HALF_UP, bytes, sizeof bytes);
    const uint32_t clicks[] = {2, 99, 4};
    for (size_t i = 0; i < 3; i++)
        if (rawplinth_mesh_refine(&mesh, clicks[i]).refusal == RAWPLINTH_OK)
            APPEND(refine, clicks[i]);
    const uint32_t list[] = {1, 3};
    if (rawplinth_mesh_refine_list(&mesh, list, 2, &spares).refusal == RAWPLINTH_OK)
        APPEND(list, list, 2);
    printf("the mesh: %u vertices, %u triangles; ", mesh.counts.vertices, mesh.counts.triangles);
    printf("the journal: %zu bytes\n", end);

    /* The last write was cut off: the record that lost its end is not carried out. */
    rawplinth_mesh again = rawplinth_mesh_in(again_block, ENTRIES, VERTEX_SLOTS, TRIANGLE_SLOTS);
    size_t stopped = replay(&again, &spares, end - 3, 0);
    /* Its end comes after all: the replay goes on from where it stopped. */
    replay(&again, &spares, end, stopped);
    int same = memcmp(block, again_block, sizeof block) == 0
        && memcmp(&mesh.counts, &again.counts, sizeof mesh.counts) == 0;
    printf("%s\n", same ? "the mesh is as it was" : "the mesh differs");

    /* A byte that has changed is found, and what is behind it is not carried out. */
    journal[stopped - 6] ^= 1;
    again = rawplinth_mesh_in(again_block, ENTRIES, VERTEX_SLOTS, TRIANGLE_SLOTS);
    replay(&again, &spares, end, 0);
    return 0;
}
