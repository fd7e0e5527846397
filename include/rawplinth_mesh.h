/* Rawplinth for C: the calls of rawplinth.h on two structs, a mesh and spare tables.

   Each call that is lent a mesh has its function here: rawplinth_mesh_refine for rawplinth_refine, and so on. It takes
   the mesh in place of the five tables and the counts, and spare tables in place of the five spare ones; its other
   arguments, in their order, and its answer are the call's, and rawplinth.h tells what it does, refuses and writes. One
   that changes the mesh puts the counts of the answer into it: a caller has none to carry on, and no call puts those of
   a preview or of another mesh there. The calls record_.. are lent no mesh and are made as they are.

   Header only, for C99 and C++. It takes no heap, and keeps nothing but in the two structs. */
#ifndef RAWPLINTH_MESH_H
#define RAWPLINTH_MESH_H

#include "rawplinth.h"

/* A mesh: its tables, their slots, and its counts, which say how many slots are in use. A caller may read all of it
   between calls. There should be one struct for a mesh, passed on by its address: a copy would have the same tables,
   and counts that are not brought up to date. */
typedef struct {
    int32_t *positions;   /* 3 for each vertex slot */
    uint32_t *corners;    /* 3 for each triangle slot, as are the links */
    uint32_t *links;
    uint8_t *generations; /* 1 for each triangle slot, as are the locks */
    uint8_t *locks;
    uint32_t vertex_slots;
    uint32_t triangle_slots;
    rawplinth_counts counts;
} rawplinth_mesh;

/* Spare tables, with the mesh that the last list, preview or box has left in them; rawplinth_held reads it. */
typedef struct {
    rawplinth_mesh held;
} rawplinth_spares;

/* Entries of a block in which five tables with these slots have room. It is a constant where the slots are. */
#define RAWPLINTH_BLOCK_ENTRIES(vertex_slots, triangle_slots) \
    (3 * (size_t)(vertex_slots) + 6 * (size_t)(triangle_slots) + ((size_t)(triangle_slots) + 1) / 2)

/* A mesh with its tables in a block, which is an array or what malloc gave, and nothing in use: load a cage into it.
   block_length counts entries, not bytes. What the block holds does not matter; it must not be null, and must last as
   long as the mesh. In a block that is too short, or with more slots than allowed, the mesh has no slots: then load
   refuses with 2, and other calls with 7, where nothing before these refuses.
   To keep a mesh as it is, copy the block and the counts. To go on with it, in this block or another one, copy the
   block back, and set the counts of the mesh there. */
static inline rawplinth_mesh rawplinth_mesh_in(
    uint32_t *block, size_t block_length, uint32_t vertex_slots, uint32_t triangle_slots)
{
    rawplinth_mesh mesh;
    if (vertex_slots > RAWPLINTH_MAX_VERTEX_SLOTS || triangle_slots > RAWPLINTH_MAX_TRIANGLE_SLOTS
        || block_length < RAWPLINTH_BLOCK_ENTRIES(vertex_slots, triangle_slots)) {
        vertex_slots = 0;
        triangle_slots = 0;
    }
    mesh.positions = (int32_t *)block;
    mesh.corners = block + 3 * vertex_slots;
    mesh.links = mesh.corners + 3 * triangle_slots;
    mesh.generations = (uint8_t *)(mesh.links + 3 * triangle_slots);
    mesh.locks = mesh.generations + triangle_slots;
    mesh.vertex_slots = vertex_slots;
    mesh.triangle_slots = triangle_slots;
    mesh.counts.vertices = 0;
    mesh.counts.triangles = 0;
    mesh.counts.rule = 0;
    return mesh;
}

/* Spare tables for a mesh, with its slots, in a block that is not the mesh's. They serve every mesh with these slots,
   one call at a time. In a block that is too short, or the mesh's own, they have no slots, and calls refuse them with
   17. */
static inline rawplinth_spares rawplinth_spares_in(uint32_t *block, size_t block_length, const rawplinth_mesh *mesh)
{
    rawplinth_spares spares;
    if ((int32_t *)block == mesh->positions) {
        block_length = 0;
    }
    spares.held = rawplinth_mesh_in(block, block_length, mesh->vertex_slots, mesh->triangle_slots);
    return spares;
}

/* The mesh that spare tables hold, to be read until they are next lent: after a preview that is not refused the one
   that the list would make. Where 1, 17, 18 or 7 refused, and after a replay, there is none, and calls refuse it
   with 7. It must not be lent together with the spare tables that hold it. */
static inline const rawplinth_mesh *rawplinth_held(const rawplinth_spares *spares)
{
    return &spares->held;
}

/* Tables with their lengths, as the calls take them. */
#define RAWPLINTH_LENT(mesh) \
    (mesh).positions, 3 * (size_t)(mesh).vertex_slots, (mesh).corners, 3 * (size_t)(mesh).triangle_slots, \
        (mesh).links, 3 * (size_t)(mesh).triangle_slots, (mesh).generations, (mesh).triangle_slots, (mesh).locks, \
        (mesh).triangle_slots

static inline rawplinth_worked rawplinth_mesh_load(
    rawplinth_mesh *mesh, uint32_t rule, const uint8_t *cage, size_t cage_length)
{
    rawplinth_worked done = rawplinth_load(RAWPLINTH_LENT(*mesh), mesh->counts, rule, cage, cage_length);
    mesh->counts = done.counts;
    return done;
}

static inline rawplinth_worked rawplinth_mesh_refine(rawplinth_mesh *mesh, uint32_t triangle)
{
    rawplinth_worked done = rawplinth_refine(RAWPLINTH_LENT(*mesh), mesh->counts, triangle);
    mesh->counts = done.counts;
    return done;
}

static inline rawplinth_worked rawplinth_mesh_refine_noted(
    rawplinth_mesh *mesh, uint32_t triangle, uint32_t *note, size_t note_length)
{
    rawplinth_worked done = rawplinth_refine_noted(
        RAWPLINTH_LENT(*mesh), mesh->counts, triangle, note, note_length);
    mesh->counts = done.counts;
    return done;
}

static inline rawplinth_worked rawplinth_mesh_take_back(rawplinth_mesh *mesh, const uint32_t *note, size_t note_length)
{
    rawplinth_worked done = rawplinth_take_back(RAWPLINTH_LENT(*mesh), mesh->counts, note, note_length);
    mesh->counts = done.counts;
    return done;
}

static inline rawplinth_batch_worked rawplinth_mesh_refine_list(
    rawplinth_mesh *mesh, const uint32_t *list, size_t list_length, rawplinth_spares *spares)
{
    rawplinth_batch_worked done = rawplinth_refine_list(
        RAWPLINTH_LENT(*mesh), mesh->counts, list, list_length, RAWPLINTH_LENT(spares->held));
    mesh->counts = done.counts;
    spares->held.counts = done.spares;
    return done;
}

static inline rawplinth_batch_foreseen rawplinth_mesh_preview(
    const rawplinth_mesh *mesh, const uint32_t *list, size_t list_length, rawplinth_spares *spares)
{
    rawplinth_batch_foreseen look = rawplinth_preview(
        RAWPLINTH_LENT(*mesh), mesh->counts, list, list_length, RAWPLINTH_LENT(spares->held));
    spares->held.counts = look.spares;
    return look;
}

static inline rawplinth_batch_worked rawplinth_mesh_refine_box(
    rawplinth_mesh *mesh, rawplinth_point low, rawplinth_point high, uint32_t below, rawplinth_spares *spares)
{
    rawplinth_batch_worked done = rawplinth_refine_box(
        RAWPLINTH_LENT(*mesh), mesh->counts, low, high, below, RAWPLINTH_LENT(spares->held));
    mesh->counts = done.counts;
    spares->held.counts = done.spares;
    return done;
}

static inline rawplinth_reported rawplinth_mesh_refine_reported(
    rawplinth_mesh *mesh, uint32_t triangle, uint32_t *report, size_t report_length)
{
    rawplinth_reported done = rawplinth_refine_reported(
        RAWPLINTH_LENT(*mesh), mesh->counts, triangle, report, report_length);
    mesh->counts = done.worked.counts;
    return done;
}

static inline rawplinth_reported rawplinth_mesh_refine_noted_reported(
    rawplinth_mesh *mesh, uint32_t triangle,
    uint32_t *note, size_t note_length, uint32_t *report, size_t report_length)
{
    rawplinth_reported done = rawplinth_refine_noted_reported(
        RAWPLINTH_LENT(*mesh), mesh->counts, triangle, note, note_length, report, report_length);
    mesh->counts = done.worked.counts;
    return done;
}

static inline rawplinth_batch_reported rawplinth_mesh_refine_list_reported(
    rawplinth_mesh *mesh, const uint32_t *list, size_t list_length,
    uint32_t *report, size_t report_length, rawplinth_spares *spares)
{
    rawplinth_batch_reported done = rawplinth_refine_list_reported(
        RAWPLINTH_LENT(*mesh), mesh->counts, list, list_length, report, report_length, RAWPLINTH_LENT(spares->held));
    mesh->counts = done.worked.counts;
    spares->held.counts = done.worked.spares;
    return done;
}

static inline rawplinth_foreseen_reported rawplinth_mesh_preview_reported(
    const rawplinth_mesh *mesh, const uint32_t *list, size_t list_length,
    uint32_t *report, size_t report_length, rawplinth_spares *spares)
{
    rawplinth_foreseen_reported look = rawplinth_preview_reported(
        RAWPLINTH_LENT(*mesh), mesh->counts, list, list_length, report, report_length, RAWPLINTH_LENT(spares->held));
    spares->held.counts = look.foreseen.spares;
    return look;
}

static inline rawplinth_batch_reported rawplinth_mesh_refine_box_reported(
    rawplinth_mesh *mesh, rawplinth_point low, rawplinth_point high, uint32_t below,
    uint32_t *report, size_t report_length, rawplinth_spares *spares)
{
    rawplinth_batch_reported done = rawplinth_refine_box_reported(
        RAWPLINTH_LENT(*mesh), mesh->counts, low, high, below, report, report_length, RAWPLINTH_LENT(spares->held));
    mesh->counts = done.worked.counts;
    spares->held.counts = done.worked.spares;
    return done;
}

static inline rawplinth_worked rawplinth_mesh_whole_step(rawplinth_mesh *mesh)
{
    rawplinth_worked done = rawplinth_whole_step(RAWPLINTH_LENT(*mesh), mesh->counts);
    mesh->counts = done.counts;
    return done;
}

static inline rawplinth_worked rawplinth_mesh_lock(rawplinth_mesh *mesh, uint32_t triangle)
{
    rawplinth_worked done = rawplinth_lock(RAWPLINTH_LENT(*mesh), mesh->counts, triangle);
    mesh->counts = done.counts;
    return done;
}

static inline rawplinth_worked rawplinth_mesh_unlock(rawplinth_mesh *mesh, uint32_t triangle)
{
    rawplinth_worked done = rawplinth_unlock(RAWPLINTH_LENT(*mesh), mesh->counts, triangle);
    mesh->counts = done.counts;
    return done;
}

static inline rawplinth_ring_read rawplinth_mesh_ring(
    const rawplinth_mesh *mesh, uint32_t vertex, uint32_t *buffer, size_t buffer_length)
{
    return rawplinth_ring(RAWPLINTH_LENT(*mesh), mesh->counts, vertex, buffer, buffer_length);
}

static inline rawplinth_position_read rawplinth_mesh_position(const rawplinth_mesh *mesh, uint32_t vertex)
{
    return rawplinth_position(RAWPLINTH_LENT(*mesh), mesh->counts, vertex);
}

static inline rawplinth_limit_read rawplinth_mesh_limit(const rawplinth_mesh *mesh, int32_t *table, size_t table_length)
{
    return rawplinth_limit(RAWPLINTH_LENT(*mesh), mesh->counts, table, table_length);
}

static inline rawplinth_rim_read rawplinth_mesh_rim_curve(
    const rawplinth_mesh *mesh, uint32_t vertex, int32_t *table, size_t table_length)
{
    return rawplinth_rim_curve(RAWPLINTH_LENT(*mesh), mesh->counts, vertex, table, table_length);
}

static inline rawplinth_point_seen rawplinth_mesh_view_point(const rawplinth_mesh *mesh, uint32_t vertex)
{
    return rawplinth_view_point(RAWPLINTH_LENT(*mesh), mesh->counts, vertex);
}

static inline rawplinth_shown rawplinth_mesh_view_triangles(
    const rawplinth_mesh *mesh, float *table, size_t table_length)
{
    return rawplinth_view_triangles(RAWPLINTH_LENT(*mesh), mesh->counts, table, table_length);
}

static inline rawplinth_replayed rawplinth_mesh_replay(
    rawplinth_mesh *mesh, rawplinth_spares *spares, uint32_t *numbers, size_t numbers_length,
    const uint8_t *journal, size_t journal_length, size_t at)
{
    const rawplinth_counts none = {0, 0, 0};
    rawplinth_replayed done = rawplinth_replay(
        RAWPLINTH_LENT(*mesh), mesh->counts, RAWPLINTH_LENT(spares->held), numbers, numbers_length,
        journal, journal_length, at);
    mesh->counts = done.counts;
    spares->held.counts = none;
    return done;
}

#undef RAWPLINTH_LENT

#endif
