/* Rawplinth: root-three refinement of triangle meshes on tables that the caller lends.

   Link with librawplinth.a (make lib). The library keeps nothing between calls, takes no memory but stack, and makes no
   system call. How much stack is told at each call: load, replay and take_back need up to 3 MB, which a thread may have
   to be given.

   These are the calls as they are linked, with a pointer and a length for each table. In C use those of
   rawplinth_mesh.h, which take a struct with the tables and the counts in their place. */
#ifndef RAWPLINTH_H
#define RAWPLINTH_H

#include <stddef.h>
#include <stdint.h>

#ifdef __cplusplus
extern "C" {
#endif

/* Raised by every new call and every change of a signature, a struct or an answer; docs/changes/README.md has a line
   for each. */
#define RAWPLINTH_VERSION 14

/* What a side without a partner links to. */
#define RAWPLINTH_BOUNDARY UINT32_C(4294967295)

/* The most slots that tables may have. */
#define RAWPLINTH_MAX_VERTEX_SLOTS 32768
#define RAWPLINTH_MAX_TRIANGLE_SLOTS 65536

/* Entries that do for the note of every refine: it changes 25 of the slots in use at most. */
#define RAWPLINTH_NOTE_ENTRIES 229

/* Entries that do for the report of every refine: it makes 10 splits and 12 flips at most. */
#define RAWPLINTH_REPORT_ENTRIES 54

/* The rules by which whole step and limit round what lies half-way between two whole numbers. Rule 2 keeps mirror
   images: with one coordinate negated everywhere, in the tables, in other lent tables, in the cage of a load and in the
   corners of a box, where low and high then change places, a call leaves and answers the same but for this coordinate,
   which is negated. (-2147483648, which a box may have, has no opposite.) */
enum {
    RAWPLINTH_HALF_UP = 1,  /* 2.5 to 3, -2.5 to -2 */
    RAWPLINTH_HALF_AWAY = 2 /* 2.5 to 3, -2.5 to -3 */
};

/* How many vertices and triangles are in use, and the rule that the mesh was loaded by. In a fresh store none are in
   use, and the rule may be any number. Every call but record_.. takes the counts, and every answer but theirs and those
   of view_point and of preview, with a report or without, has those for the next call; after these they are the same as
   before. Counts that were saved before version 4 have no rule: their mesh goes on with RAWPLINTH_HALF_UP. */
typedef struct {
    uint32_t vertices;
    uint32_t triangles;
    uint32_t rule;
} rawplinth_counts;

/* A point, in units of 1/1024 mm. */
typedef struct {
    int32_t x, y, z;
} rawplinth_point;

/* The refusals. A refused call answers with the number, the counts that it was given and zeros, and writes nothing.
   There is one exception: refine_list and preview, where an entry fails, and refine_box, where a refine fails, leave
   the work that they have done in the spare tables, and answer how many entries they handled or refines they made and
   the counts of what the spare tables hold. So they do with a report, where 23 refuses, too. */
enum {
    RAWPLINTH_OK = 0,
    RAWPLINTH_TABLES_DISAGREE = 1, /* lengths that do not fit each other, or more slots than allowed */
    RAWPLINTH_SIZES = 2,           /* a cage of a wrong length, or with no vertex, no triangle, or more than slots */
    RAWPLINTH_CORNERS = 3,         /* a corner that is no vertex, or twice in one triangle */
    RAWPLINTH_COORDINATES = 4,     /* a coordinate beyond 16777216 either way */
    RAWPLINTH_SIDE_TWICE = 5,      /* two triangles with the same directed side */
    RAWPLINTH_FANS = 6,            /* a vertex with no triangle, several fans, or two triangles and no boundary */
    RAWPLINTH_NOT_SOUND = 7,       /* no mesh by the rules: a fresh store, damaged tables, a rule neither 1 nor 2, or a
                                      lock neither 0 nor 1 */
    RAWPLINTH_NOT_IN_USE = 8,      /* no such triangle or vertex in use */
    RAWPLINTH_GENERATION = 9,      /* generation 20, the last, or 19 with the base on the boundary */
    RAWPLINTH_CHAIN_OPEN = 10,     /* no call returns it: a base chain that ends at the boundary is split there */
    RAWPLINTH_NO_SLOTS = 11,       /* too few slots for the splits that are needed */
    RAWPLINTH_NOT_UNIFORM = 12,    /* a boundary, or triangles not all of one even generation */
    RAWPLINTH_RING_LONG = 13,      /* a ring of more than 12 entries */
    RAWPLINTH_BUFFER_SHORT = 14,   /* a buffer shorter than the ring */
    RAWPLINTH_TABLE_LENGTH = 15,   /* a table that has not exactly three entries for each vertex in use */
    RAWPLINTH_RULE = 16,           /* a load by a rule that is neither 1 nor 2 */
    RAWPLINTH_SPARES = 17,         /* a spare table of another length than the mesh's */
    RAWPLINTH_BOX = 18,            /* a box whose low corner is above its high one in a coordinate, or a generation
                                      above 20 */
    RAWPLINTH_LOCKED = 19,         /* a locked triangle that would be split or flipped; in a whole step any */
    RAWPLINTH_VIEW_SHORT = 20,     /* a table for all triangles with fewer than nine entries for each in use */
    RAWPLINTH_NOTE = 21,           /* a note that take_back does not accept */
    RAWPLINTH_NOTE_SHORT = 22,     /* a note with fewer entries than the refine has to write */
    RAWPLINTH_REPORT_SHORT = 23,   /* a buffer with fewer entries than the report */
    RAWPLINTH_NOT_ON_RIM = 24,     /* a vertex in use that is not on the boundary */
    RAWPLINTH_CURVE_SHORT = 25     /* a table for a curve with fewer than nine entries for each vertex of the rim */
};

/* The answer of load, refine, refine_noted, take_back, whole step, lock and unlock. Splits and flips are 0 but for a
   refine, with a note or without, or a whole step. */
typedef struct {
    uint32_t refusal;
    uint32_t splits; /* splits made, at the boundary or not */
    uint32_t flips;  /* flips made */
    rawplinth_counts counts;
} rawplinth_worked;

/* The answer of refine_list and refine_box. */
typedef struct {
    uint32_t refusal;
    uint32_t splits; /* splits and flips made for all entries, or in all refines, together */
    uint32_t flips;
    rawplinth_counts counts;
    size_t handled;          /* entries handled: all of them, or those before the one that fails, so its place;
                                of a box the refines made, or those before the one that fails;
                                0 where 1, 17, 18 or 7 refuses */
    rawplinth_counts spares; /* of the mesh in the spare tables; zeros where 1, 17, 18 or 7 refuses */
} rawplinth_batch_worked;

/* The answer of preview: what refine_list would answer. It has no counts of the mesh: those stand and go on to the next
   call. What is foreseen must not be given to one, and `spares` goes with the spare tables alone. */
typedef struct {
    uint32_t refusal;
    uint32_t splits;
    uint32_t flips;
    uint32_t foreseen_vertices; /* in use after the list; where it would be refused, those of the mesh */
    uint32_t foreseen_triangles;
    size_t handled;
    rawplinth_counts spares;
} rawplinth_batch_foreseen;

/* The answer of refine_reported and refine_noted_reported: that without a report, and the length of the report. */
typedef struct {
    rawplinth_worked worked;
    uint32_t reported; /* entries of the report, 3*splits+2*flips; 0 on a refusal */
} rawplinth_reported;

/* The answer of refine_list_reported and refine_box_reported, likewise. Where 23 refuses, all entries are handled, or
   all refines made. */
typedef struct {
    rawplinth_batch_worked worked;
    uint32_t reported;
} rawplinth_batch_reported;

/* The answer of preview_reported: what refine_list_reported would answer. */
typedef struct {
    rawplinth_batch_foreseen foreseen;
    uint32_t reported;
} rawplinth_foreseen_reported;

/* The answer of ring. */
typedef struct {
    uint32_t refusal;
    uint32_t length; /* entries written to the buffer */
    rawplinth_counts counts;
} rawplinth_ring_read;

/* The answer of position, in units of 1/1024 mm. */
typedef struct {
    uint32_t refusal;
    int32_t x, y, z;
    rawplinth_counts counts;
} rawplinth_position_read;

/* The answer of limit. */
typedef struct {
    uint32_t refusal;
    rawplinth_counts counts;
} rawplinth_limit_read;

/* The answer of rim_curve. */
typedef struct {
    uint32_t refusal;
    uint32_t length; /* vertices of the rim, each with three points in the table; 0 on a refusal */
    rawplinth_counts counts;
} rawplinth_rim_read;

/* The answer of view_point, in millimetres. It has no counts of the mesh: those stand and go on to the next call. */
typedef struct {
    uint32_t refusal;
    float x, y, z;
} rawplinth_point_seen;

/* The answer of view_triangles. */
typedef struct {
    uint32_t refusal;
    rawplinth_counts counts;
} rawplinth_shown;

/* Why a replay stopped. */
enum {
    RAWPLINTH_STOP_END = 1,      /* nothing is left: every record from `at` on was replayed; with `end` 0 there is not
                                    even a header */
    RAWPLINTH_STOP_TORN = 2,     /* a header or a record that is cut off */
    RAWPLINTH_STOP_CHECKSUM = 3, /* a checksum that does not hold, as in a file that is no journal */
    RAWPLINTH_STOP_KIND = 4,     /* no header of this version, no such kind of record, or no such size for it */
    RAWPLINTH_STOP_REFUSED = 5,  /* a record whose call is refused */
    RAWPLINTH_STOP_SLOTS = 6,    /* a journal of tables with other slots */
    RAWPLINTH_STOP_NUMBERS = 7   /* a list or a note with more numbers than the table for them has entries */
};

/* The answer of replay. */
typedef struct {
    rawplinth_counts counts;
    uint32_t stop;    /* why it stopped */
    uint32_t refusal; /* what the next record's call is refused with, where it stopped for that; else 0 */
    size_t records;   /* records replayed, each of them carried out */
    size_t end;       /* where the first record starts that was not replayed: the place to go on from; 0 where the
                         header stopped it */
} rawplinth_replayed;

/* Every call but record_.. is lent the same five tables, each a pointer and its number of entries:

     positions     3 for each vertex slot, in units of 1/1024 mm, within 16777216 either way
     corners       3 for each triangle slot
     links         3 for each triangle slot: 3*triangle+side of the partner, or RAWPLINTH_BOUNDARY; side 0 runs from
                   corner 0 to corner 1, side 1 from 1 to 2, side 2 from 2 to 0
     generations   1 for each triangle slot: 0 to 20, 0 after a load. An odd triangle was made by a split, with side 0
                   as its base; a flip across the base makes it even. The base chain of an odd triangle goes on to the
                   triangle across its base, until an even one or the boundary
     locks         1 for each triangle slot: 1 for a triangle that is locked, else 0; 0 after a load and for what a
                   split makes. A mesh that was saved before version 9 goes on with zeros

   A locked triangle stays as it is until it is unlocked or a cage is loaded: its corners, their positions, its
   generation, and the sides that its links name. Where a split or a flip beside it, or one that is taken back, moves
   such a side to another place, the link follows.

   Whatever they hold, a call does what it says or is refused, with the first number of its list that applies. Slots
   past the counts are written only where a call takes them into use.

   Each call but load and record_.. tests all that is in use first, so that even one that reads one vertex takes time in
   proportion to the mesh. Between calls a caller may read the tables, to draw a few triangles say: triangle t has its
   corner i at positions[3*corners[3*t+i]] and the two entries behind it.

   A pointer must be valid for its entries, and not null even where there are none. What is lent to one call must not
   overlap, and nobody else may use it while the call runs: calls on different meshes may run at the same time. */

/* Loads a cage: its numbers of vertices and triangles, 3 signed coordinates a vertex, 3 corners a triangle,
   each number 4 bytes, low byte first. Where the machine has the low byte first, these are the bytes of an array of
   int32_t. What is loaded depends neither on the counts nor on what the tables held. The rule is the mesh's until the
   next load that is carried out.
   Refuses with 1, 16, 2, 3, 4, 5, 6, in this order. Writes the first slots of all tables. Needs 2.8 MB of stack,
   and 0.1 MB with at most 2,048 vertices and triangles. */
rawplinth_worked rawplinth_load(
    int32_t *positions, size_t positions_length,
    uint32_t *corners, size_t corners_length,
    uint32_t *links, size_t links_length,
    uint8_t *generations, size_t generations_length,
    uint8_t *locks, size_t locks_length,
    rawplinth_counts counts,
    uint32_t rule,
    const uint8_t *cage, size_t cage_length);

/* Refines one triangle: an even one by a face split, an odd one by splits along its base chain until it has risen.
   A chain that ends at the boundary is split there first: the odd triangle on the boundary becomes three, its boundary
   side is cut in three at two new vertices, and the odd triangle before it in the chain is flipped. So a chain of m odd
   triangles takes m splits, or m-1 at the boundary, one at least. Each takes one vertex and two triangles, the one at
   the boundary two vertices.
   Split or flipped are the odd triangles of the base chain, the triangle at its end, which is split first, and the odd
   ones whose base meets that: if one of these is locked, the call is refused with 19. Of other triangles at most links
   follow, be they locked or not.
   Refuses with 1, 7, 8, 9, 19, 11, in this order. Writes slots in use and those that it takes. Needs 0.14 MB of
   stack, as do refine_noted, refine_reported, refine_noted_reported, lock, unlock, ring, position, rim_curve,
   view_point and view_triangles. */
rawplinth_worked rawplinth_refine(
    int32_t *positions, size_t positions_length,
    uint32_t *corners, size_t corners_length,
    uint32_t *links, size_t links_length,
    uint8_t *generations, size_t generations_length,
    uint8_t *locks, size_t locks_length,
    rawplinth_counts counts,
    uint32_t triangle);

/* Refines one triangle as refine does, and writes a note by which take_back undoes it: the triangle, the numbers of
   vertices and triangles in use before, the number k of old triangle slots whose content changes, be it a link alone,
   and for each of these, in rising order, nine numbers: the slot and what it held, its three corners, its three links,
   its generation and its lock. These are 4+9k entries. k is at most 25: RAWPLINTH_NOTE_ENTRIES (229) always do. Later
   entries keep their content. A note of no entries is too short: to refine without a note, call refine.
   Refuses with 1, 7, 8, 9, 19, 11, 22, in this order. Writes what refine does, and the front of the note. */
rawplinth_worked rawplinth_refine_noted(
    int32_t *positions, size_t positions_length,
    uint32_t *corners, size_t corners_length,
    uint32_t *links, size_t links_length,
    uint8_t *generations, size_t generations_length,
    uint8_t *locks, size_t locks_length,
    rawplinth_counts counts,
    uint32_t triangle,
    uint32_t *note, size_t note_length);

/* Takes a refine back (undo) by its note: the slots of the note get what they held, and the vertices and triangles in
   use are those of before. Slots that are given up keep their content, and later splits may take them. Splits and flips
   are answered as 0.
   Whatever a note holds, it is accepted exactly if it has 4+9k entries at least, k being its fourth, its slots rise
   and are below its number of triangles, the mesh that it restores is sound, and refining its triangle there is carried
   out and gives the mesh as it is, in every entry in use, with positions, locks and counts. So every note that
   refine_noted wrote is accepted until the mesh is next changed, and later too wherever this holds: then it may take
   back several refines. None that was altered, or is of another mesh, can do harm: it is refused with 21, or it takes a
   refine back all the same.
   Notes kept in a stack undo refine after refine, as the note of one is accepted again when the next one is taken back.
   A lock or unlock of a triangle that is in the note, or that the refine made, stands in the way with 21 until it is
   reversed; of others it does not. Lists, boxes, whole steps and loads have no note: to undo one, keep a copy of the
   tables and the counts.
   Refuses with 1, 7, 21, in this order. Writes corners, links, generations and locks of the slots in the note, and
   nothing else. Needs 0.25 MB of stack with at most 3000 vertices and triangles in use, else 2.4 MB, never above
   3 MB. */
rawplinth_worked rawplinth_take_back(
    const int32_t *positions, size_t positions_length,
    uint32_t *corners, size_t corners_length,
    uint32_t *links, size_t links_length,
    uint8_t *generations, size_t generations_length,
    uint8_t *locks, size_t locks_length,
    rawplinth_counts counts,
    const uint32_t *note, size_t note_length);

/* Refines the triangles of a list in its order, all of them or none. Each has to be in use when the call starts: one
   that an earlier entry makes is refused with 8. A triangle whose generation is above what it was at the start, by its
   own entry or by another's, is passed over, so that it does no harm to list a triangle twice. An empty list is carried
   out with zeros.
   The work is done in five spare tables, each as long as the mesh's own of that name; what they hold before does not
   matter. Unless 1, 17 or 7 refuses, they are left with the mesh after the last entry that was handled, or as it was
   given if none was, in the slots which that mesh has in use; their other slots keep their content. So it is where an
   entry fails, too, and `spares` of the answer are the counts of what they hold. They must not overlap each other, the
   list or the mesh's tables.
   Refuses with 1, 17, 7, in this order, then with what the first entry that fails is refused with: 8, 9, 19 or 11.
   Writes the spare tables, and if no entry fails the mesh: slots in use and those that it takes. Needs 0.14 MB of
   stack. */
rawplinth_batch_worked rawplinth_refine_list(
    int32_t *positions, size_t positions_length,
    uint32_t *corners, size_t corners_length,
    uint32_t *links, size_t links_length,
    uint8_t *generations, size_t generations_length,
    uint8_t *locks, size_t locks_length,
    rawplinth_counts counts,
    const uint32_t *list, size_t list_length,
    int32_t *spare_positions, size_t spare_positions_length,
    uint32_t *spare_corners, size_t spare_corners_length,
    uint32_t *spare_links, size_t spare_links_length,
    uint8_t *spare_generations, size_t spare_generations_length,
    uint8_t *spare_locks, size_t spare_locks_length);

/* Does with the spare tables what refine_list would do with the same mesh and list, and answers what it would; but the
   mesh is only read, and keeps its counts. Where no entry fails, the spare tables are left with the mesh that
   refine_list would make, of which `spares` are the counts: it may be read there by the calls that read a mesh. What
   they held before is not used, so that a preview again gives the same, and refine_list after it does what was
   foreseen.
   Refuses as refine_list does. Writes the spare tables, and nothing else. Needs 0.14 MB of stack. */
rawplinth_batch_foreseen rawplinth_preview(
    const int32_t *positions, size_t positions_length,
    const uint32_t *corners, size_t corners_length,
    const uint32_t *links, size_t links_length,
    const uint8_t *generations, size_t generations_length,
    const uint8_t *locks, size_t locks_length,
    rawplinth_counts counts,
    const uint32_t *list, size_t list_length,
    int32_t *spare_positions, size_t spare_positions_length,
    uint32_t *spare_corners, size_t spare_corners_length,
    uint32_t *spare_links, size_t spare_links_length,
    uint8_t *spare_generations, size_t spare_generations_length,
    uint8_t *spare_locks, size_t spare_locks_length);

/* Refines inside a box, all or nothing: as long as some triangle in use is of a generation below `below` and has a
   corner in the box, the one in the lowest slot is refined. A corner on a face of the box is in it, and a triangle that
   a refine makes counts like any other. So when the call is carried out, no triangle below that generation has a corner
   in the box. A triangle that reaches into the box without a corner there does not count: a box inside one large
   triangle refines nothing. A refine may have to split triangles outside of the box, too.
   The box has all points from `low` to `high` in each coordinate, which may be any 32-bit numbers, and `below` is from
   0 to 20. Where there is no such triangle, the call is carried out with zeros.
   A triangle that cannot be refined is not passed over: the call fails with it.
   The work is done in five spare tables, lent as refine_list's. Unless 1, 17, 18 or 7 refuses, they are left with the
   mesh after the last refine that was made, or as it was given if none was, in the slots which that mesh has in use;
   their other slots keep their content. So it is where a refine fails, too, and `spares` of the answer are the counts
   of what they hold.
   Refuses with 1, 17, 18, 7, in this order, then with what the first refine that fails is refused with: 9, 19 or 11. A
   9 takes a `below` of 20 and a triangle of generation 19 with its base on the boundary. Writes the spare tables, and
   if no refine fails the mesh: slots in use and those that it takes. Needs 0.15 MB of stack. */
rawplinth_batch_worked rawplinth_refine_box(
    int32_t *positions, size_t positions_length,
    uint32_t *corners, size_t corners_length,
    uint32_t *links, size_t links_length,
    uint8_t *generations, size_t generations_length,
    uint8_t *locks, size_t locks_length,
    rawplinth_counts counts,
    rawplinth_point low, rawplinth_point high, uint32_t below,
    int32_t *spare_positions, size_t spare_positions_length,
    uint32_t *spare_corners, size_t spare_corners_length,
    uint32_t *spare_links, size_t spare_links_length,
    uint8_t *spare_generations, size_t spare_generations_length,
    uint8_t *spare_locks, size_t spare_locks_length);

/* Reports: which triangle slots changed. A call whose name ends in _reported does what the one without does, and
   reports each slot whose corners or generation it wrote: a split its own slot and then the two new ones, a flip the
   slot that the split has just written and then the one across its base. The reports are joined in the order of the
   work, repeats kept, and written to the front of the buffer: 3*splits+2*flips entries, which `reported` of the answer
   tells. Later entries keep their content.
   A slot that is not reported keeps its corners, its generation and its links, save links that point at a reported
   slot, before and after.
   RAWPLINTH_REPORT_ENTRIES (54) do for every refine, and 3*T-2*F entries for every call, with T triangle slots and F
   triangles in use before. A buffer that is shorter than the report is refused with 23, last of all: then the mesh
   stands, and neither note nor report is written. One of no entries is too short for every refine, as each reports
   three slots at least; the calls without a report take none.

   What a viewer has to redraw, after

     a refine, list or box       the slots reported; no old vertex has moved, and new ones come after the old
     with a report
     take_back                   the slots of the note, note[4+9*i] for i below note[3]; those from the restored number
                                 of triangles on are gone
     load, whole_step, replay    everything, and so after a refine, a list or a box without a report
     other calls, previews and   nothing
     refused ones among them */

/* Refines one triangle as refine does, with a report.
   Refuses with 1, 7, 8, 9, 19, 11, 23, in this order. Writes what refine does, and the front of the report. */
rawplinth_reported rawplinth_refine_reported(
    int32_t *positions, size_t positions_length,
    uint32_t *corners, size_t corners_length,
    uint32_t *links, size_t links_length,
    uint8_t *generations, size_t generations_length,
    uint8_t *locks, size_t locks_length,
    rawplinth_counts counts,
    uint32_t triangle,
    uint32_t *report, size_t report_length);

/* Refines one triangle as refine_noted does, with a note and a report.
   Refuses with 1, 7, 8, 9, 19, 11, 22, 23, in this order. Writes what refine_noted does, and the front of the
   report. */
rawplinth_reported rawplinth_refine_noted_reported(
    int32_t *positions, size_t positions_length,
    uint32_t *corners, size_t corners_length,
    uint32_t *links, size_t links_length,
    uint8_t *generations, size_t generations_length,
    uint8_t *locks, size_t locks_length,
    rawplinth_counts counts,
    uint32_t triangle,
    uint32_t *note, size_t note_length,
    uint32_t *report, size_t report_length);

/* Refines the triangles of a list as refine_list does, with a report. An entry that is passed over reports nothing, and
   so does an empty list.
   Refuses as refine_list does, and then with 23, which leaves the spare tables with the mesh that the list would make.
   Writes what refine_list does, and if it is carried out the front of the report. It does the work twice, as the length
   of the report is known only when it is done. Needs 0.14 MB of stack, as does preview_reported. */
rawplinth_batch_reported rawplinth_refine_list_reported(
    int32_t *positions, size_t positions_length,
    uint32_t *corners, size_t corners_length,
    uint32_t *links, size_t links_length,
    uint8_t *generations, size_t generations_length,
    uint8_t *locks, size_t locks_length,
    rawplinth_counts counts,
    const uint32_t *list, size_t list_length,
    uint32_t *report, size_t report_length,
    int32_t *spare_positions, size_t spare_positions_length,
    uint32_t *spare_corners, size_t spare_corners_length,
    uint32_t *spare_links, size_t spare_links_length,
    uint8_t *spare_generations, size_t spare_generations_length,
    uint8_t *spare_locks, size_t spare_locks_length);

/* Does with the spare tables and the report what refine_list_reported would do with the same mesh and list and a
   report of the same length, and answers what it would; but the mesh is only read, and keeps its counts. What is drawn
   of the spare tables then differs from the mesh in reported slots alone.
   Refuses as refine_list_reported does. Writes the spare tables, if it is carried out the front of the report, and
   nothing else. */
rawplinth_foreseen_reported rawplinth_preview_reported(
    const int32_t *positions, size_t positions_length,
    const uint32_t *corners, size_t corners_length,
    const uint32_t *links, size_t links_length,
    const uint8_t *generations, size_t generations_length,
    const uint8_t *locks, size_t locks_length,
    rawplinth_counts counts,
    const uint32_t *list, size_t list_length,
    uint32_t *report, size_t report_length,
    int32_t *spare_positions, size_t spare_positions_length,
    uint32_t *spare_corners, size_t spare_corners_length,
    uint32_t *spare_links, size_t spare_links_length,
    uint8_t *spare_generations, size_t spare_generations_length,
    uint8_t *spare_locks, size_t spare_locks_length);

/* Refines inside a box as refine_box does, with a report.
   Refuses as refine_box does, and then with 23, which leaves the spare tables with the mesh that the box would make.
   Writes what refine_box does, and if it is carried out the front of the report. It does the work twice, too. Needs
   0.15 MB of stack. */
rawplinth_batch_reported rawplinth_refine_box_reported(
    int32_t *positions, size_t positions_length,
    uint32_t *corners, size_t corners_length,
    uint32_t *links, size_t links_length,
    uint8_t *generations, size_t generations_length,
    uint8_t *locks, size_t locks_length,
    rawplinth_counts counts,
    rawplinth_point low, rawplinth_point high, uint32_t below,
    uint32_t *report, size_t report_length,
    int32_t *spare_positions, size_t spare_positions_length,
    uint32_t *spare_corners, size_t spare_corners_length,
    uint32_t *spare_links, size_t spare_links_length,
    uint8_t *spare_generations, size_t spare_generations_length,
    uint8_t *spare_locks, size_t spare_locks_length);

/* Refines every triangle of a closed mesh of one even generation, and smooths the old vertices, all at once, each
   coordinate to the nearest, a half by the mesh's rule. It moves everything, and so is refused with 19 while any
   triangle is locked.
   Refuses with 1, 7, 12, 9, 13, 19, 11, in this order. Writes slots in use and those that it takes. Needs 0.6 MB of
   stack, as does limit. */
rawplinth_worked rawplinth_whole_step(
    int32_t *positions, size_t positions_length,
    uint32_t *corners, size_t corners_length,
    uint32_t *links, size_t links_length,
    uint8_t *generations, size_t generations_length,
    uint8_t *locks, size_t locks_length,
    rawplinth_counts counts);

/* Locks a triangle, which may be locked already, and answers the counts as they stand.
   Refuses with 1, 7, 8, in this order. Writes its lock. */
rawplinth_worked rawplinth_lock(
    const int32_t *positions, size_t positions_length,
    const uint32_t *corners, size_t corners_length,
    const uint32_t *links, size_t links_length,
    const uint8_t *generations, size_t generations_length,
    uint8_t *locks, size_t locks_length,
    rawplinth_counts counts,
    uint32_t triangle);

/* Unlocks a triangle, which may be unlocked already, and answers the counts as they stand.
   Refuses with 1, 7, 8, in this order. Writes its lock. */
rawplinth_worked rawplinth_unlock(
    const int32_t *positions, size_t positions_length,
    const uint32_t *corners, size_t corners_length,
    const uint32_t *links, size_t links_length,
    const uint8_t *generations, size_t generations_length,
    uint8_t *locks, size_t locks_length,
    rawplinth_counts counts,
    uint32_t triangle);

/* Reads the ring of a vertex v: from a triangle (v,a,b) it writes a and goes on across b-v, from the lowest slot that
   holds v until it is back; at the boundary from the triangle whose v-a is on it to the last one, whose b it writes
   too. A neighbour may stand in it more than once.
   Refuses with 1, 7, 8, 14, in this order. Writes the ring to the front of the buffer, and nothing else. */
rawplinth_ring_read rawplinth_ring(
    const int32_t *positions, size_t positions_length,
    const uint32_t *corners, size_t corners_length,
    const uint32_t *links, size_t links_length,
    const uint8_t *generations, size_t generations_length,
    const uint8_t *locks, size_t locks_length,
    rawplinth_counts counts,
    uint32_t vertex,
    uint32_t *buffer, size_t buffer_length);

/* Reads the position of a vertex.
   Refuses with 1, 7, 8, in this order. Writes nothing. */
rawplinth_position_read rawplinth_position(
    const int32_t *positions, size_t positions_length,
    const uint32_t *corners, size_t corners_length,
    const uint32_t *links, size_t links_length,
    const uint8_t *generations, size_t generations_length,
    const uint8_t *locks, size_t locks_length,
    rawplinth_counts counts,
    uint32_t vertex);

/* Reads the limit positions of a closed mesh of one even generation: where ever more whole steps without rounding would
   take its vertices, three coordinates a vertex, each to the nearest, a half by the mesh's rule. The table has 3
   entries for each vertex in use, neither fewer nor more, and is none of the mesh's own.
   Refuses with 1, 7, 12, 13, 15, in this order. Writes the table, and nothing else. */
rawplinth_limit_read rawplinth_limit(
    const int32_t *positions, size_t positions_length,
    const uint32_t *corners, size_t corners_length,
    const uint32_t *links, size_t links_length,
    const uint8_t *generations, size_t generations_length,
    const uint8_t *locks, size_t locks_length,
    rawplinth_counts counts,
    int32_t *table, size_t table_length);

/* Reads the rim of a vertex as a smooth curve, which a saw can follow. The rim is the closed way along the boundary on
   which the vertex lies: from each vertex it goes on along the side out of it that is on the boundary, which runs as
   its triangle has it, until it is back at the first. It has n vertices, two at least, and each of them once.
   Three points are written for each vertex, in this order, so that the first three belong to the given one. They are
   those of Kobbelt's formula (9): of 27 parts the vertex before has 10, 4 and 1, the vertex itself 16, 19 and 16, and
   the vertex after 1, 4 and 10, going round. A point is three coordinates, each to the nearest, which is never
   half-way, so that the mesh's rule does not matter; and each lies within the least and the greatest of its three
   sources. Two meshes whose rims have equal points in this order have equal curves, whatever else they have.
   The curve takes 9n entries. 9 for each vertex in use always do. Later entries keep their content. The table is none
   of the mesh's own.
   Refuses with 1, 7, 8, 24, 25, in this order. Writes the front of the table, and nothing else. */
rawplinth_rim_read rawplinth_rim_curve(
    const int32_t *positions, size_t positions_length,
    const uint32_t *corners, size_t corners_length,
    const uint32_t *links, size_t links_length,
    const uint8_t *generations, size_t generations_length,
    const uint8_t *locks, size_t locks_length,
    rawplinth_counts counts,
    uint32_t vertex,
    int32_t *table, size_t table_length);

/* Reads where a vertex is in millimetres: its coordinates divided by 1024. That is exact for every coordinate, and each
   number times 1024 is the coordinate again.
   Refuses with 1, 7, 8, in this order. Writes nothing. */
rawplinth_point_seen rawplinth_view_point(
    const int32_t *positions, size_t positions_length,
    const uint32_t *corners, size_t corners_length,
    const uint32_t *links, size_t links_length,
    const uint8_t *generations, size_t generations_length,
    const uint8_t *locks, size_t locks_length,
    rawplinth_counts counts,
    uint32_t vertex);

/* Reads all triangles in use in the order of their slots, nine numbers each: x, y and z of corner 0, then of corner 1,
   then of corner 2, in millimetres, exact like those of view_point. The table has at least 9 entries for each triangle
   in use, and keeps what it has after them.
   Refuses with 1, 7, 20, in this order. Writes the front of the table, and nothing else. */
rawplinth_shown rawplinth_view_triangles(
    const int32_t *positions, size_t positions_length,
    const uint32_t *corners, size_t corners_length,
    const uint32_t *links, size_t links_length,
    const uint8_t *generations, size_t generations_length,
    const uint8_t *locks, size_t locks_length,
    rawplinth_counts counts,
    float *table, size_t table_length);

/* The journal: bytes that the caller keeps, in a file say, from which replay makes the mesh again. It begins with a
   header, and goes on with a record for each change that was carried out, in their order: load, refine, whole step,
   list, box, lock, unlock and take-back. A refine, a list or a box with a note or a report has the record of the one
   without; calls that read and calls that were refused have none. docs/JOURNAL.md has the format.
   Each of these writes what it is to record to the front of the buffer and answers its length; or 0, where the buffer
   is too short, or the size of the record's body would be above 4294967295, and then the buffer stands: the change is
   made and not recorded, so record it in a longer buffer before the next. A header has 20 bytes, a record 16 and its
   body: 4 and the cage of a load, 4 for a triangle, none for a whole step, 4 for each entry of a list or a note, and 28
   for a box. Of a note the first 4+9k entries do. The slots of a header are a third of the positions' length and the
   generations' length. */
size_t rawplinth_record_header(uint8_t *buffer, size_t buffer_length, uint32_t vertex_slots, uint32_t triangle_slots);
size_t rawplinth_record_load(
    uint8_t *buffer, size_t buffer_length,
    uint32_t rule,
    const uint8_t *cage, size_t cage_length);
size_t rawplinth_record_refine(uint8_t *buffer, size_t buffer_length, uint32_t triangle);
size_t rawplinth_record_whole_step(uint8_t *buffer, size_t buffer_length);
size_t rawplinth_record_list(
    uint8_t *buffer, size_t buffer_length,
    const uint32_t *list, size_t list_length);
size_t rawplinth_record_box(
    uint8_t *buffer, size_t buffer_length,
    rawplinth_point low, rawplinth_point high, uint32_t below);
size_t rawplinth_record_lock(uint8_t *buffer, size_t buffer_length, uint32_t triangle);
size_t rawplinth_record_unlock(uint8_t *buffer, size_t buffer_length, uint32_t triangle);
size_t rawplinth_record_take_back(
    uint8_t *buffer, size_t buffer_length,
    const uint32_t *note, size_t note_length);

/* Replays a journal on a mesh: makes the calls of its records in their order, up to the first that is cut off, damaged,
   unknown, refused or too long for `numbers`. `at` is the place of the first record to replay: 0, or any number up to
   20, for the one behind the header, or `end` of an earlier answer, to go on with what was appended since: in parts or
   at once a journal leaves the same. Where `at` is past the journal's last byte, its end is lost, and the answer is
   RAWPLINTH_STOP_END with no records and `end` as `at`. The mesh is tested once, before the first record, and each call
   does what it would do by itself.
   The journal of the changes that were carried out on tables of these slots, replayed on what the tables held before
   them, leaves the mesh, counts included, as the changes did, and refuses none. Cut off at any byte it stops before the
   record that is cut, and with any one byte changed before the record, or the header, that has it.
   To go on writing, cut the journal off at `end` and append there; where `end` is 0 begin with a header. After a stop
   with
     END        append at `end`
     TORN       the last write was cut off: cut off at `end` and append there
     CHECKSUM   damage, or a last write of which a part is missing: what is behind `end` cannot be replayed; keep it
                aside, then as after TORN
     KIND       no journal of this version, or one that a newer library wrote: do not append
     REFUSED    with 17 lend spare tables that fit, and go on from `end`; else these are not the tables with which the
                journal began: do not append
     SLOTS      lend tables with the slots of the header
     NUMBERS    lend a longer `numbers`, and go on from `end`
   Lists and boxes work in the five spare tables, lent as refine_list's; where these have other lengths than the mesh's,
   such a record is refused with 17. The numbers of a list or a note are read into `numbers`, which needs as many
   entries as the longest has: RAWPLINTH_NOTE_ENTRIES (229) do where no list and no note that was recorded is longer.
   What the spare tables and `numbers` hold before does not matter, and what they hold then is not told.
   Refuses nothing: it stops. Writes the mesh, the spare tables and `numbers`. Needs 2.8 MB of stack; record_.. need
   2 KB. */
rawplinth_replayed rawplinth_replay(
    int32_t *positions, size_t positions_length,
    uint32_t *corners, size_t corners_length,
    uint32_t *links, size_t links_length,
    uint8_t *generations, size_t generations_length,
    uint8_t *locks, size_t locks_length,
    rawplinth_counts counts,
    int32_t *spare_positions, size_t spare_positions_length,
    uint32_t *spare_corners, size_t spare_corners_length,
    uint32_t *spare_links, size_t spare_links_length,
    uint8_t *spare_generations, size_t spare_generations_length,
    uint8_t *spare_locks, size_t spare_locks_length,
    uint32_t *numbers, size_t numbers_length,
    const uint8_t *journal, size_t journal_length,
    size_t at);

#ifdef __cplusplus
}
#endif

#endif
