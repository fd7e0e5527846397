/* A small editor: clicks that refine a triangle and can be undone one after the other, lassos, which refine several, a
   look at what a lasso would make, panels, which are refined inside a box, and locks. The screen is redrawn by reports
   alone, and after each command compared with a view of the whole mesh. */
#include "rawplinth_mesh.h"

#include <stdio.h>
#include <string.h>

enum {
    VERTEX_SLOTS = 48,
    TRIANGLE_SLOTS = 92,
    ENTRIES = RAWPLINTH_BLOCK_ENTRIES(VERTEX_SLOTS, TRIANGLE_SLOTS),
    VIEW = 9 * TRIANGLE_SLOTS,
    REPORT = 3 * TRIANGLE_SLOTS, /* does for every call */
    UNDOS = 3                    /* clicks that can be undone */
};

typedef struct {
    uint32_t entries[RAWPLINTH_NOTE_ENTRIES];
} note;

typedef struct {
    rawplinth_mesh mesh;
    rawplinth_spares spares;
    uint32_t report[REPORT];
    float screen[VIEW]; /* nine numbers for each triangle, in millimetres */
    float ghost[VIEW];  /* the screen as it would be after a lasso */
    note notes[UNDOS];  /* of the clicks that can be undone, the last one last */
    size_t undos;
} editor;

/* Draws a triangle. The tables are read as they are: view_point would test the whole mesh for each corner. */
static void draw(float *screen, const rawplinth_mesh *mesh, uint32_t triangle)
{
    for (uint32_t i = 0; i < 9; i++)
        screen[9 * triangle + i] = mesh->positions[3 * mesh->corners[3 * triangle + i / 3] + i % 3] / 1024.0f;
}

static void draw_reported(float *screen, const rawplinth_mesh *mesh, const uint32_t *report, uint32_t reported)
{
    for (uint32_t i = 0; i < reported; i++)
        draw(screen, mesh, report[i]);
}

/* Whether a screen shows a mesh, and nothing else. */
static int shows(const float *screen, const rawplinth_mesh *mesh)
{
    float whole[VIEW] = {0};
    return rawplinth_mesh_view_triangles(mesh, whole, VIEW).refusal == RAWPLINTH_OK
        && memcmp(screen, whole, sizeof whole) == 0;
}

static void tell(uint32_t refusal, uint32_t splits, uint32_t flips, uint32_t drawn)
{
    if (refusal != RAWPLINTH_OK)
        printf("refused with %u; ", refusal);
    else
        printf("splits %u, flips %u, drawn %u; ", splits, flips, drawn);
}

/* After a load or a whole step everything is drawn, and no click before it can be undone. */
static void draw_all(editor *e, rawplinth_worked done)
{
    uint32_t drawn = 0;
    if (done.refusal == RAWPLINTH_OK) {
        e->undos = 0;
        memset(e->screen, 0, sizeof e->screen);
        while (drawn < e->mesh.counts.triangles)
            draw(e->screen, &e->mesh, drawn++);
    }
    tell(done.refusal, done.splits, done.flips, drawn);
}

/* An octahedron, 9 mm from the centre to each vertex. */
static void load(editor *e)
{
    static const int32_t cage[] = {
        6, 8,
        9216, 0, 0,  0, 9216, 0,  -9216, 0, 0,  0, -9216, 0,  0, 0, 9216,  0, 0, -9216,
        0, 1, 4,  1, 2, 4,  2, 3, 4,  3, 0, 4,  1, 0, 5,  2, 1, 5,  3, 2, 5,  0, 3, 5,
    };
    uint8_t bytes[sizeof cage];
    for (size_t i = 0; i < sizeof bytes; i++)
        bytes[i] = (uint32_t)cage[i / 4] >> 8 * (i % 4) & 255;
    draw_all(e, rawplinth_mesh_load(&e->mesh, RAWPLINTH_HALF_AWAY, bytes, sizeof bytes));
}

/* The note of a click goes on top of those before; where there is no room, the lowest is given up. */
static void click(editor *e, uint32_t triangle)
{
    note last;
    rawplinth_reported done = rawplinth_mesh_refine_noted_reported(
        &e->mesh, triangle, last.entries, RAWPLINTH_NOTE_ENTRIES, e->report, REPORT);
    if (done.worked.refusal == RAWPLINTH_OK) {
        if (e->undos == UNDOS)
            memmove(e->notes, e->notes + 1, --e->undos * sizeof last);
        e->notes[e->undos++] = last;
    }
    draw_reported(e->screen, &e->mesh, e->report, done.reported);
    tell(done.worked.refusal, done.worked.splits, done.worked.flips, done.reported);
}

/* Takes the last click back. The slots of its note are drawn, and those that it had taken are wiped. A note that is
   refused is kept: where a lock stands in its way, it is accepted once that is unlocked. */
static void undo(editor *e)
{
    if (e->undos == 0) {
        printf("nothing to undo; ");
        return;
    }
    const uint32_t *last = e->notes[e->undos - 1].entries;
    const uint32_t before = e->mesh.counts.triangles;
    rawplinth_worked done = rawplinth_mesh_take_back(&e->mesh, last, RAWPLINTH_NOTE_ENTRIES);
    if (done.refusal == RAWPLINTH_OK) {
        e->undos--;
        for (uint32_t i = 0; i < last[3]; i++)
            draw(e->screen, &e->mesh, last[4 + 9 * i]);
        for (uint32_t i = 9 * e->mesh.counts.triangles; i < 9 * before; i++)
            e->screen[i] = 0;
    }
    tell(done.refusal, done.splits, done.flips, last[3]);
}

/* After a list or a box no click before it can be undone. */
static void draw_batch(editor *e, rawplinth_batch_reported done)
{
    if (done.worked.refusal == RAWPLINTH_OK)
        e->undos = 0;
    draw_reported(e->screen, &e->mesh, e->report, done.reported);
    tell(done.worked.refusal, done.worked.splits, done.worked.flips, done.reported);
}

/* Shows what a lasso would make: what it would change is drawn from the spare tables. */
static int look(editor *e, const uint32_t *list, size_t length)
{
    rawplinth_foreseen_reported told = rawplinth_mesh_preview_reported(
        &e->mesh, list, length, e->report, REPORT, &e->spares);
    const rawplinth_batch_foreseen *seen = &told.foreseen;
    tell(seen->refusal, seen->splits, seen->flips, told.reported);
    if (seen->refusal != RAWPLINTH_OK) {
        printf("after %zu entries; ", seen->handled);
        return 1;
    }
    printf("%u triangles foreseen; ", seen->foreseen_triangles);
    memcpy(e->ghost, e->screen, sizeof e->ghost);
    draw_reported(e->ghost, rawplinth_held(&e->spares), e->report, told.reported);
    return shows(e->ghost, rawplinth_held(&e->spares));
}

/* Carries out a command, a word and up to seven numbers, and says whether what is shown is right after it. */
static int command(editor *e, const char *line)
{
    char word[8] = "";
    int n[7] = {0};
    int read = sscanf(line, "%7s%d%d%d%d%d%d%d", word, n, n + 1, n + 2, n + 3, n + 4, n + 5, n + 6);
    uint32_t list[7];
    size_t length = 0;
    for (; (int)length < read - 1; length++)
        list[length] = (uint32_t)n[length];
    int right = 1;
    printf("%s: ", line);
    if (strcmp(word, "load") == 0)
        load(e);
    else if (strcmp(word, "smooth") == 0)
        draw_all(e, rawplinth_mesh_whole_step(&e->mesh));
    else if (strcmp(word, "click") == 0)
        click(e, (uint32_t)n[0]);
    else if (strcmp(word, "undo") == 0)
        undo(e);
    else if (strcmp(word, "look") == 0)
        right = look(e, list, length);
    else if (strcmp(word, "lasso") == 0)
        draw_batch(e, rawplinth_mesh_refine_list_reported(&e->mesh, list, length, e->report, REPORT, &e->spares));
    else if (strcmp(word, "panel") == 0) {
        /* two corners in millimetres, and a generation */
        rawplinth_point low = {1024 * n[0], 1024 * n[1], 1024 * n[2]}, high = {1024 * n[3], 1024 * n[4], 1024 * n[5]};
        draw_batch(e, rawplinth_mesh_refine_box_reported(
            &e->mesh, low, high, (uint32_t)n[6], e->report, REPORT, &e->spares));
    } else if (strcmp(word, "lock") == 0)
        tell(rawplinth_mesh_lock(&e->mesh, (uint32_t)n[0]).refusal, 0, 0, 0);
    else if (strcmp(word, "unlock") == 0)
        tell(rawplinth_mesh_unlock(&e->mesh, (uint32_t)n[0]).refusal, 0, 0, 0);
    else
        right = 0;
    return right && shows(e->screen, &e->mesh);
}

static const char *const session[] = {
    "load", "smooth",
    /* Of four clicks the last three can be undone. */
    "click 0", "click 0", "click 24", "click 29", "undo", "undo", "undo", "undo",
    /* Triangle 7 bears the maker's mark. */
    "lock 7", "click 7",
    /* A lock elsewhere does not keep a click from being undone; one of what the click has changed does. */
    "click 6", "lock 12", "undo", "unlock 12", "click 6", "lock 6", "undo", "unlock 6", "undo",
    "look 8 9 7", "look 8 9 10 8", "lasso 8 9 10 8", "undo",
    "panel -1 -9 -1 1 -5 1 4", "panel -9 -9 -9 9 9 9 6", "unlock 7", "panel -9 -9 -9 9 9 9 6",
    "click 99", "smooth", "load",
};

int main(void)
{
    static uint32_t block[ENTRIES], spare_block[ENTRIES];
    static editor e;
    e.mesh = rawplinth_mesh_in(block, ENTRIES, VERTEX_SLOTS, TRIANGLE_SLOTS);
    e.spares = rawplinth_spares_in(spare_block, ENTRIES, &e.mesh);
    int wrong = 0;
    for (size_t i = 0; i < sizeof session / sizeof *session; i++) {
        int right = command(&e, session[i]);
        printf("%u triangles shown%s\n", e.mesh.counts.triangles, right ? "" : ", WRONG");
        wrong |= !right;
    }
    return wrong;
}
