/* Makes dumped calls, with every table and the record of new points a heap block of its exact size, and compares answers, record and tables
   with those dumped:
       calls FILE          each call twice, with the tables for the results as dumped and uninitialised
       calls FILE short    each call once, with a work table one entry shorter than told; nothing is compared
   The form of FILE is in tests/differential/src/dump.rs. */
#include "blocks.h"

enum { VERTICES, FACES, SIDES, MARKS, OUT_VERTICES, OUT_FACES, OUT_MARKS, LETTERS, WORK, TABLES };
static const char *const names[] = {"vertices", "faces", "sides", "marks", "out vertices", "out faces", "out marks", "letters", "work"};
static const size_t entry[] = {4, 4, 1, 1, 4, 4, 1, 1, 4};

typedef enum { CHECK, REFINE } function;

typedef struct { uint64_t rounds, tension, length[TABLES], with_letters, reason, place, vertices, faces, tally_before, tally_after; } head;
typedef struct { head head; void *before[TABLES], *after[TABLES]; } call;

static size_t bytes_of(const head *h, int table) { return h->length[table] * entry[table]; }

static int read_call(FILE *file, call *c)
{
    if (fread(&c->head, sizeof c->head, 1, file) != 1)
        return 0;
    for (int t = 0; t < TABLES; t++)
        read_exactly(file, c->before[t] = block(bytes_of(&c->head, t)), bytes_of(&c->head, t));
    for (int t = 0; t < TABLES; t++) {
        c->after[t] = block(bytes_of(&c->head, t));
        if (t < OUT_VERTICES)
            memcpy(c->after[t], c->before[t], bytes_of(&c->head, t));
        else
            read_exactly(file, c->after[t], bytes_of(&c->head, t));
    }
    return 1;
}

static void free_all(void **tables)
{
    for (int t = 0; t < TABLES; t++)
        free(tables[t]);
}

/* faces after the rounds; with side counts one for each corner before them */
static uint64_t refined_faces(const head *h)
{
    uint64_t corners = h->length[FACES];
    return (h->length[SIDES] ? corners : corners / 4) << 2 * h->rounds;
}

/* bytes at the front of a table that are known after the call if nothing is known of it before */
static size_t known(const head *h, int table)
{
    if (table < OUT_VERTICES)
        return bytes_of(h, table);
    if ((h->reason >= 1 && h->reason <= 4) || h->reason == 14 || h->reason == 16)
        return 0;
    if (table == WORK)
        return 64 * refined_faces(h);
    if (table == LETTERS && !h->with_letters)
        return 0;
    return table == OUT_VERTICES ? 12 * h->vertices : table == OUT_FACES ? 16 * h->faces : h->vertices;
}

static void give(const call *c, manner how, void **given)
{
    for (int t = 0; t < TABLES; t++) {
        size_t bytes = bytes_of(&c->head, t), missing = how == SHORT_WORK && t == WORK && bytes ? entry[t] : 0;
        given[t] = block(bytes - missing);
        if (t < OUT_VERTICES || how != UNINITIALISED)
            memcpy(given[t], c->before[t], bytes - missing);
    }
}

/* the check is not lent the outputs */
static int tables_agree(const call *c, manner how, function which, void **given)
{
    for (int t = 0; t < TABLES; t++) {
        size_t compared = how == UNINITIALISED ? known(&c->head, t) : bytes_of(&c->head, t);
        if (which == CHECK && t >= OUT_VERTICES && t <= LETTERS)
            continue;
        if (memcmp(given[t], c->after[t], compared) != 0) {
            printf("%s differ\n", names[t]);
            return 0;
        }
    }
    return 1;
}

static gedrovit_report refine(const head *h, gedrovit_tally *tally, void **given)
{
    const uint64_t *n = h->length;
    return gedrovit_refine(tally, (uint32_t)h->rounds, given[VERTICES], n[VERTICES], given[FACES], n[FACES], given[SIDES], n[SIDES], given[MARKS], n[MARKS],
                           (uint32_t)h->tension, given[OUT_VERTICES], n[OUT_VERTICES], given[OUT_FACES], n[OUT_FACES], given[OUT_MARKS], n[OUT_MARKS],
                           h->with_letters != 0, given[LETTERS], n[LETTERS], given[WORK], n[WORK]);
}

/* the check gives the same reason and place, but for 15 */
static int check_agrees(const head *h, void **given)
{
    const uint64_t *n = h->length;
    const gedrovit_finding f = gedrovit_check((uint32_t)h->rounds, given[VERTICES], n[VERTICES], given[FACES], n[FACES], given[SIDES], n[SIDES], given[MARKS],
                                              n[MARKS], (uint32_t)h->tension, n[OUT_VERTICES], n[OUT_FACES], n[OUT_MARKS], h->with_letters != 0, n[LETTERS],
                                              given[WORK], n[WORK]);
    return f.reason == (h->reason == 15 ? 0 : h->reason) && f.place == h->place;
}

static int refine_agrees(const head *h, void **given)
{
    gedrovit_tally *tally = block(sizeof *tally);
    tally->points = h->tally_before;
    const gedrovit_report r = refine(h, tally, given);
    const int same = r.reason == h->reason && r.place == h->place && r.vertices == h->vertices && r.faces == h->faces && tally->points == h->tally_after;
    free(tally);
    return same;
}

/* the sizes tell 1, 2, 3 and 14 as the call does, and else the least lengths */
static int sizes_agree(const call *c)
{
    const head *h = &c->head;
    const uint64_t *n = h->length;
    void *given[TABLES];
    give(c, AS_DUMPED, given);
    gedrovit_sizes s = gedrovit_sizes_for((uint32_t)h->rounds, n[VERTICES], n[FACES], given[SIDES], n[SIDES], n[MARKS]);
    free_all(given);
    if ((h->reason >= 1 && h->reason <= 3) || h->reason == 14)
        return s.reason == h->reason && s.work == 0;
    return s.reason == 0 && s.work == 16 * refined_faces(h);
}

static int agrees(const call *c, manner how, function which)
{
    const head *h = &c->head;
    void *given[TABLES];
    give(c, how, given);
    int same = which == CHECK ? check_agrees(h, given) : refine_agrees(h, given);
    same = how == SHORT_WORK || (same && tables_agree(c, how, which, given));
    free_all(given);
    return same;
}

static int all_agree(const call *c)
{
    return sizes_agree(c) && agrees(c, AS_DUMPED, CHECK) && agrees(c, UNINITIALISED, CHECK) && agrees(c, AS_DUMPED, REFINE) && agrees(c, UNINITIALISED, REFINE);
}

int main(int count, char **arguments)
{
    FILE *file = dumped(count, arguments);
    int is_short = wants_short(count, arguments), failed = 0;
    unsigned long calls = 0;
    call c;
    for (; !failed && read_call(file, &c); calls++) {
        failed = is_short ? !agrees(&c, SHORT_WORK, REFINE) : !all_agree(&c);
        free_all(c.before);
        free_all(c.after);
    }
    fclose(file);
    tell(calls, "calls", failed, is_short);
    return failed;
}
