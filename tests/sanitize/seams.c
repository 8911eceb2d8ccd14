/* Makes dumped seam tests, with every table a heap block of its exact size, and compares answers and tables with those dumped:
       seams FILE          each test twice, with the work table as dumped and uninitialised; equal nets also as one net in the same memory
       seams FILE short    each test once, with a work table one entry shorter than told; nothing is compared
   The form of FILE is in tests/differential/src/dump.rs. */
#include "blocks.h"

enum { VERTICES, FACES, SIDES, MARKS, TABLES };
static const size_t entry[] = {4, 4, 1, 1};

typedef struct { uint64_t length[TABLES], tension, start; } side;
typedef struct { side side[2]; uint64_t work, reason, place, edges; } head;
typedef struct { head head; void *net[2][TABLES], *before, *after; } test;

static size_t bytes_of(const head *h, int net, int table) { return h->side[net].length[table] * entry[table]; }

static void *read_block(FILE *file, size_t bytes)
{
    void *memory = block(bytes);
    read_exactly(file, memory, bytes);
    return memory;
}

static int read_test(FILE *file, test *t)
{
    if (fread(&t->head, sizeof t->head, 1, file) != 1)
        return 0;
    for (int net = 0; net < 2; net++)
        for (int table = 0; table < TABLES; table++)
            t->net[net][table] = read_block(file, bytes_of(&t->head, net, table));
    t->before = read_block(file, 4 * t->head.work);
    t->after = read_block(file, 4 * t->head.work);
    return 1;
}

static void free_nets(void *net[2][TABLES])
{
    for (int table = 0; table < TABLES; table++) {
        free(net[0][table]);
        if (net[1][table] != net[0][table])
            free(net[1][table]);
    }
}

/* copies of the tables; of equal nets one copy, if wanted */
static void give(const test *t, int is_one, void *net[2][TABLES])
{
    for (int table = 0; table < TABLES; table++)
        for (int n = 0; n < 2; n++) {
            size_t bytes = bytes_of(&t->head, n, table);
            net[n][table] = n == 1 && is_one ? net[0][table] : block(bytes);
            memcpy(net[n][table], t->net[n][table], bytes);
        }
}

static int nets_agree(const test *t, void *net[2][TABLES])
{
    for (int n = 0; n < 2; n++)
        for (int table = 0; table < TABLES; table++)
            if (memcmp(net[n][table], t->net[n][table], bytes_of(&t->head, n, table)) != 0)
                return 0;
    return 1;
}

static int is_one_net(const test *t)
{
    for (int table = 0; table < TABLES; table++) {
        size_t bytes = bytes_of(&t->head, 0, table);
        if (bytes != bytes_of(&t->head, 1, table) || memcmp(t->net[0][table], t->net[1][table], bytes) != 0)
            return 0;
    }
    return 1;
}

/* numbers at the front of the work table that the call has cleared */
static size_t cleared(const test *t)
{
    const uint32_t *after = t->after;
    size_t count = 0;
    while (count < t->head.work && after[count] == 0)
        count++;
    return count;
}

static gedrovit_seam_report share_seam(const head *h, void *net[2][TABLES], uint32_t *work)
{
    const side *a = &h->side[0], *b = &h->side[1];
    return gedrovit_share_seam(net[0][VERTICES], a->length[VERTICES], net[0][FACES], a->length[FACES], net[0][SIDES], a->length[SIDES], net[0][MARKS],
                               a->length[MARKS], (uint32_t)a->tension, (uint32_t)a->start, net[1][VERTICES], b->length[VERTICES], net[1][FACES],
                               b->length[FACES], net[1][SIDES], b->length[SIDES], net[1][MARKS], b->length[MARKS], (uint32_t)b->tension,
                               (uint32_t)b->start, work, h->work);
}

static int agrees(const test *t, manner how, int is_one)
{
    const head *h = &t->head;
    void *net[2][TABLES];
    give(t, is_one, net);
    size_t bytes = 4 * h->work, missing = how == SHORT_WORK && bytes ? 4 : 0;
    uint32_t *work = block(bytes - missing);
    if (how != UNINITIALISED)
        memcpy(work, t->before, bytes - missing);
    const gedrovit_seam_report r = share_seam(h, net, work);
    int same = 1;
    if (how != SHORT_WORK)
        same = r.reason == h->reason && r.place == h->place && r.edges == h->edges && nets_agree(t, net) &&
               memcmp(work, t->after, how == UNINITIALISED ? 4 * cleared(t) : bytes) == 0;
    free(work);
    free_nets(net);
    return same;
}

static int all_agree(const test *t)
{
    return agrees(t, AS_DUMPED, 0) && agrees(t, UNINITIALISED, 0) && (!is_one_net(t) || agrees(t, AS_DUMPED, 1));
}

int main(int count, char **arguments)
{
    FILE *file = dumped(count, arguments);
    int is_short = wants_short(count, arguments), failed = 0;
    unsigned long tests = 0;
    test t;
    for (; !failed && read_test(file, &t); tests++) {
        failed = is_short ? !agrees(&t, SHORT_WORK, 0) : !all_agree(&t);
        free_nets(t.net);
        free(t.before);
        free(t.after);
    }
    fclose(file);
    tell(tests, "seam tests", failed, is_short);
    return failed;
}
