/* Refines a panel of two by two faces and prints the refined net: panel [ROUNDS], by default 1. */
#include <gedrovit.h>

#include <inttypes.h>
#include <stdio.h>
#include <stdlib.h>

#define LENGTH(table) (sizeof(table) / sizeof *(table))

/* Nine vertices with the centre raised. The boundary has a corner at each of the four outer ones. */
static const int32_t vertices[] = {
    0,  0, 0,   16,  0,  0,   32,  0, 0,
    0, 16, 0,   16, 16, 16,   32, 16, 0,
    0, 32, 0,   16, 32,  0,   32, 32, 0,
};
static const uint8_t marks[] = {1, 0, 1, 0, 0, 0, 1, 0, 1};
static const uint32_t faces[] = {0, 1, 4, 3, 1, 2, 5, 4, 3, 4, 7, 6, 4, 5, 8, 7};

static void *allocate(uint64_t length, size_t element)
{
    void *table = calloc(length, element);
    if (table == NULL && length > 0) {
        perror("panel");
        exit(EXIT_FAILURE);
    }
    return table;
}

static void release(gedrovit_tables t)
{
    free(t.vertices);
    free(t.faces);
    free(t.marks);
    free(t.work);
}

static int refused(uint32_t reason, uint64_t place)
{
    fprintf(stderr, "panel: refusal %" PRIu32 ", place %" PRIu64 ": %s\n", reason, place, gedrovit_reason_text(reason));
    return EXIT_FAILURE;
}

static void print(gedrovit_report report, gedrovit_tables t)
{
    printf("vertices faces\n%" PRIu64 " %" PRIu64 "\nx y z corner\n", report.vertices, report.faces);
    for (uint64_t v = 0; v < report.vertices; v++) {
        const int32_t *p = t.vertices + 3 * v;
        printf("%" PRId32 " %" PRId32 " %" PRId32 " %u\n", p[0], p[1], p[2], (unsigned)t.marks[v]);
    }
    printf("a b c d\n");
    for (uint64_t f = 0; f < report.faces; f++) {
        const uint32_t *c = t.faces + 4 * f;
        printf("%" PRIu32 " %" PRIu32 " %" PRIu32 " %" PRIu32 "\n", c[0], c[1], c[2], c[3]);
    }
}

static int refine(uint32_t rounds)
{
    const gedrovit_net net = gedrovit_net_of(vertices, LENGTH(vertices), faces, LENGTH(faces), marks, LENGTH(marks));
    const gedrovit_sizes n = gedrovit_sizes_for_net(rounds, &net);
    if (n.reason != GEDROVIT_ACCEPTED)
        return refused(n.reason, 0);

    const gedrovit_tables t = gedrovit_tables_of(
        allocate(n.out_vertices, sizeof(int32_t)), n.out_vertices, allocate(n.out_faces, sizeof(uint32_t)), n.out_faces,
        allocate(n.out_marks, sizeof(uint8_t)), n.out_marks, allocate(n.work, sizeof(uint32_t)), n.work);
    gedrovit_tally tally = {0};
    const gedrovit_report report = gedrovit_refine_net(&tally, rounds, &net, &t);
    if (report.reason == GEDROVIT_ACCEPTED)
        print(report, t);
    release(t);
    return report.reason == GEDROVIT_ACCEPTED ? EXIT_SUCCESS : refused(report.reason, report.place);
}

static uint32_t number(const char *word)
{
    const unsigned long n = strtoul(word, NULL, 10);
    return n < UINT32_MAX ? (uint32_t)n : UINT32_MAX;
}

int main(int count, char **words)
{
    return refine(count > 1 ? number(words[1]) : 1);
}
