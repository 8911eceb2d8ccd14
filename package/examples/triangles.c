/*
 * Refines a panel of triangles and a pentagon and writes it as Wavefront OBJ, after a comment with the number of new points:
 * triangles [ROUNDS], by default 0, which gives the drawn faces split into quadrilaterals.
 */
#include <gedrovit.h>

#include <inttypes.h>
#include <stdio.h>
#include <stdlib.h>

#define LENGTH(table) (sizeof(table) / sizeof *(table))

/* A triangle, a pentagon and a triangle in a row, with the tip of the pentagon raised. The boundary has corners at both ends of the row. */
static const int32_t vertices[] = {
    0, 20, 0,   24,  0, 0,   24, 40, 0,   48, 50, 9,   72, 40, 0,   72, 0, 0,   96, 20, 0,
};
static const uint8_t marks[] = {1, 0, 0, 0, 0, 0, 1};
static const uint32_t faces[] = {0, 1, 2, 1, 5, 4, 3, 2, 5, 6, 4};
static const uint8_t sides[] = {3, 5, 3};

static int refused(uint32_t reason, uint64_t place)
{
    fprintf(stderr, "triangles: refusal %" PRIu32 ", place %" PRIu64 ": %s\n", reason, place, gedrovit_reason_text(reason));
    return EXIT_FAILURE;
}

/* OBJ counts vertices from 1. */
static void print(gedrovit_tally tally, gedrovit_report report, const gedrovit_tables *t)
{
    printf("# %" PRIu64 " new points\n", tally.points);
    for (const int32_t *p = t->vertices; p < t->vertices + 3 * report.vertices; p += 3)
        printf("v %" PRId32 " %" PRId32 " %" PRId32 "\n", p[0], p[1], p[2]);
    for (const uint32_t *c = t->faces; c < t->faces + 4 * report.faces; c += 4)
        printf("f %" PRIu32 " %" PRIu32 " %" PRIu32 " %" PRIu32 "\n", c[0] + 1, c[1] + 1, c[2] + 1, c[3] + 1);
}

static int refine(uint32_t rounds)
{
    gedrovit_net net = gedrovit_net_of(vertices, LENGTH(vertices), faces, LENGTH(faces), marks, LENGTH(marks));
    net.sides = sides;
    net.sides_length = LENGTH(sides);
    const gedrovit_sizes n = gedrovit_sizes_for_net(rounds, &net);
    if (n.reason != GEDROVIT_ACCEPTED)
        return refused(n.reason, 0);

    const gedrovit_tables t = gedrovit_tables_of(
        malloc(n.out_vertices * sizeof(int32_t)), n.out_vertices, malloc(n.out_faces * sizeof(uint32_t)), n.out_faces,
        malloc(n.out_marks), n.out_marks, malloc(n.work * sizeof(uint32_t)), n.work);
    if (t.vertices == NULL || t.faces == NULL || t.marks == NULL || t.work == NULL) {
        perror("triangles");
        exit(EXIT_FAILURE);
    }
    gedrovit_tally tally = {0};
    const gedrovit_report report = gedrovit_refine_net(&tally, rounds, &net, &t);
    if (report.reason == GEDROVIT_ACCEPTED)
        print(tally, report, &t);
    free(t.vertices);
    free(t.faces);
    free(t.marks);
    free(t.work);
    return report.reason == GEDROVIT_ACCEPTED ? EXIT_SUCCESS : refused(report.reason, report.place);
}

int main(int count, char **words)
{
    return refine(count > 1 ? (uint32_t)strtoul(words[1], NULL, 10) : 0);
}
