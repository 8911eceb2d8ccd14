/* A program as written for version 0.5.1: refines three nets and prints their points, which are to stay those of 0.5.1. */
#include <gedrovit.h>

#include <inttypes.h>
#include <stdio.h>
#include <stdlib.h>

#define LENGTH(table) (sizeof(table) / sizeof *(table))

/* Three by three faces with uneven heights and four corners. */
static const int32_t seat_vertices[] = {
    0,   0, 3,   100,   0, 20,   200,   0, -7,   300,   0, 0,
    0, 100, 9,   110,  95, 60,   190, 105, 81,   300, 100, 5,
    0, 200, 0,    90, 205, 77,   215, 200, 50,   300, 200, 8,
    0, 300, 1,   100, 300, 13,   200, 300,  4,   300, 300, 2,
};
static const uint32_t seat_faces[] = {
    0, 1, 5, 4,   1, 2, 6, 5,    2,  3,  7,  6,   4,  5,  9,  8,   5,  6, 10, 9,
    6, 7, 11, 10, 8, 9, 13, 12,  9, 10, 14, 13,  10, 11, 15, 14,
};
static const uint8_t seat_marks[] = {1, 0, 0, 1, 0, 0, 0, 0, 0, 0, 0, 0, 1, 0, 0, 1};

/* Closed, with rings of three. */
static const int32_t cube_vertices[] = {
    -540, -540, -540,   540, -540, -540,   540, 540, -540,   -540, 540, -540,
    -540, -540,  540,   540, -540,  540,   540, 540,  540,   -540, 540,  540,
};
static const uint32_t cube_faces[] = {0, 3, 2, 1, 4, 5, 6, 7, 0, 1, 5, 4, 1, 2, 6, 5, 2, 3, 7, 6, 3, 0, 4, 7};
static const uint8_t cube_marks[8] = {0};

/* A triangle, a pentagon and a triangle in a row. */
static const int32_t row_vertices[] = {0, 20, 0, 24, 0, 0, 24, 40, 0, 48, 50, 9, 72, 40, 0, 72, 0, 0, 96, 20, 0};
static const uint32_t row_faces[] = {0, 1, 2, 1, 5, 4, 3, 2, 5, 6, 4};
static const uint8_t row_marks[] = {1, 0, 0, 0, 0, 0, 1};
static const uint8_t row_sides[] = {3, 5, 3};

static gedrovit_tally tally = {0};

static void print(const char *name, uint32_t rounds, gedrovit_net net)
{
    const gedrovit_sizes n = gedrovit_sizes_for_net(rounds, &net);
    const gedrovit_tables t = gedrovit_tables_of(
        malloc(n.out_vertices * sizeof(int32_t)), n.out_vertices, malloc(n.out_faces * sizeof(uint32_t)), n.out_faces,
        malloc(n.out_marks), n.out_marks, malloc(n.work * sizeof(uint32_t)), n.work);
    if (t.vertices == NULL || t.faces == NULL || t.marks == NULL || t.work == NULL)
        exit(EXIT_FAILURE);
    const gedrovit_finding finding = gedrovit_check_net(rounds, &net, &t);
    const gedrovit_report report = gedrovit_refine_net(&tally, rounds, &net, &t);
    if (finding.reason != GEDROVIT_ACCEPTED || report.reason != GEDROVIT_ACCEPTED)
        exit(EXIT_FAILURE);
    printf("%s, rounds %" PRIu32 ", vertices %" PRIu64 "\n", name, rounds, report.vertices);
    for (const int32_t *p = t.vertices; p < t.vertices + 3 * report.vertices; p += 3)
        printf("%" PRId32 " %" PRId32 " %" PRId32 "\n", p[0], p[1], p[2]);
    free(t.vertices);
    free(t.faces);
    free(t.marks);
    free(t.work);
}

int main(void)
{
    print("seat", 2, gedrovit_net_of(seat_vertices, LENGTH(seat_vertices), seat_faces, LENGTH(seat_faces), seat_marks, LENGTH(seat_marks)));
    print("cube", 1, gedrovit_net_of(cube_vertices, LENGTH(cube_vertices), cube_faces, LENGTH(cube_faces), cube_marks, LENGTH(cube_marks)));
    gedrovit_net row = gedrovit_net_of(row_vertices, LENGTH(row_vertices), row_faces, LENGTH(row_faces), row_marks, LENGTH(row_marks));
    row.sides = row_sides;
    row.sides_length = LENGTH(row_sides);
    print("row", 1, row);
    printf("new points %" PRIu64 "\n", tally.points);
    return EXIT_SUCCESS;
}
