/*
 * Refines one seat cushion at every tension, or at one, and tells how far it swings out beyond what was drawn, in counts:
 * tension [TENSION], by default each from 4 to 0.
 */
#include <gedrovit.h>

#include <inttypes.h>
#include <stdio.h>
#include <stdlib.h>

#define LENGTH(table) (sizeof(table) / sizeof *(table))

enum { ROUNDS = 4, COLUMNS = 6, ROWS = 5, ACROSS = COLUMNS + 1, SIDE = 8000, HEIGHT = 6000 };

static int32_t vertices[3 * ACROSS * (ROWS + 1)];
static uint32_t faces[4 * COLUMNS * ROWS];
/* No corner marks: the outline is one closed curve, which rounds off its corners. */
static uint8_t marks[ACROSS * (ROWS + 1)];

/* A rectangle with its outline at height 0 and all vertices inside at one height. */
static void draw(void)
{
    for (uint32_t v = 0; v < LENGTH(marks); v++) {
        const int32_t x = (int32_t)(v % ACROSS), y = (int32_t)(v / ACROSS);
        vertices[3 * v] = SIDE * x;
        vertices[3 * v + 1] = SIDE * y;
        vertices[3 * v + 2] = x > 0 && x < COLUMNS && y > 0 && y < ROWS ? HEIGHT : 0;
    }
    for (uint32_t f = 0; f < COLUMNS * ROWS; f++) {
        const uint32_t v = f / COLUMNS * ACROSS + f % COLUMNS;
        const uint32_t corners[] = {v, v + 1, v + ACROSS + 1, v + ACROSS};
        for (uint32_t i = 0; i < 4; i++)
            faces[4 * f + i] = corners[i];
    }
}

static int refused(uint32_t reason, uint64_t place)
{
    fprintf(stderr, "tension: refusal %" PRIu32 ", place %" PRIu64 ": %s\n", reason, place, gedrovit_reason_text(reason));
    return EXIT_FAILURE;
}

/* How far a value lies outside 0 to most. */
static int32_t outside(int32_t value, int32_t most)
{
    return value < 0 ? -value : value > most ? value - most : 0;
}

static int32_t larger(int32_t a, int32_t b)
{
    return a > b ? a : b;
}

static void print(uint32_t tension, gedrovit_report report, const gedrovit_tables *t)
{
    int32_t sideways = 0, above = 0;
    for (const int32_t *p = t->vertices; p < t->vertices + 3 * report.vertices; p += 3) {
        sideways = larger(sideways, larger(outside(p[0], SIDE * COLUMNS), outside(p[1], SIDE * ROWS)));
        above = larger(above, p[2] - HEIGHT);
    }
    printf("tension %" PRIu32 ": %" PRIu64 " vertices, %" PRId32 " beyond the drawn outline, %" PRId32 " above the drawn top\n",
           tension, report.vertices, sideways, above);
}

/* From one tension down to another. The lengths do not depend on it, so one set of tables serves all calls. */
static int refine(uint32_t from, uint32_t to)
{
    gedrovit_net net = gedrovit_net_of(vertices, LENGTH(vertices), faces, LENGTH(faces), marks, LENGTH(marks));
    const gedrovit_sizes n = gedrovit_sizes_for_net(ROUNDS, &net);
    if (n.reason != GEDROVIT_ACCEPTED)
        return refused(n.reason, 0);

    const gedrovit_tables t = gedrovit_tables_of(
        malloc(n.out_vertices * sizeof(int32_t)), n.out_vertices, malloc(n.out_faces * sizeof(uint32_t)), n.out_faces,
        malloc(n.out_marks), n.out_marks, malloc(n.work * sizeof(uint32_t)), n.work);
    if (t.vertices == NULL || t.faces == NULL || t.marks == NULL || t.work == NULL) {
        perror("tension");
        exit(EXIT_FAILURE);
    }
    gedrovit_tally tally = {0};
    gedrovit_report report;
    net.tension = from;
    while ((report = gedrovit_refine_net(&tally, ROUNDS, &net, &t)).reason == GEDROVIT_ACCEPTED) {
        print(net.tension, report, &t);
        if (net.tension == to)
            break;
        net.tension--;
    }
    free(t.vertices);
    free(t.faces);
    free(t.marks);
    free(t.work);
    return report.reason == GEDROVIT_ACCEPTED ? EXIT_SUCCESS : refused(report.reason, report.place);
}

int main(int count, char **words)
{
    const uint32_t tension = count > 1 ? (uint32_t)strtoul(words[1], NULL, 10) : 0;
    draw();
    return count > 1 ? refine(tension, tension) : refine(GEDROVIT_MAX_TENSION, 0);
}
