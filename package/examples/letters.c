/*
 * Refines a panel of five by three faces with a letter beside each point, and tells how many points were made in each way, or how one was:
 * letters [ROUNDS [VERTEX]], by default 1 round and all points.
 */
#include <gedrovit.h>

#include <inttypes.h>
#include <stdio.h>
#include <stdlib.h>

#define LENGTH(table) (sizeof(table) / sizeof *(table))

enum { COLUMNS = 5, ROWS = 3, ACROSS = COLUMNS + 1 };

static int32_t vertices[3 * ACROSS * (ROWS + 1)];
static uint32_t faces[4 * COLUMNS * ROWS];
/* The boundary has a corner at each of the four outer vertices, and at the second one: its first segment has one edge. */
static uint8_t marks[ACROSS * (ROWS + 1)] = {[0] = 1, [1] = 1, [COLUMNS] = 1, [ROWS * ACROSS] = 1, [ROWS * ACROSS + COLUMNS] = 1};

static void draw(void)
{
    for (uint32_t v = 0; v < LENGTH(marks); v++) {
        const int32_t x = (int32_t)(v % ACROSS), y = (int32_t)(v / ACROSS);
        vertices[3 * v] = 100 * x;
        vertices[3 * v + 1] = 100 * y;
        vertices[3 * v + 2] = 10 * x * (COLUMNS - x) * y * (ROWS - y);
    }
    for (uint32_t f = 0; f < COLUMNS * ROWS; f++) {
        const uint32_t v = f / COLUMNS * ACROSS + f % COLUMNS;
        const uint32_t corners[] = {v, v + 1, v + ACROSS + 1, v + ACROSS};
        for (uint32_t i = 0; i < 4; i++)
            faces[4 * f + i] = corners[i];
    }
}

static int refused(uint32_t reason, uint64_t place)
{
    fprintf(stderr, "letters: refusal %" PRIu32 ", place %" PRIu64 ": %s\n", reason, place, gedrovit_reason_text(reason));
    return EXIT_FAILURE;
}

static void print_all(const uint8_t *letters, uint64_t count)
{
    uint64_t made[UINT8_MAX + 1] = {0};
    for (uint64_t v = 0; v < count; v++)
        made[letters[v]]++;
    for (unsigned letter = 0; letter <= UINT8_MAX; letter++)
        if (made[letter] > 0)
            printf("%c %6" PRIu64 "  %s\n", (int)letter, made[letter], gedrovit_letter_text((uint8_t)letter));
}

static void print(const uint8_t *letters, uint64_t count, const char *word)
{
    const uint64_t vertex = word == NULL ? 0 : strtoul(word, NULL, 10);
    if (word == NULL)
        print_all(letters, count);
    else if (vertex < count)
        printf("vertex %" PRIu64 ", %c: %s\n", vertex, (int)letters[vertex], gedrovit_letter_text(letters[vertex]));
    else
        printf("no vertex %" PRIu64 ", for there are %" PRIu64 "\n", vertex, count);
}

static int refine(uint32_t rounds, const char *word)
{
    const gedrovit_net net = gedrovit_net_of(vertices, LENGTH(vertices), faces, LENGTH(faces), marks, LENGTH(marks));
    const gedrovit_sizes n = gedrovit_sizes_for_net(rounds, &net);
    if (n.reason != GEDROVIT_ACCEPTED)
        return refused(n.reason, 0);

    gedrovit_tables t = gedrovit_tables_of(
        malloc(n.out_vertices * sizeof(int32_t)), n.out_vertices, malloc(n.out_faces * sizeof(uint32_t)), n.out_faces,
        malloc(n.out_marks), n.out_marks, malloc(n.work * sizeof(uint32_t)), n.work);
    t.letters = malloc(n.out_marks);
    t.letters_length = n.out_marks;
    if (t.vertices == NULL || t.faces == NULL || t.marks == NULL || t.work == NULL || t.letters == NULL) {
        perror("letters");
        exit(EXIT_FAILURE);
    }
    gedrovit_tally tally = {0};
    const gedrovit_report report = gedrovit_refine_net(&tally, rounds, &net, &t);
    if (report.reason == GEDROVIT_ACCEPTED)
        print(t.letters, report.vertices, word);
    free(t.vertices);
    free(t.faces);
    free(t.marks);
    free(t.work);
    free(t.letters);
    return report.reason == GEDROVIT_ACCEPTED ? EXIT_SUCCESS : refused(report.reason, report.place);
}

int main(int count, char **words)
{
    draw();
    return refine(count > 1 ? (uint32_t)strtoul(words[1], NULL, 10) : 1, count > 2 ? words[2] : NULL);
}
