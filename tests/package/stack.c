/*
 * Measures the stack that calls use.
 *
 *   stack TEXT ..      refines the net of each text that can be read, without side counts and with counts of 4, without letters
 *                      and with them, at the default tension and at a lower one, and tests it for a seam with itself, on a
 *                      painted stack and prints the deepest use; the exit status is 1 if it is not below GEDROVIT_STACK_BYTES
 */
#define _POSIX_C_SOURCE 200809L /* pthread_attr_setstack */

#include <gedrovit.h>

#include <inttypes.h>
#include <pthread.h>
#include <stdio.h>
#include <stdlib.h>
#include <string.h>

enum { STACK = 1 << 18, PAINT = 0xA5 };

static int32_t vertices[3 * GEDROVIT_MAX_VERTICES], out_vertices[12 * GEDROVIT_MAX_REFINED_FACES];
static uint32_t faces[4 * GEDROVIT_MAX_FACES], out_faces[4 * GEDROVIT_MAX_REFINED_FACES], work[16 * GEDROVIT_MAX_REFINED_FACES];
static uint8_t marks[GEDROVIT_MAX_VERTICES], sides[GEDROVIT_MAX_FACES], out_marks[4 * GEDROVIT_MAX_REFINED_FACES], letters[4 * GEDROVIT_MAX_REFINED_FACES];
static uint32_t rounds, tension;
static size_t vertex_count, face_count, sides_length;
static bool with_letters;

static int read_vertices(FILE *text)
{
    for (size_t v = 0; v < vertex_count; v++)
        if (fscanf(text, "%" SCNd32 "%" SCNd32 "%" SCNd32 "%" SCNu8, &vertices[3 * v], &vertices[3 * v + 1], &vertices[3 * v + 2], &marks[v]) != 4)
            return 0;
    return 1;
}

static int read_faces(FILE *text)
{
    for (size_t c = 0; c < 4 * face_count; c++)
        if (fscanf(text, "%" SCNu32, &faces[c]) != 1)
            return 0;
    return 1;
}

/* 1 if the text was read; marks are asked for, and nothing is checked that a call checks. */
static int read_net(const char *path)
{
    int end = 0;
    FILE *text = fopen(path, "r");
    if (text == NULL) {
        perror(path);
        exit(EXIT_FAILURE);
    }
    int whole = fscanf(text, "vertices faces rounds %zu %zu %" SCNu32 " x y z corner%n", &vertex_count, &face_count, &rounds, &end) == 3
        && end > 0 && vertex_count <= GEDROVIT_MAX_VERTICES && face_count <= GEDROVIT_MAX_FACES && read_vertices(text)
        && fscanf(text, " a b c d") == 0 && read_faces(text);
    fclose(text);
    return whole;
}

/* The first marked vertex, or 0. */
static uint32_t first_marked(void)
{
    const uint8_t *mark = memchr(marks, 1, vertex_count);
    return mark == NULL ? 0 : (uint32_t)(mark - marks);
}

/* All calls if there is an argument, none if not. */
static void *calls(void *wanted)
{
    if (wanted == NULL)
        return NULL;
    gedrovit_check(rounds, vertices, 3 * vertex_count, faces, 4 * face_count, sides, sides_length, marks, vertex_count, tension,
                   sizeof out_vertices / 4, sizeof out_faces / 4, sizeof out_marks, with_letters, sizeof letters, work, sizeof work / 4);
    gedrovit_tally tally = {0};
    gedrovit_refine(&tally, rounds, vertices, 3 * vertex_count, faces, 4 * face_count, sides, sides_length, marks, vertex_count, tension,
                    out_vertices, sizeof out_vertices / 4, out_faces, sizeof out_faces / 4, out_marks, sizeof out_marks, with_letters, letters,
                    sizeof letters, work, sizeof work / 4);
    const uint32_t start = first_marked();
    gedrovit_share_seam(vertices, 3 * vertex_count, faces, 4 * face_count, sides, sides_length, marks, vertex_count, tension, start,
                        vertices, 3 * vertex_count, faces, 4 * face_count, sides, sides_length, marks, vertex_count, tension, start,
                        work, sizeof work / 4);
    return NULL;
}

/* How many bytes of a painted stack a thread changes. Volatile keeps memset out: the first call then counts the dynamic linker's binding of it too. */
static size_t depth(void *wanted)
{
    static _Alignas(64) volatile unsigned char stack[STACK];
    pthread_attr_t attributes;
    pthread_t thread;
    for (size_t i = 0; i < STACK; i++)
        stack[i] = PAINT;
    if (pthread_attr_init(&attributes) != 0 || pthread_attr_setstack(&attributes, (void *)stack, STACK) != 0
        || pthread_create(&thread, &attributes, calls, wanted) != 0 || pthread_join(thread, NULL) != 0)
        exit((fprintf(stderr, "stack: no thread\n"), EXIT_FAILURE));
    pthread_attr_destroy(&attributes);
    size_t low = 0;
    while (low < STACK && stack[low] == PAINT)
        low++;
    return STACK - low;
}

int main(int count, char **words)
{
    size_t nets = 0, deepest = 0;
    const size_t idle = depth(NULL);
    memset(sides, 4, sizeof sides);
    for (int i = 1; i < count; i++)
        if (read_net(words[i])) {
            for (int manner = 0; manner < 8; manner++) {
                sides_length = manner % 2 ? face_count : 0;
                with_letters = manner / 2 % 2;
                tension = manner / 4 ? 3 : GEDROVIT_DEFAULT_TENSION;
                const size_t used = depth(&nets) - idle;
                deepest = used > deepest ? used : deepest;
            }
            nets++;
        }
    printf("%zu nets, %zu bytes of stack\n", nets, deepest);
    return nets > 0 && deepest < GEDROVIT_STACK_BYTES ? EXIT_SUCCESS : EXIT_FAILURE;
}
