/* The nets of the benchmark and the rows that are measured. */
#ifndef BENCH_NETS_H
#define BENCH_NETS_H

#include <stddef.h>
#include <stdint.h>
#include <string.h>

enum { MOST_VERTICES = 8192, MOST_FACES = 4096, MOST_REFINED = 262144, MOST_TENSION = 4 };

/* With side counts, the corners of the faces follow each other; without them, each face has four. */
struct bench_net {
    const char *name;
    size_t vertex_count, corner_count, side_count;
    int32_t vertices[3 * MOST_VERTICES];
    uint32_t corners[4 * MOST_FACES];
    uint8_t marks[MOST_VERTICES], sides[MOST_FACES];
};

static inline void add_vertex(struct bench_net *net, int32_t x, int32_t y, int32_t z)
{
    int32_t *v = net->vertices + 3 * net->vertex_count++;
    v[0] = x, v[1] = y, v[2] = z;
}

static inline void add_face(struct bench_net *net, uint32_t a, uint32_t b, uint32_t c, uint32_t d)
{
    uint32_t *f = net->corners + net->corner_count;
    f[0] = a, f[1] = b, f[2] = c, f[3] = d;
    net->corner_count += 4;
}

static inline void add_triangle(struct bench_net *net, uint32_t a, uint32_t b, uint32_t c)
{
    uint32_t *f = net->corners + net->corner_count;
    f[0] = a, f[1] = b, f[2] = c;
    net->corner_count += 3;
    net->sides[net->side_count++] = 3;
}

static inline void start_net(struct bench_net *net, const char *name)
{
    memset(net, 0, sizeof *net);
    net->name = name;
}

/* The quadrilaterals where refining begins. */
static inline size_t face_count(const struct bench_net *net)
{
    return net->side_count > 0 ? net->corner_count : net->corner_count / 4;
}

static inline int32_t little_height(uint32_t x, uint32_t y) { return (int32_t)((x * 7919 + y * 104729) % 977); }

/* An open grid with a little height, its four corners marked. */
static inline void add_grid(struct bench_net *net, uint32_t columns, uint32_t rows, uint32_t spacing)
{
    for (uint32_t y = 0; y <= rows; y++)
        for (uint32_t x = 0; x <= columns; x++)
            add_vertex(net, (int32_t)(spacing * x), (int32_t)(spacing * y), little_height(x, y));
    for (uint32_t y = 0; y < rows; y++)
        for (uint32_t x = 0; x < columns; x++) {
            uint32_t i = y * (columns + 1) + x;
            add_face(net, i, i + 1, i + columns + 2, i + columns + 1);
        }
    size_t last = net->vertex_count - 1;
    net->marks[0] = net->marks[columns] = net->marks[last - columns] = net->marks[last] = 1;
}

static inline void add_cube(struct bench_net *net)
{
    for (uint32_t i = 0; i < 8; i++)
        add_vertex(net, i & 1 ? 100000 : -100000, i & 2 ? 100000 : -100000, i & 4 ? 100000 : -100000);
    add_face(net, 0, 2, 3, 1), add_face(net, 4, 5, 7, 6), add_face(net, 0, 1, 5, 4);
    add_face(net, 2, 6, 7, 3), add_face(net, 0, 4, 6, 2), add_face(net, 1, 3, 7, 5);
}

/*
 * Pieces of 16 vertices u_0 to u_7, w_0 to w_7, each vertex in a ring of eight of the 32 faces. Open, a piece lacks a closed row of eight faces that passes
 * every vertex once: each vertex is on the boundary, in a fan of six of the 24 faces.
 */
static inline void add_pieces(struct bench_net *net, uint32_t pieces, int open)
{
    for (uint32_t v = 0; v < 16 * pieces; v++)
        add_vertex(net, (int32_t)(v * 7919 % 20011), (int32_t)(v * 104729 % 20021), (int32_t)(v * 48271 % 19997));
    for (uint32_t u = 0; u < 16 * pieces; u += 16)
        for (uint32_t i = 0; i < 8; i += 2)
            for (uint32_t j = 0, w = u + 8; j < 8; j++)
                if (!open || i != (j + 1) / 2 * 2 % 8)
                    add_face(net, u + i, w + j, u + (j % 2 == 0 ? i + 1 : i + 7) % 8, w + (j + 7) % 8);
}

/* A trapezoid of a triangular lattice with a little height: rows of 5, 7, .. 73 triangles between rows of 3, 4, .. 38 vertices. */
static inline void add_trapezoid(struct bench_net *net)
{
    enum { FIRST = 3, ROWS = 35 };
    for (uint32_t r = 0; r <= ROWS; r++)
        for (uint32_t i = 0; i < FIRST + r; i++)
            add_vertex(net, (int32_t)(1000 * i) - (int32_t)(500 * r), (int32_t)(866 * r), little_height(i, r));
    for (uint32_t r = 0, row = 0; r < ROWS; r++) {
        uint32_t below = row + FIRST + r;
        for (uint32_t i = 0; row + i < below; i++) {
            add_triangle(net, row + i, below + i, below + i + 1);
            if (row + i + 1 < below)
                add_triangle(net, row + i, below + i + 1, row + i + 1);
        }
        row = below;
    }
}

/* All faces round two vertices, which are opposite corners of each. In a ring each face shares its other corners with the next and the one before. */
static inline void add_two_hubs(struct bench_net *net, uint32_t faces, int ring)
{
    net->vertex_count = 2 + (ring ? faces : 2 * faces);
    for (uint32_t i = 0; i < faces; i++)
        ring ? add_face(net, 0, 2 + i, 1, 2 + (i + 1) % faces) : add_face(net, 0, 2 + 2 * i, 1, 3 + 2 * i);
}

/* All faces round one vertex, as an open fan. */
static inline void add_fan(struct bench_net *net, uint32_t faces)
{
    net->vertex_count = 2 * faces + 2;
    for (uint32_t i = 0; i < faces; i++)
        add_face(net, 0, 2 * i + 1, 2 * i + 2, 2 * i + 3);
}

/* Numbers below a bound, always the same. */
static inline uint32_t next_number(uint32_t *state, uint32_t bound)
{
    *state = *state * 1664525u + 1013904223u;
    return (*state >> 16) % bound;
}

/* As many faces as there may be, each with one of 16 vertices at its first corner, one of 16 others at its second, and so on. */
static inline void add_random_faces(struct bench_net *net)
{
    uint32_t state = 1;
    net->vertex_count = 64, net->corner_count = 4 * MOST_FACES;
    for (uint32_t i = 0; i < 4 * MOST_FACES; i++)
        net->corners[i] = next_number(&state, 16) + 16 * (i % 4);
}

/* Gives the vertices other numbers; the faces stay in their order. */
static inline void shuffle_vertices(struct bench_net *net)
{
    static struct bench_net old;
    static uint32_t numbers[MOST_VERTICES];
    uint32_t state = 1;
    old = *net;
    for (uint32_t v = 0; v < net->vertex_count; v++) {
        uint32_t other = next_number(&state, v + 1);
        numbers[v] = numbers[other], numbers[other] = v;
    }
    for (uint32_t v = 0; v < net->vertex_count; v++) {
        memcpy(net->vertices + 3 * numbers[v], old.vertices + 3 * v, 3 * sizeof(int32_t));
        net->marks[numbers[v]] = old.marks[v];
    }
    for (size_t i = 0; i < net->corner_count; i++)
        net->corners[i] = numbers[old.corners[i]];
}

/* Those that are refined, then those that are only checked. */
enum bench_kind {
    GRID_8, GRID_64, CUBE, RINGS, STRIP, FANS, TRIANGLES, REFINED_COUNT,
    GRID_SHUFFLED = REFINED_COUNT, TWO_HUBS, HUB_RING, HUB_FAN, RANDOM_FACES, KIND_COUNT
};

static inline void make_net(struct bench_net *net, enum bench_kind kind)
{
    switch (kind) {
    case GRID_8: start_net(net, "8 x 8 open grid"), add_grid(net, 8, 8, 1000); break;
    case GRID_64: start_net(net, "64 x 64 open grid"), add_grid(net, 64, 64, 1000); break;
    case CUBE: start_net(net, "cube"), add_cube(net); break;
    case RINGS: start_net(net, "rings of eight"), add_pieces(net, 128, 0); break;
    case STRIP: start_net(net, "strip"), add_grid(net, 4095, 1, 250); break;
    case FANS: start_net(net, "fans of six"), add_pieces(net, 170, 1); break;
    case TRIANGLES: start_net(net, "triangles"), add_trapezoid(net); break;
    case GRID_SHUFFLED: start_net(net, "64 x 63 grid, shuffled"), add_grid(net, 64, 63, 1000), shuffle_vertices(net); break;
    case TWO_HUBS: start_net(net, "two hubs in all faces"), add_two_hubs(net, 4090, 0); break;
    case HUB_RING: start_net(net, "ring round two hubs"), add_two_hubs(net, MOST_FACES, 1); break;
    case HUB_FAN: start_net(net, "fan round a hub"), add_fan(net, MOST_FACES - 1); break;
    case RANDOM_FACES: start_net(net, "random corners"), add_random_faces(net); break;
    case KIND_COUNT: break;
    }
}

/* What is measured; with letters where that is 1. */
struct bench_row {
    enum bench_kind kind;
    uint32_t rounds, tension;
    int letters;
};

enum { ROW_COUNT = 27, CHECK_ROW_COUNT = 14, SEAM_ROW_COUNT = 4 };

static inline struct bench_row refine_row(int which)
{
    static const struct bench_row rows[ROW_COUNT] = {
        {GRID_8, 0, 4, 0},    {GRID_8, 1, 4, 0},    {GRID_8, 6, 4, 0},    {GRID_8, 6, 4, 1},    {GRID_8, 6, 2, 0},    {GRID_64, 1, 4, 0},
        {GRID_64, 3, 4, 0},   {GRID_64, 3, 4, 1},   {GRID_64, 3, 2, 0},   {CUBE, 0, 4, 0},      {CUBE, 1, 4, 0},      {CUBE, 6, 4, 0},
        {CUBE, 6, 2, 0},      {RINGS, 1, 4, 0},     {RINGS, 3, 4, 0},     {RINGS, 3, 4, 1},     {RINGS, 3, 2, 0},     {STRIP, 1, 4, 0},
        {STRIP, 3, 4, 0},     {FANS, 1, 4, 0},      {FANS, 3, 4, 0},      {TRIANGLES, 0, 4, 0}, {TRIANGLES, 1, 4, 0}, {TRIANGLES, 1, 2, 0},
        {TRIANGLES, 3, 4, 0}, {TRIANGLES, 3, 4, 1}, {TRIANGLES, 3, 2, 0}};
    return rows[which];
}

static inline struct bench_row check_row(int which)
{
    static const struct bench_row rows[CHECK_ROW_COUNT] = {
        {GRID_8, 0, 4, 0}, {GRID_8, 6, 4, 0},    {GRID_64, 0, 4, 0},       {GRID_64, 3, 4, 0},  {CUBE, 0, 4, 0},     {RINGS, 0, 4, 0},   {STRIP, 0, 4, 0},
        {FANS, 0, 4, 0},   {TRIANGLES, 0, 4, 0}, {GRID_SHUFFLED, 0, 4, 0}, {TWO_HUBS, 0, 4, 0}, {HUB_RING, 0, 4, 0}, {HUB_FAN, 0, 4, 0}, {RANDOM_FACES, 0, 4, 0}};
    return rows[which];
}

static inline struct bench_row seam_row(int which)
{
    static const struct bench_row rows[SEAM_ROW_COUNT] = {{GRID_8, 0, 4, 0}, {GRID_64, 0, 4, 0}, {STRIP, 0, 4, 0}, {TRIANGLES, 0, 4, 0}};
    return rows[which];
}

#endif
