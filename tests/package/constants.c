/*
 * Holds the header's constants to what the archive does: each limit is tried at the limit and one above, and each reason
 * is got by a call. A line for each fault; the exit status is 1 if there is one.
 */
#include <gedrovit.h>

#include <inttypes.h>
#include <stdio.h>
#include <stdlib.h>
#include <string.h>

enum { VERTICES = 40000, FACES = 20000, REFINED = 300000, FILL = 0xA5 };

static int32_t vertices[3 * VERTICES], out_vertices[12 * REFINED];
static uint32_t faces[4 * FACES], out_faces[4 * REFINED], work[16 * REFINED];
static uint8_t marks[VERTICES], sides[VERTICES], out_marks[4 * REFINED], letters[4 * REFINED];
static size_t vertex_count, face_count;
static int faults;

static void clear(size_t v)
{
    vertex_count = v;
    face_count = 0;
    memset(vertices, 0, sizeof vertices);
    memset(marks, 0, sizeof marks);
}

static void face(size_t a, size_t b, size_t c, size_t d)
{
    const size_t corners[] = {a, b, c, d};
    for (int i = 0; i < 4; i++)
        faces[4 * face_count + i] = (uint32_t)corners[i];
    face_count++;
}

/* n faces side by side, closed to a ring; n is at least 3. */
static void band(size_t n)
{
    clear(2 * n);
    for (size_t i = 0; i < n; i++)
        face(i, (i + 1) % n, n + (i + 1) % n, n + i);
}

/* n faces round vertex 0, closed to a ring or an open fan. */
static void star(size_t n, int closed)
{
    const size_t spokes = closed ? n : n + 1;
    clear(1 + spokes + n);
    for (size_t i = 0; i < n; i++)
        face(0, 1 + i, 1 + spokes + i, 1 + (i + 1) % spokes);
}

static void square(void)
{
    clear(4);
    face(0, 1, 2, 3);
}

static void expect(const char *what, uint64_t given, uint64_t due)
{
    if (given == due)
        return;
    printf("%s: %" PRIu64 ", not %" PRIu64 "\n", what, given, due);
    faults++;
}

static gedrovit_net net(void)
{
    return gedrovit_net_of(vertices, 3 * vertex_count, faces, 4 * face_count, marks, vertex_count);
}

static gedrovit_tables tables(void)
{
    return gedrovit_tables_of(out_vertices, 12 * REFINED, out_faces, 4 * REFINED, out_marks, 4 * REFINED, work, 16 * REFINED);
}

/* The refining call on a net, tables and this record gives this answer, and the record is charged with the new points of an accepted one. */
static void answer_from(const char *what, uint64_t points, uint32_t rounds, gedrovit_net n, gedrovit_tables t, uint32_t reason, uint64_t place)
{
    gedrovit_tally tally = {points};
    const gedrovit_report report = gedrovit_refine_net(&tally, rounds, &n, &t);
    expect(what, report.reason, reason);
    expect(what, report.place, place);
    expect(what, tally.points, points + (reason == GEDROVIT_ACCEPTED ? report.vertices - n.marks_length : 0));
}

/* Both calls on a net and tables give this answer. */
static void answer_by(const char *what, uint32_t rounds, gedrovit_net n, gedrovit_tables t, uint32_t reason, uint64_t place)
{
    const gedrovit_finding finding = gedrovit_check_net(rounds, &n, &t);
    expect(what, finding.reason, reason);
    expect(what, finding.place, place);
    answer_from(what, 0, rounds, n, t, reason, place);
}

/* On the net that was drawn. */
static void answer(const char *what, uint32_t rounds, uint32_t reason, uint64_t place)
{
    answer_by(what, rounds, net(), tables(), reason, place);
}

static void limits_of_counts(void)
{
    square();
    answer("MAX_ROUNDS", GEDROVIT_MAX_ROUNDS, GEDROVIT_ACCEPTED, 0);
    answer("MAX_ROUNDS + 1", GEDROVIT_MAX_ROUNDS + 1, GEDROVIT_TOO_MANY_ROUNDS, 0);
    band(GEDROVIT_MAX_VERTICES / 2);
    expect("MAX_VERTICES is even", vertex_count, GEDROVIT_MAX_VERTICES);
    answer("MAX_VERTICES", 0, GEDROVIT_ACCEPTED, 0);
    vertex_count++;
    answer("MAX_VERTICES + 1", 0, GEDROVIT_NET_TOO_LARGE, 0);
    band(GEDROVIT_MAX_FACES);
    answer("MAX_FACES", 0, GEDROVIT_ACCEPTED, 0);
    vertex_count = 4;
    face(0, 1, 2, 3);
    answer("MAX_FACES + 1", 0, GEDROVIT_NET_TOO_LARGE, 0);
    const size_t per_face = (size_t)1 << 2 * GEDROVIT_MAX_ROUNDS;
    band(GEDROVIT_MAX_REFINED_FACES / per_face);
    expect("MAX_REFINED_FACES is a multiple", face_count * per_face, GEDROVIT_MAX_REFINED_FACES);
    answer("MAX_REFINED_FACES", GEDROVIT_MAX_ROUNDS, GEDROVIT_ACCEPTED, 0);
    band(GEDROVIT_MAX_REFINED_FACES / per_face + 1);
    answer("above MAX_REFINED_FACES", GEDROVIT_MAX_ROUNDS, GEDROVIT_NET_TOO_LARGE, 0);
    band(GEDROVIT_MAX_REFINED_FACES / 256 + 1);
    answer("just above MAX_REFINED_FACES", 4, GEDROVIT_NET_TOO_LARGE, 0);
}

static void limits_of_nets(void)
{
    for (int sign = -1; sign <= 1; sign += 2) {
        square();
        vertices[7] = sign * GEDROVIT_MAX_COORDINATE;
        answer("MAX_COORDINATE", 1, GEDROVIT_ACCEPTED, 0);
        vertices[7] = sign * (GEDROVIT_MAX_COORDINATE + 1);
        answer("MAX_COORDINATE + 1", 1, GEDROVIT_COORDINATE_OUT_OF_RANGE, 2);
    }
    star(GEDROVIT_MAX_RING, 1);
    answer("MAX_RING", 1, GEDROVIT_ACCEPTED, 0);
    star(GEDROVIT_MAX_RING + 1, 1);
    answer("MAX_RING + 1", 1, GEDROVIT_VALENCE_OUT_OF_RANGE, 0);
    star(GEDROVIT_MAX_FAN, 0);
    answer("MAX_FAN", 1, GEDROVIT_ACCEPTED, 0);
    star(GEDROVIT_MAX_FAN + 1, 0);
    answer("MAX_FAN + 1", 1, GEDROVIT_VALENCE_OUT_OF_RANGE, 0);
}

/* Faces of their own vertices: so many of n sides, and one of the rest, if any. */
static gedrovit_net loose(size_t n, size_t corners)
{
    clear(corners);
    for (size_t i = 0; i < corners; i++)
        faces[i] = (uint32_t)i;
    memset(sides, (int)n, corners / n);
    sides[corners / n] = (uint8_t)(corners % n);
    gedrovit_net drawn = gedrovit_net_of(vertices, 3 * corners, faces, corners, marks, corners);
    drawn.sides = sides;
    drawn.sides_length = corners / n + (corners % n > 0);
    return drawn;
}

static void limits_of_sides(void)
{
    for (size_t n = GEDROVIT_MIN_SIDES; n <= GEDROVIT_MAX_SIDES; n++)
        answer_by("sides", 1, loose(n, 2 * n), tables(), GEDROVIT_ACCEPTED, 0);
    answer_by("MIN_SIDES - 1", 1, loose(GEDROVIT_MIN_SIDES - 1, 12), tables(), GEDROVIT_INVALID_SIDE_COUNTS, 0);
    answer_by("MAX_SIDES + 1", 1, loose(GEDROVIT_MAX_SIDES + 1, 18), tables(), GEDROVIT_INVALID_SIDE_COUNTS, 0);
    answer_by("MAX_FACES corners", 0, loose(4, GEDROVIT_MAX_FACES), tables(), GEDROVIT_ACCEPTED, 0);
    answer_by("MAX_FACES + 1 corners", 0, loose(4, GEDROVIT_MAX_FACES + 3), tables(), GEDROVIT_NET_TOO_LARGE, 0);
}

/* A square refined once has 5 new points; 0 rounds have none. The check takes no record. */
static void limit_of_record(void)
{
    square();
    answer_from("up to MAX_TALLY", GEDROVIT_MAX_TALLY - 5, 1, net(), tables(), GEDROVIT_ACCEPTED, 0);
    answer_from("up to MAX_TALLY + 1", GEDROVIT_MAX_TALLY - 4, 1, net(), tables(), GEDROVIT_TALLY_LIMIT, 0);
    answer_from("at MAX_TALLY", GEDROVIT_MAX_TALLY, 0, net(), tables(), GEDROVIT_ACCEPTED, 0);
    answer_from("at MAX_TALLY + 1", GEDROVIT_MAX_TALLY + 1, 0, net(), tables(), GEDROVIT_TALLY_LIMIT, 0);
    answer_from("at the largest", UINT64_MAX, 1, net(), tables(), GEDROVIT_TALLY_LIMIT, 0);
    answer_from("at 5 below 0", UINT64_MAX - 4, 1, net(), tables(), GEDROVIT_TALLY_LIMIT, 0);
    marks[3] = 2;
    answer_from("6 before 15", UINT64_MAX, 1, net(), tables(), GEDROVIT_INVALID_MARK, 3);
}

static int is_filled(const void *table, size_t bytes)
{
    const unsigned char *first = table;
    for (size_t i = 0; i < bytes; i++)
        if (first[i] != FILL)
            return 0;
    return 1;
}

/* Above the limit nothing is touched, in no table that is lent; the sizes do not look at the tension. */
static void limit_of_tension(void)
{
    square();
    gedrovit_net n = net();
    for (n.tension = 0; n.tension <= GEDROVIT_MAX_TENSION; n.tension++)
        answer_by("up to MAX_TENSION", 1, n, tables(), GEDROVIT_ACCEPTED, 0);
    gedrovit_tables t = tables();
    t.letters = memset(letters, FILL, sizeof letters);
    t.letters_length = sizeof letters;
    memset(out_vertices, FILL, sizeof out_vertices);
    memset(out_faces, FILL, sizeof out_faces);
    memset(out_marks, FILL, sizeof out_marks);
    memset(work, FILL, sizeof work);
    for (uint32_t rounds = 0; rounds <= GEDROVIT_MAX_ROUNDS; rounds++)
        answer_by("MAX_TENSION + 1", rounds, n, t, GEDROVIT_TENSION_OUT_OF_RANGE, 0);
    expect("MAX_TENSION + 1 in the sizes", gedrovit_sizes_for_net(1, &n).reason, GEDROVIT_ACCEPTED);
    answer_from("16 before 15", UINT64_MAX, 1, n, t, GEDROVIT_TENSION_OUT_OF_RANGE, 0);
    n.tension = UINT32_MAX;
    answer_by("the largest tension", 1, n, t, GEDROVIT_TENSION_OUT_OF_RANGE, 0);
    gedrovit_net none = gedrovit_net_of(NULL, 0, NULL, 0, NULL, 0);
    none.tension = GEDROVIT_MAX_TENSION + 1;
    answer_by("no faces and MAX_TENSION + 1", 1, none, t, GEDROVIT_TENSION_OUT_OF_RANGE, 0);
    expect("a refused tension: outputs", is_filled(out_vertices, sizeof out_vertices) && is_filled(out_faces, sizeof out_faces)
           && is_filled(out_marks, sizeof out_marks) && is_filled(letters, sizeof letters), 1);
    expect("a refused tension: work", is_filled(work, sizeof work), 1);
}

/* The first in the order that the header states: each fault beside those that come later. */
static void order(void)
{
    const gedrovit_tables none = gedrovit_tables_of(NULL, 0, NULL, 0, NULL, 0, NULL, 0);
    gedrovit_net n = loose(GEDROVIT_MAX_SIDES + 1, 9000);
    n.tension = GEDROVIT_MAX_TENSION + 1;
    n.marks_length = 7;
    n.vertices_length--;
    answer_by("1 before 2", GEDROVIT_MAX_ROUNDS + 1, n, none, GEDROVIT_TOO_MANY_ROUNDS, 0);
    answer_by("2 by the vertices before 14", 1, n, none, GEDROVIT_INVALID_LENGTHS, 0);
    n.vertices_length++;
    answer_by("14 before 2 by the marks", 1, n, none, GEDROVIT_INVALID_SIDE_COUNTS, 0);
    expect("14 by the sizes", gedrovit_sizes_for_net(1, &n).reason, GEDROVIT_INVALID_SIDE_COUNTS);
    memset(sides, 4, n.sides_length = 9000 / 4);
    answer_by("2 by the marks before 3", 1, n, none, GEDROVIT_INVALID_LENGTHS, 0);
    n.marks_length = 9000;
    answer_by("3 before 4", 1, n, none, GEDROVIT_NET_TOO_LARGE, 0);
    n = loose(5, 10);
    n.tension = GEDROVIT_MAX_TENSION + 1;
    vertices[0] = GEDROVIT_MAX_COORDINATE + 1;
    answer_by("4 before 16", 1, n, none, GEDROVIT_TABLE_TOO_SHORT, 0);
    answer_by("16 before 5", 1, n, tables(), GEDROVIT_TENSION_OUT_OF_RANGE, 0);
    n.tension = GEDROVIT_DEFAULT_TENSION;
    answer_by("5 without 16", 1, n, tables(), GEDROVIT_COORDINATE_OUT_OF_RANGE, 0);
    answer_by("4 before 5", 1, n, none, GEDROVIT_TABLE_TOO_SHORT, 0);
    n.sides_length--;
    answer_by("counts below the corners", 1, n, none, GEDROVIT_INVALID_SIDE_COUNTS, 0);
    n.sides_length += 2;
    sides[2] = 5;
    answer_by("counts above the corners", 1, n, none, GEDROVIT_INVALID_SIDE_COUNTS, 0);
    n.sides_length = 0;
    answer_by("ten corners by fours", 1, n, none, GEDROVIT_INVALID_LENGTHS, 0);
}

static void lengths(void)
{
    square();
    const gedrovit_net n = net();
    gedrovit_net other = n;
    other.vertices_length = 11;
    answer_by("vertices by threes", 1, other, tables(), GEDROVIT_INVALID_LENGTHS, 0);
    other = n;
    other.faces_length = 3;
    answer_by("faces by fours", 1, other, tables(), GEDROVIT_INVALID_LENGTHS, 0);
    other = n;
    other.marks_length = 5;
    answer_by("a mark for each vertex", 1, other, tables(), GEDROVIT_INVALID_LENGTHS, 0);

    const gedrovit_sizes least = gedrovit_sizes_for_net(1, &n);
    const uint64_t bytes = least.out_vertices * sizeof *out_vertices + least.out_faces * sizeof *out_faces
        + least.out_marks * sizeof *out_marks + least.work * sizeof *work;
    expect("bytes for each refined face", bytes, 4 * 132);
    expect("bytes for each refined face with letters", bytes + least.out_marks * sizeof *letters, 4 * 136);
    const gedrovit_tables t = gedrovit_tables_of(out_vertices, least.out_vertices, out_faces, least.out_faces, out_marks,
                                                 least.out_marks, work, least.work);
    answer_by("least tables", 1, n, t, GEDROVIT_ACCEPTED, 0);
    gedrovit_tables less[] = {t, t, t, t};
    less[0].vertices_length--;
    less[1].faces_length--;
    less[2].marks_length--;
    less[3].work_length--;
    for (int i = 0; i < 4; i++)
        answer_by("one short", 1, n, less[i], GEDROVIT_TABLE_TOO_SHORT, 0);
}

/* Letters are asked for by a pointer that is not null, and then need as many bytes as the marks. */
static void lengths_of_letters(void)
{
    square();
    const gedrovit_net n = net(), none = gedrovit_net_of(NULL, 0, NULL, 0, NULL, 0);
    const uint64_t least = gedrovit_sizes_for_net(1, &n).out_marks;
    gedrovit_tables t = tables();
    t.letters = letters;
    t.letters_length = least;
    answer_by("letters", 1, n, t, GEDROVIT_ACCEPTED, 0);
    t.letters_length = least + 1;
    answer_by("letters, one more", 1, n, t, GEDROVIT_ACCEPTED, 0);
    t.letters_length = least - 1;
    answer_by("letters, one short", 1, n, t, GEDROVIT_TABLE_TOO_SHORT, 0);
    t.letters_length = 0;
    answer_by("letters, no bytes", 1, n, t, GEDROVIT_TABLE_TOO_SHORT, 0);
    answer_by("letters, no bytes and no faces", 1, none, t, GEDROVIT_ACCEPTED, 0);
    t.letters = NULL;
    answer_by("no letters", 1, n, t, GEDROVIT_ACCEPTED, 0);
    t.letters_length = 1;
    answer_by("a null pointer with a length", 1, n, t, GEDROVIT_ACCEPTED, 0);
}

/* The letters of an accepted call on the net that was drawn, with or without side counts; what is beyond them stays. */
static void lettered(const char *what, uint32_t rounds, gedrovit_net n, const char *due)
{
    gedrovit_tables t = tables();
    gedrovit_tally tally = {0};
    t.letters = memset(letters, '-', sizeof letters);
    t.letters_length = sizeof letters;
    const gedrovit_report report = gedrovit_refine_net(&tally, rounds, &n, &t);
    expect(what, report.reason, GEDROVIT_ACCEPTED);
    expect(what, report.vertices, strlen(due));
    expect(what, memcmp(letters, due, strlen(due)) == 0, 1);
    expect(what, letters[strlen(due)] == '-' && letters[sizeof letters - 1] == '-', 1);
    memset(letters, '-', sizeof letters);
    t.letters = NULL;
    expect(what, gedrovit_refine_net(&tally, rounds, &n, &t).vertices, report.vertices);
    for (size_t i = 0; i < 4 * REFINED; i++)
        expect("a letter that was not asked for", letters[i], '-');
}

/* Flat squares, vertices and faces row by row. */
static void grid(size_t columns, size_t rows)
{
    clear((columns + 1) * (rows + 1));
    for (size_t v = 0; v < vertex_count; v++) {
        vertices[3 * v] = (int32_t)(16 * (v % (columns + 1)));
        vertices[3 * v + 1] = (int32_t)(16 * (v / (columns + 1)));
    }
    for (size_t f = 0; f < columns * rows; f++) {
        const size_t v = f / columns * (columns + 1) + f % columns;
        face(v, v + 1, v + columns + 2, v + columns + 1);
    }
}

/* The first edge point of an unmarked square of side 16: its y is -t/2, halves upward, and a net has the default tension unless it is set. */
static void points_of_tensions(void)
{
    static const int32_t due[] = {0, 0, -1, -1, -2};
    gedrovit_tally tally = {0};
    const gedrovit_tables t = tables();
    grid(1, 1);
    gedrovit_net n = net();
    expect("refined at the tension of a started net", gedrovit_refine_net(&tally, 1, &n, &t).reason, GEDROVIT_ACCEPTED);
    expect("a point at the tension of a started net", (uint64_t)out_vertices[13], (uint64_t)-2);
    for (n.tension = 0; n.tension < sizeof due / sizeof *due; n.tension++) {
        expect("refined at a tension", gedrovit_refine_net(&tally, 1, &n, &t).reason, GEDROVIT_ACCEPTED);
        expect("a point at a tension", (uint64_t)out_vertices[13], (uint64_t)due[n.tension]);
    }
}

/* How many of these letters the last call gave. */
static size_t count(uint8_t letter)
{
    size_t n = 0;
    for (size_t i = 0; i < sizeof letters; i++)
        n += letters[i] == letter;
    return n;
}

/* Each letter of the header is got by a call. */
static void letters_of_points(void)
{
    char due[10] = {0};
    square();
    memset(due, GEDROVIT_LETTER_CONTROL_VERTEX, 4);
    lettered("drawn", 0, net(), due);
    memset(due + 4, GEDROVIT_LETTER_INSIDE_SEGMENT, 4);
    due[8] = GEDROVIT_LETTER_OTHER_FACE;
    lettered("an unmarked loop", 1, net(), due);
    marks[0] = marks[2] = 1;
    memset(due + 4, GEDROVIT_LETTER_END_EDGE, 4);
    lettered("end edges", 1, net(), due);
    marks[1] = marks[3] = 1;
    memset(due + 4, GEDROVIT_LETTER_ONE_EDGE_SEGMENT, 4);
    lettered("segments of one edge", 1, net(), due);
    gedrovit_net counted = net();
    counted.sides = sides;
    counted.sides_length = 1;
    sides[0] = 4;
    memset(due + 4, GEDROVIT_LETTER_SPLIT, 5);
    lettered("the split", 0, counted, due);

    grid(5, 3);
    gedrovit_tables t = tables();
    gedrovit_tally tally = {0};
    const gedrovit_net n = net();
    t.letters = memset(letters, '-', sizeof letters);
    t.letters_length = sizeof letters;
    expect("five by three", gedrovit_refine_net(&tally, 1, &n, &t).vertices, 77);
    expect("inner edges", count(GEDROVIT_LETTER_INNER_EDGE), 22);
    expect("faces with four inner edges", count(GEDROVIT_LETTER_FACE_FOUR_INNER), 3);
    expect("other faces", count(GEDROVIT_LETTER_OTHER_FACE), 12);
    expect("boundary edges", count(GEDROVIT_LETTER_INSIDE_SEGMENT), 16);
}

static void reasons_of_nets(void)
{
    square();
    marks[3] = 2;
    answer("mark 2", 1, GEDROVIT_INVALID_MARK, 3);
    square();
    face(0, 1, 2, 4);
    answer("corner 4 of 4 vertices", 1, GEDROVIT_INVALID_CORNER, 1);
    square();
    vertex_count++;
    answer("vertex in no face", 1, GEDROVIT_ISOLATED_VERTEX, 4);
    square();
    face(0, 1, 2, 3);
    answer("face twice", 1, GEDROVIT_REPEATED_HALF_EDGE, 1);
    clear(7);
    face(0, 1, 2, 3);
    face(3, 4, 5, 6);
    answer("faces that touch in a vertex", 1, GEDROVIT_NON_MANIFOLD_VERTEX, 3);
    square();
    face(0, 3, 2, 1);
    answer("ring of two", 1, GEDROVIT_VALENCE_OUT_OF_RANGE, 0);
    star(4, 1);
    marks[0] = 1;
    answer("mark inside", 1, GEDROVIT_MARKED_INTERIOR_VERTEX, 0);
}

/* The seam test gives this answer; the edges are 0 on a refusal. */
static void seam(const char *what, gedrovit_net a, uint32_t start_a, gedrovit_net b, uint32_t start_b, size_t work_length,
                 uint32_t reason, uint64_t place, uint64_t edges)
{
    const gedrovit_seam_report report = gedrovit_share_seam_nets(&a, start_a, &b, start_b, work, work_length);
    expect(what, report.reason, reason);
    expect(what, report.place, place);
    expect(what, report.edges, edges);
}

/* A row of three squares from vertex 0 to 3, and the same row moved to its other side, from 4 to 7. They have all tables but one in common. */
static void seams(void)
{
    int32_t moved[24];
    grid(3, 1);
    marks[0] = marks[3] = marks[4] = marks[7] = 1;
    for (int i = 0; i < 24; i++)
        moved[i] = vertices[i] - (i % 3 == 1 ? 16 : 0);
    gedrovit_net a = net(), b = a;
    b.vertices = moved;
    const size_t least = gedrovit_sizes_for_net(0, &a).work;
    expect("work of the seam test", least, 16 * 3);
    memset(work, FILL, sizeof work);
    seam("one short", a, 0, b, 4, least - 1, GEDROVIT_TABLE_TOO_SHORT, 0, 0);
    expect("one short: work", is_filled(work, sizeof work), 1);
    seam("a seam", a, 0, b, 4, least, GEDROVIT_ACCEPTED, 0, 3);
    expect("a seam: work", work[0] + (uint64_t)work[least - 1], 0);
    expect("a seam: beyond", is_filled(work + least, sizeof work - least * sizeof *work), 1);
    seam("from the other end", b, 7, a, 3, least, GEDROVIT_ACCEPTED, 0, 3);
    seam("no vertex", a, (uint32_t)vertex_count, b, 4, least, GEDROVIT_INVALID_START, 1, 0);
    seam("the largest number", a, 0, b, UINT32_MAX, least, GEDROVIT_INVALID_START, 2, 0);
    seam("unmarked vertices", a, 1, b, 5, least, GEDROVIT_INVALID_START, 1, 0);
    moved[3 * 6 + 2]++;
    seam("step 2", a, 0, b, 4, least, GEDROVIT_SEAM_MISMATCH, 2, 0);
    b.tension = GEDROVIT_DEFAULT_TENSION - 1;
    seam("tensions before step 2", a, 0, b, 4, least, GEDROVIT_SEAM_MISMATCH, 0, 0);
    seam("17 before 18", a, 0, b, 5, least, GEDROVIT_INVALID_START, 2, 0);
    b.tension = GEDROVIT_MAX_TENSION + 1;
    seam("16 before 17", a, 1, b, 5, least, GEDROVIT_TENSION_OUT_OF_RANGE, 0, 0);
    moved[0] = GEDROVIT_MAX_COORDINATE + 1;
    gedrovit_net far = b;
    far.tension = a.tension;
    seam("5 by the first net before 16 by the second", far, 4, b, 4, least, GEDROVIT_COORDINATE_OUT_OF_RANGE, 0, 0);
    seam("16 by the first net before 5 by the second", b, 4, far, 4, least, GEDROVIT_TENSION_OUT_OF_RANGE, 0, 0);
}

/* With side counts on both nets the edges are the drawn ones, here those of a loop with one mark; with counts on one net alone they differ. */
static void seams_of_sides(void)
{
    static const uint32_t turned[] = {3, 2, 1, 0};
    square();
    vertices[3] = vertices[7] = 16;
    marks[0] = 1;
    sides[0] = 4;
    gedrovit_net a = net(), b = a;
    b.faces = turned;
    seam("a whole loop", a, 0, b, 0, 16, GEDROVIT_ACCEPTED, 0, 4);
    a.sides = sides;
    a.sides_length = 1;
    seam("counts on one net", a, 0, b, 0, 64, GEDROVIT_SEAM_MISMATCH, 0, 0);
    seam("counts on the other net", b, 0, a, 0, 64, GEDROVIT_SEAM_MISMATCH, 0, 0);
    b.sides = sides;
    b.sides_length = 1;
    seam("counts on both nets", a, 0, b, 0, 64, GEDROVIT_ACCEPTED, 0, 4);
    seam("counts on both nets, one short", a, 0, b, 0, 63, GEDROVIT_TABLE_TOO_SHORT, 0, 0);
}

/* Records with null pointers at length 0. */
static void empty(void)
{
    const gedrovit_net n = gedrovit_net_of(NULL, 0, NULL, 0, NULL, 0);
    const gedrovit_tables t = gedrovit_tables_of(NULL, 0, NULL, 0, NULL, 0, NULL, 0);
    answer_by("empty", GEDROVIT_MAX_ROUNDS, n, t, GEDROVIT_ACCEPTED, 0);
    expect("no work", gedrovit_sizes_for_net(1, &n).work, 0);
    const gedrovit_seam_report report = gedrovit_share_seam_nets(&n, 0, &n, 0, NULL, 0);
    expect("no start", report.reason, GEDROVIT_INVALID_START);
    expect("no start", report.place, 1);
    square();
    answer_by("no tables", 1, net(), t, GEDROVIT_TABLE_TOO_SHORT, 0);
}

static void texts(void)
{
    const char *unknown = gedrovit_reason_text(UINT32_MAX);
    for (uint32_t reason = 0; reason <= GEDROVIT_SEAM_MISMATCH; reason++) {
        expect("reason without a text", strcmp(gedrovit_reason_text(reason), unknown) == 0, reason == 13);
        for (uint32_t other = 0; other < reason; other++)
            expect("two reasons with one text", strcmp(gedrovit_reason_text(reason), gedrovit_reason_text(other)) == 0, 0);
    }
    const char *no_letter = gedrovit_letter_text(0);
    for (unsigned letter = 0; letter <= UINT8_MAX; letter++) {
        const char *text = gedrovit_letter_text((uint8_t)letter);
        expect("letter without a text", strcmp(text, no_letter) == 0, letter == 0 || strchr("VABMSCDE", (int)letter) == NULL);
        for (unsigned other = 0; other < letter; other++)
            expect("two letters with one text", strcmp(text, no_letter) != 0 && strcmp(text, gedrovit_letter_text((uint8_t)other)) == 0, 0);
    }
}

int main(void)
{
    expect("version of the archive", gedrovit_version(), GEDROVIT_VERSION_NUMBER);
    expect("version by its name", GEDROVIT_VERSIONED(gedrovit_version)(), GEDROVIT_VERSION_NUMBER);
    limits_of_counts();
    limits_of_nets();
    limits_of_sides();
    limit_of_record();
    limit_of_tension();
    order();
    lengths();
    lengths_of_letters();
    letters_of_points();
    points_of_tensions();
    reasons_of_nets();
    seams();
    seams_of_sides();
    empty();
    texts();
    return faults == 0 ? EXIT_SUCCESS : EXIT_FAILURE;
}
