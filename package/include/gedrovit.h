/*
 * Gedrovit refines nets of quadrilateral faces by Kobbelt's interpolatory subdivision, at a tension
 * that the caller may choose. Nets with faces of 3 to 8 sides are first split into quadrilaterals.
 * Every new coordinate is worked out exactly and rounded once, to the nearest whole number, halves
 * upward: 2.5 to 3, -2.5 to -2. Two nets of equal tension that share a boundary segment where
 * refining begins, after the split if there is one, share it afterwards, point for point, whatever the
 * rest of either net is; a call tests whether two nets match so as they are drawn. A net that is moved
 * by whole numbers gives its refined net moved by the same, if the coordinates of both are in range.
 *
 * C11 and C++17, x86-64 Linux (System V ABI). Link with libgedrovit.a; nothing but the C library is
 * needed beside it.
 *
 *
 * The net: three tables, a fourth one for faces of other than four sides, and the tension
 *
 *   vertices   int32_t    x, y, z of each vertex, from -1,048,576 to 1,048,576
 *   faces      uint32_t   the corners of each face, as vertex numbers from 0, in order round it
 *   marks      uint8_t    for each vertex 1 if the boundary has a corner there, 0 if not
 *   sides      uint8_t    the side counts: for each face how many sides it has, from 3 to 8
 *   tension    uint32_t   a number from 0 to 4, said below
 *
 * Without side counts, that is with a table of length 0, every face has four sides. With side counts
 * the corners of the faces follow each other in the face table without gaps, and the counts add up to
 * its length.
 *
 * V is the number of vertices. F is the number of faces without side counts; with them it is the
 * number of corners, for a face of n sides becomes n quadrilaterals. G = F * 4^rounds is the number
 * of faces after refining. V = 0 with F = 0 is allowed.
 *
 * Side s of a face runs from corner s to corner s + 1, the last side from the last corner to corner
 * 0. Two faces that share an edge run along it in opposite directions. An edge of one face is a
 * boundary edge. Marked vertices cut a boundary loop into segments, from one mark to the next; a loop
 * without marks is one closed segment. Each segment is refined as a curve of its own points alone, at
 * the net's tension.
 *
 * An open segment is read from one end to the other, both included; with one mark on a loop both
 * ends are that vertex. A closed segment is read once round from any of its vertices, the first not
 * repeated. Both may be read the way the sides run or against it. Two nets share a segment if a
 * reading in one and a reading in the other are the same list of points, and both segments are open
 * or both closed. The same points as an open segment here and as a closed one there are not shared.
 *
 * A net with side counts is read after its split, where refining begins. A segment that two nets
 * share as they are drawn is shared there if both have side counts or neither has. If only one has
 * them it need not be: one net has the midpoints of its edges, the other has not.
 *
 * Both nets must have the same tension; at two tensions they need not share the segment afterwards.
 * Both must be refined by versions with the same rounding: this version rounds halves upward, as
 * every version since 0.3.0; 0.1.x and 0.2.0 away from zero. Two nets of which only one is refined by
 * one of these need not share the segment afterwards. Versions before 0.6.0 refine at tension 4.
 *
 *
 * The tension
 *
 * At tension t Kobbelt's weight is t/4 in every rule. On the boundary, inside a segment, the points
 * p, q, r, s in order give the point ((32 + t) (q + r) - t (p + s)) / 64 between q and r, which stands
 * off the midpoint in proportion to t. A net has tension 4, the weight 1, unless it is set otherwise:
 * the roundest surface. A lower tension overshoots less. At 0 new points are the midpoints of edges
 * and the means of the corners of faces, and nothing overshoots. This is a surface as the others are:
 * 0 never means that no tension was set.
 *
 * The tension changes the coordinates of new points and nothing else: numbering, faces, marks,
 * letters, new points in the record, table lengths and reasons 5 to 12 are the same at every tension.
 * The points of the split do not depend on it.
 *
 *
 * The split
 *
 * With side counts every face is split once, before the first step: a face of n sides into n
 * quadrilaterals, a face of four sides too. The vertices are the drawn ones, with their numbers,
 * coordinates and marks; then the midpoint of each edge, in the order in which the edges are first
 * met, face by face and from side 0 on; then for each face the mean of its corners. New coordinates
 * are rounded as above, new marks are 0. Element h of the face table gives quadrilateral h, with the
 * corners: that corner, point of the side that begins there, point of the face, point of the side
 * before. A net without side counts is not split.
 *
 *
 * The refined net
 *
 * `rounds` refinement steps are done, from 0 to 6; 0 copies the net, or gives the split net where
 * there are side counts. Every face of the answer has four sides. In each step the vertices are
 * the old ones, with their numbers, coordinates and marks; then one for each edge, in the order in
 * which the edges are first met, face by face and from side 0 to 3; then one for each face. New marks
 * are 0. Face f becomes the faces 4f + i, for i = 0 to 3, with the corners: old corner i, point of
 * side i, point of the face, point of side i - 1. Refined coordinates stay within 268,435,456 in
 * absolute value.
 *
 * Let a net be moved: one whole number is added to the x of every vertex, one to every y and one to
 * every z. If the coordinates of both nets are in the range above, and the records of new points are
 * equal, the call on the moved net reports the same, a refusal too, adds the same to the record,
 * gives the same faces, marks and letters, and the same points moved by these numbers. This does not
 * hold of mirroring: where a half is rounded, a mirrored net may give other points than the mirrored
 * ones.
 *
 * A refined net may not be fit to be handed in again: its coordinates may lie beyond 1,048,576, and
 * it may have more than 8,192 vertices or 4,096 faces. Reasons 6 to 12 below never hold for it.
 *
 *
 * Letters
 *
 * A call may ask for a letter beside each refined vertex, which tells how its point was made:
 *
 *   V   drawn
 *   A   on a boundary edge, both ends unmarked: inside an open segment, or anywhere on a closed one
 *   B   on a boundary edge with one marked end: an end edge of an open segment
 *   M   on a boundary edge with two marked ends: a segment of one edge
 *   S   made by the split, on an edge or in a face
 *   C   on an inner edge, that is an edge of two faces
 *   D   in a face one or both of whose directions have four inner edges
 *   E   in any other face
 *
 * A face has two directions; each takes two opposite sides of the face and, beyond each, the opposite
 * edge of the neighbour there, if there is one. The byte is that of the letter in ASCII. Faces, side
 * counts and marks decide it, coordinates and tension never do. V stands for exactly the drawn
 * vertices, which are the first ones. A vertex keeps its letter in later steps. Only drawn vertices
 * have marks, so a segment of one edge gives one M, and in the next step two B. After the split no
 * segment has one edge alone: M and S do not meet in one answer.
 *
 *
 * The record of new points
 *
 * Every refining call takes a record, which counts the points that are paid for. An accepted call
 * adds the number of refined vertices minus the number of drawn ones: with side counts the points of
 * the split too, with 0 rounds and no side counts nothing. A refused call adds nothing. A record that
 * starts at 0, and that nothing but calls writes, is the sum over its accepted calls.
 *
 * Its figure is never above 4,000,000,000 after an accepted call: a call that would make it so, or
 * finds it so, gets reason 15, even if it adds nothing. Any figure may stand there before a call.
 *
 *
 * The tables that you provide
 *
 * Every length is in elements, not in bytes. Beside the net you provide at least
 *
 *   out_vertices   12 G   int32_t
 *   out_faces       4 G   uint32_t
 *   out_marks       4 G   uint8_t
 *   work           16 G   uint32_t
 *   letters         4 G   uint8_t    only if letters are asked for
 *
 * which is 132 bytes for each refined face without letters, and 136 bytes for each refined face with
 * them. gedrovit_sizes_for works these numbers out; out_marks is the length of the letters too. What
 * the tables hold before the call does not matter. What they hold after it:
 *
 *   reason     output tables                                  work
 *   0          from the front, the refined vertices, faces    the first 16 G are 0
 *              and marks, and the letters if asked for
 *   1 to 4,    as before                                      as before
 *   14 and 16
 *   5 to 12    as before                                      the first 16 G are 0
 *   and 15
 *
 * Output elements beyond the refined net and work elements beyond 16 G are never written. Where no
 * letters are asked for, their table is neither read nor written and may have any length. The tables
 * of the net are only read.
 *
 * Your duties, which no call can check:
 *
 *   - Every pointer is non-null and aligned for its type, also at length 0. data() of an empty
 *     std::vector may be null (with GNU's library it is), and so may malloc(0): pass the address of
 *     any variable of the element's type instead. It is neither read nor written. The functions
 *     over records do this for you.
 *   - The pointer to the record of new points is non-null and aligned too, in every function.
 *   - Each table has the length that you state, in bytes at most PTRDIFF_MAX.
 *   - No output and no work table overlaps another table of the call, and the record overlaps none.
 *   - `with_letters` is 0 or 1. A bool of C or C++ is; a byte that another language passes must be.
 *
 *
 * The seam test
 *
 * gedrovit_share_seam tests whether two nets share an open segment. It takes both nets, a start on
 * each, which is the number of a marked vertex, and a work table. The first net's segment is read from
 * its start the way the sides run, the second's from its start against it. Step i is the vertex that is
 * i boundary edges on from the start; step 0 is the start.
 *
 * The answer is yes, reason 0, exactly if
 *
 *   - both nets would be accepted with 0 rounds, and the work table is long enough,
 *   - both starts are marked vertices,
 *   - the tensions are equal, and both nets have side counts or neither has,
 *   - points and marks agree at every step from 0 to the next mark of the first net, both included.
 *
 * It comes with the number of edges of the segment as drawn, before any split, 1 or more. Whatever
 * accepted calls then refine the two nets at these tensions: the nets share the segment where refining
 * begins, and after every step that both calls make, read from these starts and these ways. The numbers of vertices and
 * faces and the side counts themselves may differ. A closed segment has no marked vertex and cannot be
 * tested.
 *
 * Each net is first checked as by gedrovit_check with 0 rounds, no letters and output tables that are
 * long enough. All reasons of the first net, whatever their numbers, go before those of the second, which
 * is not looked at then. The answer does not tell which net was refused; gedrovit_check on each alone
 * does. 17 comes after both checks, with place 1 for the first start and else 2 for the second; then 18.
 * Its place is 0 if the tensions differ or only one net has side counts, else the first step that
 * differs: so 0 also if the starts do. Where one segment ends before the other, the marks differ at the
 * sooner end. The number of edges is 0 on every refusal.
 *
 * Both nets are only read, and may have tables in common. The call takes no outputs and no record of new
 * points, and never says 1 or 15. The work table needs 16 times the larger F of the two nets, which is
 * the larger `work` that gedrovit_sizes_for gives with 0 rounds. After the call:
 *
 *   answer                                    work
 *   2, 3, 4, 14 or 16 by the first net        as before
 *   5 to 12 by the first net, or              the first 16 F are 0, F of the first net
 *   2, 3, 4, 14 or 16 by the second
 *   5 to 12 by the second net, 17, 18, yes    the first 16 F are 0, F the larger of the two nets
 *
 * Work elements beyond these are never written.
 *
 *
 * What a call does not do
 *
 * It keeps no state, allocates nothing, takes no lock and does no input or output. Calls from any
 * threads may run at the same time if each has its own record, output and work tables; they may share
 * the tables of a net, if nothing writes to these meanwhile. A call always returns. It calls nothing of
 * yours and throws nothing; no exception may unwind through it, as one thrown by a signal handler
 * would.
 *
 *
 * Functions and records
 *
 * gedrovit_refine, gedrovit_check, gedrovit_sizes_for and gedrovit_share_seam are in the archive; each
 * has a function over records, gedrovit_refine_net and so on, which is inline here. Write against the
 * records: later versions add fields to them, and parameters to the functions in the archive. C++
 * programs may write against gedrovit.hpp, which takes and gives vectors.
 *
 *
 * Versions and plug-ins
 *
 * Every source that includes this header refers to a symbol of the archive that has the version in
 * its name, so that header and archive of different versions do not link. A source that needs only
 * the types and constants, and is linked without the archive, defines GEDROVIT_TYPES_ONLY before.
 *
 * The functions are declared with hidden visibility, so that a shared object with the archive in it
 * calls its own and never those of another one; the pkg-config and CMake files of the package add
 * --exclude-libs, so that it exports none of them. To export them, or to call those of another shared
 * object, define GEDROVIT_API as empty before including this header, and link without that option.
 *
 *
 * Stack, time and traces
 *
 * A call uses less than GEDROVIT_STACK_BYTES of stack. This is measured, not proved; it includes the
 * dynamic linker's work where the call is the program's first to use memset or another memory
 * function of the C library. It needs no other functions.
 *
 * The net is checked first, in time linear in its tables. Side counts take time linear in the face
 * table, however many there are. After that the time is linear in G, for a net that is refused as
 * well: its work table is cleared. The seam test takes time linear in the tables of both nets.
 *
 * The archive has no unwind tables, no frame pointers and no debug information. A trace that a crash
 * handler, debugger or profiler takes while a call runs ends at the archive's innermost function or
 * goes on with wrong callers; yours are not in it.
 */
#ifndef GEDROVIT_H
#define GEDROVIT_H

#if !defined(__x86_64__) || !defined(__linux__) || !defined(__LP64__)
#error "gedrovit is built for x86-64 Linux with 64-bit pointers"
#endif

#ifndef __cplusplus
#include <stdbool.h>
#endif
#include <stddef.h>
#include <stdint.h>

/* The version of this header. */
#define GEDROVIT_VERSION "0.8.0"
#define GEDROVIT_VERSION_MAJOR 0
#define GEDROVIT_VERSION_MINOR 8
#define GEDROVIT_VERSION_PATCH 0

/* The same as a number, to be compared with gedrovit_version(), and at the end of a name. */
#define GEDROVIT_VERSION_NUMBER \
    (GEDROVIT_VERSION_MAJOR * 1000000u + GEDROVIT_VERSION_MINOR * 1000u + GEDROVIT_VERSION_PATCH)
#define GEDROVIT_JOIN_NOW(name, major, minor, patch) name##_##major##_##minor##_##patch
#define GEDROVIT_JOIN(name, major, minor, patch) GEDROVIT_JOIN_NOW(name, major, minor, patch)
#define GEDROVIT_VERSIONED(name) \
    GEDROVIT_JOIN(name, GEDROVIT_VERSION_MAJOR, GEDROVIT_VERSION_MINOR, GEDROVIT_VERSION_PATCH)

/* Limits of a call. With side counts, that on faces is one on corners: F above. */
#define GEDROVIT_MAX_ROUNDS 6
#define GEDROVIT_MAX_VERTICES 8192
#define GEDROVIT_MAX_FACES 4096
#define GEDROVIT_MAX_REFINED_FACES 262144
#define GEDROVIT_MAX_COORDINATE 1048576
#define GEDROVIT_MAX_RING 8
#define GEDROVIT_MAX_FAN 6
#define GEDROVIT_MIN_SIDES 3
#define GEDROVIT_MAX_SIDES 8
#define GEDROVIT_MAX_TENSION 4
#define GEDROVIT_MAX_TALLY 4000000000

/* The tension of a net that sets none. */
#define GEDROVIT_DEFAULT_TENSION 4

/* What calls stay within, as said above. */
#define GEDROVIT_MAX_REFINED_COORDINATE 268435456
#define GEDROVIT_STACK_BYTES 8192

#ifndef GEDROVIT_API
#define GEDROVIT_API __attribute__((visibility("hidden")))
#endif

#ifdef __cplusplus
#define GEDROVIT_NOEXCEPT noexcept
#define GEDROVIT_INLINE __attribute__((visibility("hidden"))) inline
extern "C" {
#else
#define GEDROVIT_NOEXCEPT
#define GEDROVIT_INLINE static inline
#endif

/*
 * Why a call was refused. If several reasons hold, the first in this order is reported:
 *
 *   1; 2 by the vertex table; with side counts 14, without them 2 by the face table;
 *   2 by the marks; 3; 4; 16; then 5 to 12, as they are numbered; 15.
 *
 * The seam test reports the first by its first net in this order, then the first by its second; then 17
 * and 18.
 *
 * The place is the lowest vertex or face number concerned. 5 to 12 speak of the net as it is drawn,
 * before its split.
 */
enum gedrovit_reason {
    GEDROVIT_ACCEPTED = 0,

    /* The calling program can cause these. The place is 0. */

    /* rounds above 6 */
    GEDROVIT_TOO_MANY_ROUNDS = 1,
    /* vertices_length not a multiple of 3, faces_length not of 4 (without side counts), or
       marks_length not V */
    GEDROVIT_INVALID_LENGTHS = 2,
    /* V above 8,192, F above 4,096 or G above 262,144 */
    GEDROVIT_NET_TOO_LARGE = 3,
    /* an output or the work table shorter than stated above, or the letters where they are asked for */
    GEDROVIT_TABLE_TOO_SHORT = 4,

    /* The net can cause these. The place is a vertex, or for 7 and 9 a face. */

    /* vertex with a coordinate outside -1,048,576 to 1,048,576 */
    GEDROVIT_COORDINATE_OUT_OF_RANGE = 5,
    /* vertex with a mark above 1 */
    GEDROVIT_INVALID_MARK = 6,
    /* face with a corner not below V, or with two equal corners */
    GEDROVIT_INVALID_CORNER = 7,
    /* vertex in no face */
    GEDROVIT_ISOLATED_VERTEX = 8,
    /* face with a side that runs from one vertex to another as a side of an earlier face does: one
       of them is turned the wrong way, or the edge has three faces */
    GEDROVIT_REPEATED_HALF_EDGE = 9,
    /* vertex whose faces form neither one full ring nor one open fan */
    GEDROVIT_NON_MANIFOLD_VERTEX = 10,
    /* vertex with a ring of fewer than 3 or more than 8 faces, or a fan of more than 6 */
    GEDROVIT_VALENCE_OUT_OF_RANGE = 11,
    /* vertex with mark 1 and a full ring, so not on the boundary */
    GEDROVIT_MARKED_INTERIOR_VERTEX = 12,

    /* The calling program can cause these too. The place is 0. */

    /* a side count outside 3 to 8, or counts that do not add up to faces_length */
    GEDROVIT_INVALID_SIDE_COUNTS = 14,
    /* the record of new points would be above 4,000,000,000 after the call, even if nothing is added */
    GEDROVIT_TALLY_LIMIT = 15,
    /* tension above 4 */
    GEDROVIT_TENSION_OUT_OF_RANGE = 16,

    /* These are the seam test's alone. */

    /* a start that is no marked vertex; place 1 for the first net's start, 2 for the second's */
    GEDROVIT_INVALID_START = 17,
    /* the segments or the tensions differ, or only one net has side counts; the place is 0 if the
       tensions differ or only one net has side counts, else the first step that differs, from 0 */
    GEDROVIT_SEAM_MISMATCH = 18
};

/* What a reason says, in English; the place is not in it. */
GEDROVIT_INLINE const char *gedrovit_reason_text(uint32_t reason) GEDROVIT_NOEXCEPT
{
    switch (reason) {
    case GEDROVIT_ACCEPTED: return "accepted";
    case GEDROVIT_TOO_MANY_ROUNDS: return "more than 6 rounds";
    case GEDROVIT_INVALID_LENGTHS: return "the tables of the net do not fit each other";
    case GEDROVIT_NET_TOO_LARGE: return "the net is too large";
    case GEDROVIT_TABLE_TOO_SHORT: return "an output or the work table is too short";
    case GEDROVIT_COORDINATE_OUT_OF_RANGE: return "a coordinate is outside -1,048,576 to 1,048,576";
    case GEDROVIT_INVALID_MARK: return "the mark is neither 0 nor 1";
    case GEDROVIT_INVALID_CORNER: return "a corner is no vertex, or two corners are equal";
    case GEDROVIT_ISOLATED_VERTEX: return "the vertex is in no face";
    case GEDROVIT_REPEATED_HALF_EDGE: return "a side runs as a side of an earlier face does";
    case GEDROVIT_NON_MANIFOLD_VERTEX: return "the faces at the vertex form neither one full ring nor one open fan";
    case GEDROVIT_VALENCE_OUT_OF_RANGE: return "the ring is not of 3 to 8 faces, or the fan is of more than 6";
    case GEDROVIT_MARKED_INTERIOR_VERTEX: return "the vertex is marked and not on the boundary";
    case GEDROVIT_INVALID_SIDE_COUNTS: return "a side count is not from 3 to 8, or the counts do not add up to the corners";
    case GEDROVIT_TALLY_LIMIT: return "the record of new points would be above 4,000,000,000";
    case GEDROVIT_TENSION_OUT_OF_RANGE: return "the tension is above 4";
    case GEDROVIT_INVALID_START: return "the start is no marked vertex";
    case GEDROVIT_SEAM_MISMATCH: return "the segments or the tensions differ, or only one net has side counts";
    default: return "a reason that this version does not know";
    }
}

/* How a point was made: the bytes of the letters above. */
enum gedrovit_letter {
    GEDROVIT_LETTER_CONTROL_VERTEX = 'V',
    GEDROVIT_LETTER_INSIDE_SEGMENT = 'A',
    GEDROVIT_LETTER_END_EDGE = 'B',
    GEDROVIT_LETTER_ONE_EDGE_SEGMENT = 'M',
    GEDROVIT_LETTER_SPLIT = 'S',
    GEDROVIT_LETTER_INNER_EDGE = 'C',
    GEDROVIT_LETTER_FACE_FOUR_INNER = 'D',
    GEDROVIT_LETTER_OTHER_FACE = 'E'
};

/* What a letter says, in English. */
GEDROVIT_INLINE const char *gedrovit_letter_text(uint8_t letter) GEDROVIT_NOEXCEPT
{
    switch (letter) {
    case GEDROVIT_LETTER_CONTROL_VERTEX: return "drawn";
    case GEDROVIT_LETTER_INSIDE_SEGMENT: return "on a boundary edge inside a segment or on a closed one";
    case GEDROVIT_LETTER_END_EDGE: return "on an end edge of a boundary segment";
    case GEDROVIT_LETTER_ONE_EDGE_SEGMENT: return "on a boundary segment of one edge";
    case GEDROVIT_LETTER_SPLIT: return "made by the split";
    case GEDROVIT_LETTER_INNER_EDGE: return "on an inner edge";
    case GEDROVIT_LETTER_FACE_FOUR_INNER: return "in a face with four inner edges in one direction or both";
    case GEDROVIT_LETTER_OTHER_FACE: return "in a face without four inner edges in either direction";
    default: return "a letter that this version does not know";
    }
}

/* The record of new points. A fresh one is {0}; what it holds after a call is told above. */
typedef struct {
    uint64_t points;
} gedrovit_tally;

/* What gedrovit_refine answers. */
typedef struct {
    uint32_t reason;   /* 0: refined; otherwise an enum gedrovit_reason */
    uint64_t place;    /* 0 if refined */
    uint64_t vertices; /* number of refined vertices; 0 on a refusal */
    uint64_t faces;    /* number of refined faces, G; 0 on a refusal */
} gedrovit_report;

/* What gedrovit_check answers. */
typedef struct {
    uint32_t reason; /* 0: gedrovit_refine would refine, but for 15; otherwise an enum gedrovit_reason */
    uint64_t place;  /* 0 if reason is 0 */
} gedrovit_finding;

/* What gedrovit_sizes_for answers: the least lengths, in elements. All are 0 unless reason is 0. */
typedef struct {
    uint32_t reason; /* 0; or 1, 2, 3 or 14 if no call with these lengths and side counts is accepted, whatever tables it gets */
    uint64_t out_vertices;
    uint64_t out_faces;
    uint64_t out_marks; /* of the letters too, where they are asked for */
    uint64_t work;
} gedrovit_sizes;

/* What gedrovit_share_seam answers. */
typedef struct {
    uint32_t reason; /* 0: yes, the nets share the segment; otherwise an enum gedrovit_reason */
    uint64_t place;  /* 0 if reason is 0 */
    uint64_t edges;  /* number of edges of the segment as drawn; 0 on a refusal */
} gedrovit_seam_report;

/*
 * A net, only read. Start it by gedrovit_net_of, never by {0} or a list of its fields: a field that a
 * later version adds then has the value that keeps the old behaviour, and that need not be 0. The
 * tension is such a field: {0} makes it 0, another surface, and no call can tell that from a wish. A
 * started net has no side counts and tension 4; set `sides` and `sides_length` afterwards for a net
 * with other faces, and `tension` for a softer surface.
 */
typedef struct {
    const int32_t *vertices;
    size_t vertices_length;
    const uint32_t *faces;
    size_t faces_length;
    const uint8_t *marks;
    size_t marks_length;
    const uint8_t *sides;
    size_t sides_length; /* 0: every face has four sides */
    uint32_t tension; /* from 0 to 4 */
} gedrovit_net;

GEDROVIT_INLINE gedrovit_net gedrovit_net_of(const int32_t *vertices, size_t vertices_length,
                                             const uint32_t *faces, size_t faces_length,
                                             const uint8_t *marks, size_t marks_length) GEDROVIT_NOEXCEPT
{
    gedrovit_net net;
    net.vertices = vertices;
    net.vertices_length = vertices_length;
    net.faces = faces;
    net.faces_length = faces_length;
    net.marks = marks;
    net.marks_length = marks_length;
    net.sides = NULL;
    net.sides_length = 0;
    net.tension = GEDROVIT_DEFAULT_TENSION;
    return net;
}

/*
 * The tables that a call fills, with its workspace. Start them by gedrovit_tables_of, as a net. They
 * ask for no letters then; set `letters` and `letters_length` afterwards to ask for them. A null
 * pointer there asks for none, whatever the length. Any other pointer asks, also with length 0, which
 * is too short unless G is 0.
 */
typedef struct {
    int32_t *vertices;
    size_t vertices_length;
    uint32_t *faces;
    size_t faces_length;
    uint8_t *marks;
    size_t marks_length;
    uint32_t *work;
    size_t work_length;
    uint8_t *letters; /* null: no letters */
    size_t letters_length;
} gedrovit_tables;

GEDROVIT_INLINE gedrovit_tables gedrovit_tables_of(int32_t *vertices, size_t vertices_length,
                                                   uint32_t *faces, size_t faces_length,
                                                   uint8_t *marks, size_t marks_length,
                                                   uint32_t *work, size_t work_length) GEDROVIT_NOEXCEPT
{
    gedrovit_tables tables;
    tables.vertices = vertices;
    tables.vertices_length = vertices_length;
    tables.faces = faces;
    tables.faces_length = faces_length;
    tables.marks = marks;
    tables.marks_length = marks_length;
    tables.work = work;
    tables.work_length = work_length;
    tables.letters = NULL;
    tables.letters_length = 0;
    return tables;
}

#ifndef GEDROVIT_TYPES_ONLY

/* The version of the archive, as GEDROVIT_VERSION_NUMBER. */
GEDROVIT_API uint32_t gedrovit_version(void) GEDROVIT_NOEXCEPT;

/* The same under a name that has the version in it. A reference to it is kept in each object file. */
GEDROVIT_API uint32_t GEDROVIT_VERSIONED(gedrovit_version)(void) GEDROVIT_NOEXCEPT;

#if defined(__has_attribute)
#if __has_attribute(retain)
#define GEDROVIT_KEPT __attribute__((used, retain))
#endif
#endif
#ifndef GEDROVIT_KEPT
#define GEDROVIT_KEPT __attribute__((used))
#endif
GEDROVIT_KEPT static uint32_t (*const gedrovit_same_version)(void) = GEDROVIT_VERSIONED(gedrovit_version);
#undef GEDROVIT_KEPT

/*
 * Refines a net into the output tables and adds its new points to the record, or says why not. For
 * the surface of versions before 0.6.0 pass GEDROVIT_DEFAULT_TENSION as `tension`. `with_letters` asks
 * for letters. Without it pass the address of any byte, and length 0, for them.
 */
GEDROVIT_API gedrovit_report gedrovit_refine(gedrovit_tally *tally, uint32_t rounds,
                                             const int32_t *vertices, size_t vertices_length,
                                             const uint32_t *faces, size_t faces_length,
                                             const uint8_t *sides, size_t sides_length,
                                             const uint8_t *marks, size_t marks_length,
                                             uint32_t tension,
                                             int32_t *out_vertices, size_t out_vertices_length,
                                             uint32_t *out_faces, size_t out_faces_length,
                                             uint8_t *out_marks, size_t out_marks_length,
                                             bool with_letters, uint8_t *letters, size_t letters_length,
                                             uint32_t *work, size_t work_length) GEDROVIT_NOEXCEPT;

/*
 * Checks without refining: the reason and place that gedrovit_refine would report for output tables
 * of these lengths, but for 15: it takes no record, so none is judged or changed. The work table is
 * needed, and afterwards holds what it would after that call.
 */
GEDROVIT_API gedrovit_finding gedrovit_check(uint32_t rounds,
                                             const int32_t *vertices, size_t vertices_length,
                                             const uint32_t *faces, size_t faces_length,
                                             const uint8_t *sides, size_t sides_length,
                                             const uint8_t *marks, size_t marks_length,
                                             uint32_t tension,
                                             size_t out_vertices_length, size_t out_faces_length,
                                             size_t out_marks_length,
                                             bool with_letters, size_t letters_length,
                                             uint32_t *work, size_t work_length) GEDROVIT_NOEXCEPT;

/* The lengths of tables that serve a net of these lengths, with these side counts, at any tension. */
GEDROVIT_API gedrovit_sizes gedrovit_sizes_for(uint32_t rounds, size_t vertices_length, size_t faces_length,
                                               const uint8_t *sides, size_t sides_length,
                                               size_t marks_length) GEDROVIT_NOEXCEPT;

/*
 * Tests whether two nets share the open segment that begins at `start_a`, read with the sides of the
 * first net, and at `start_b`, read against those of the second. The work table needs 16 times the larger
 * F: the larger `work` of gedrovit_sizes_for with 0 rounds for each net.
 */
GEDROVIT_API gedrovit_seam_report gedrovit_share_seam(const int32_t *vertices_a, size_t vertices_a_length,
                                                      const uint32_t *faces_a, size_t faces_a_length,
                                                      const uint8_t *sides_a, size_t sides_a_length,
                                                      const uint8_t *marks_a, size_t marks_a_length,
                                                      uint32_t tension_a, uint32_t start_a,
                                                      const int32_t *vertices_b, size_t vertices_b_length,
                                                      const uint32_t *faces_b, size_t faces_b_length,
                                                      const uint8_t *sides_b, size_t sides_b_length,
                                                      const uint8_t *marks_b, size_t marks_b_length,
                                                      uint32_t tension_b, uint32_t start_b,
                                                      uint32_t *work, size_t work_length) GEDROVIT_NOEXCEPT;

/*
 * The same over records. A pointer may be null where its length is 0; the other duties stay.
 * gedrovit_check_net looks at the work table, at the lengths of the others, and at whether `letters`
 * is null alone. gedrovit_sizes_for_net does not look at the tension. The work table of
 * gedrovit_share_seam_nets needs the larger `work` of gedrovit_sizes_for_net(0, a) and (0, b).
 */
GEDROVIT_INLINE gedrovit_report gedrovit_refine_net(gedrovit_tally *tally, uint32_t rounds, const gedrovit_net *net,
                                                    const gedrovit_tables *tables) GEDROVIT_NOEXCEPT
{
    int32_t coordinate = 0;
    uint32_t number = 0;
    uint8_t byte = 0;
    const bool with_letters = tables->letters != NULL;
    const size_t letters_length = with_letters ? tables->letters_length : 0;
    return gedrovit_refine(tally, rounds,
                           net->vertices_length == 0 ? &coordinate : net->vertices, net->vertices_length,
                           net->faces_length == 0 ? &number : net->faces, net->faces_length,
                           net->sides_length == 0 ? &byte : net->sides, net->sides_length,
                           net->marks_length == 0 ? &byte : net->marks, net->marks_length,
                           net->tension,
                           tables->vertices_length == 0 ? &coordinate : tables->vertices, tables->vertices_length,
                           tables->faces_length == 0 ? &number : tables->faces, tables->faces_length,
                           tables->marks_length == 0 ? &byte : tables->marks, tables->marks_length,
                           with_letters, letters_length == 0 ? &byte : tables->letters, letters_length,
                           tables->work_length == 0 ? &number : tables->work, tables->work_length);
}

GEDROVIT_INLINE gedrovit_finding gedrovit_check_net(uint32_t rounds, const gedrovit_net *net,
                                                    const gedrovit_tables *tables) GEDROVIT_NOEXCEPT
{
    int32_t coordinate = 0;
    uint32_t number = 0;
    uint8_t byte = 0;
    return gedrovit_check(rounds,
                          net->vertices_length == 0 ? &coordinate : net->vertices, net->vertices_length,
                          net->faces_length == 0 ? &number : net->faces, net->faces_length,
                          net->sides_length == 0 ? &byte : net->sides, net->sides_length,
                          net->marks_length == 0 ? &byte : net->marks, net->marks_length,
                          net->tension,
                          tables->vertices_length, tables->faces_length, tables->marks_length,
                          tables->letters != NULL, tables->letters != NULL ? tables->letters_length : 0,
                          tables->work_length == 0 ? &number : tables->work, tables->work_length);
}

GEDROVIT_INLINE gedrovit_sizes gedrovit_sizes_for_net(uint32_t rounds, const gedrovit_net *net) GEDROVIT_NOEXCEPT
{
    const uint8_t byte = 0;
    return gedrovit_sizes_for(rounds, net->vertices_length, net->faces_length,
                              net->sides_length == 0 ? &byte : net->sides, net->sides_length, net->marks_length);
}

GEDROVIT_INLINE gedrovit_seam_report gedrovit_share_seam_nets(const gedrovit_net *a, uint32_t start_a,
                                                              const gedrovit_net *b, uint32_t start_b,
                                                              uint32_t *work, size_t work_length) GEDROVIT_NOEXCEPT
{
    const int32_t coordinate = 0;
    uint32_t number = 0;
    const uint8_t byte = 0;
    return gedrovit_share_seam(a->vertices_length == 0 ? &coordinate : a->vertices, a->vertices_length,
                               a->faces_length == 0 ? &number : a->faces, a->faces_length,
                               a->sides_length == 0 ? &byte : a->sides, a->sides_length,
                               a->marks_length == 0 ? &byte : a->marks, a->marks_length,
                               a->tension, start_a,
                               b->vertices_length == 0 ? &coordinate : b->vertices, b->vertices_length,
                               b->faces_length == 0 ? &number : b->faces, b->faces_length,
                               b->sides_length == 0 ? &byte : b->sides, b->sides_length,
                               b->marks_length == 0 ? &byte : b->marks, b->marks_length,
                               b->tension, start_b,
                               work_length == 0 ? &number : work, work_length);
}

#endif

#ifdef __cplusplus
}
#endif
#undef GEDROVIT_NOEXCEPT
#undef GEDROVIT_INLINE

#endif
