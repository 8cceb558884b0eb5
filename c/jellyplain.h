/* The library jellyplain for C and C++: a move by two poses, or a chain of up to 32 poses, is built once, kept by its
 * caller, and asked many times. `make` proves it and writes target/lib/libjellyplain.a and libjellyplain.so;
 * `pkg-config jellyplain` says how to link it where it is installed. The functions' contracts are proved in crates/api,
 * whose specs/ say what each returns and leaves for all arguments; this header itself is not checked against them, nor
 * are its inline functions, each of which makes at most one call, jellyplain_compatible two, jellyplain_decimal none.
 *
 * Each function answers a refusal number, 0 for none (the enum below), some of them in a struct. Where nothing is
 * refused it writes what it is lent for its answer, the arguments that are not const, whole (those of move files the
 * front of an array); after a refusal that is as it was, but for the `count` of a chain, which a refused build or join
 * sets to 0. Any floats may be handed in. `Refused with` names the numbers of a function in the order in which they are
 * judged, so that of several the first is answered; with `or` between them they come from the work itself, and the one
 * that is met first is answered.
 *
 * Pointers must be valid for the sizes that are written here and aligned for what they point to; an array that is
 * declared with its size has to be there whole. Of a list, a pointer with a length, as many have to be there as the
 * length says; where it is 0, nothing is read or written there, and the pointer may be NULL. What is read of a list
 * before its length is judged stands at each function. What a function writes overlaps nothing else that it is handed:
 * in C it is declared `restrict`, and gcc's -Wrestrict, a part of -Wall, warns where one array is handed over twice.
 *
 * Nothing is kept between calls and nothing is allocated, so that calls from several threads need no lock. The
 * functions need memcpy and memset, which a compiler's own code needs too, and nothing else from anywhere.
 *
 * What the guarantee asks of the thread that calls: its floating-point environment is the one that a program starts
 * with. On x86-64 that is SSE's control word, MXCSR: round to nearest even, no flush to zero, no denormals-are-zero,
 * every exception masked; (_mm_getcsr() & 0xffc0) == 0x1f80 says so. Otherwise a point may stand outside the cover that
 * was reserved for it, and nothing refuses it; with the invalid operation unmasked a cover may end the program
 * by SIGFPE: c/tests/thread.c shows each. gcc's -ffast-math and -Ofast, given where a program is linked (before
 * GCC 13 also a shared library), set both bits for zeros at its start, and a thread takes over the bits of the one that
 * started it. The x87 control word plays no part. Calls leave the control bits as they are, and may set MXCSR's flags.
 *
 * The stack that a call takes is at most JELLYPLAIN_STACK bytes. By what is asked, in kB: points and pads 10; building
 * a move, its transform, a refused run 12; rows by windows 18; lists of times 19; covers and motion boxes 28; windows,
 * a window's cover, building a chain, joining two 34; trying a pose 78; the others 2. tools/stack prints it from the
 * library's code, and c/tests/stack.c sees it on a painted stack.
 *
 * With -pedantic, in C before C23, an array of boxes that isn't const is handed over as (const float (*)[6])boxes.
 */
#ifndef JELLYPLAIN_H
#define JELLYPLAIN_H

#include <stdbool.h>
#include <stddef.h>
#include <stdint.h>
#include <string.h>

#ifdef __cplusplus
extern "C" {
#endif

/* Stands at each function whose answer may be a refusal: gcc and clang warn where it is passed over. */
#if defined(__GNUC__)
#define JELLYPLAIN_CHECKED __attribute__((warn_unused_result))
#else
#define JELLYPLAIN_CHECKED
#endif

/* Stands at what a function writes: it overlaps nothing else. C++ has no such word for an array. */
#if defined(__cplusplus)
#define JELLYPLAIN_RESTRICT
#else
#define JELLYPLAIN_RESTRICT restrict
#endif

/* A matrix of four rows at a time, and a pad of at least zero: how far beyond the boom the spray wets the ground. */
typedef struct {
    float time;
    float matrix[4][4];
    float pad;
} jellyplain_pose;

/* A built move. Its contents are the library's own business: leave them as jellyplain_build wrote them. Queries on
 * any other contents are answered too, but the guarantee of jellyplain_cover is for built moves. */
typedef struct {
    float rows[45][4];
} jellyplain_move;

/* The bytes of stack that a call takes at most, with some to spare. */
#define JELLYPLAIN_STACK 98304

/* The most poses and moves that a chain has. */
#define JELLYPLAIN_POSES 32
#define JELLYPLAIN_MOVES 31

/* The most boxes of a set, and the most parts of a box. */
#define JELLYPLAIN_BOXES 16

/* A built chain: its first `count` moves, one fewer than its poses. Any of them may be asked by itself. Leave it as
 * jellyplain_build_chain or jellyplain_chain_join wrote it. */
typedef struct {
    size_t count;
    jellyplain_move moves[JELLYPLAIN_MOVES];
} jellyplain_chain;

/* A chain that isn't built yet, as in `jellyplain_chain chain = JELLYPLAIN_CHAIN_INIT;`: it has no moves, and asking it
 * is refused with 12. A static chain without an initialiser is the same. */
#define JELLYPLAIN_CHAIN_INIT {0, {{{{0}}}}}

/* The layout of these structs. The library has been built with the same where jellyplain_layout() is this number. */
#define JELLYPLAIN_LAYOUT 3
uint32_t jellyplain_layout(void);

/* The version of this header, and of the library that is linked: 10000 * major + 100 * minor + patch. Another major
 * version has another boundary, a greater minor one more functions. */
#define JELLYPLAIN_VERSION 20000
uint32_t jellyplain_version(void);

/* Whether the library that is linked fits this header: the same major version and the same layout. To be asked once,
 * at the program's start. */
static inline bool jellyplain_compatible(void)
{
    return jellyplain_version() / 10000 == JELLYPLAIN_VERSION / 10000 && jellyplain_layout() == JELLYPLAIN_LAYOUT;
}

/* What is refused, by its number and in words. The functions answer the number as a uint8_t; a switch over
 * (jellyplain_refusal)number that has no default and leaves one out is warned of by -Wswitch, a part of -Wall. */
/* made by tools/numbers --write */
typedef enum jellyplain_refusal {
    JELLYPLAIN_NONE = 0,
    JELLYPLAIN_POSE_NOT_FINITE = 1, /* a matrix entry, a time or a pad of a pose isn't finite */
    JELLYPLAIN_BOTTOM_ROW = 2,      /* a bottom row of a pose's matrix isn't 0 0 0 1 */
    JELLYPLAIN_TIMES = 3,           /* the end time is below the start time, or their difference isn't finite */
    JELLYPLAIN_ZERO_PIVOT = 4,      /* a pose, or a scale on the way, flattens space: it has no inverse */
    JELLYPLAIN_NOT_FINITE = 5,      /* numbers leave the range of floats on the way */
    JELLYPLAIN_QUERY = 6,           /* the time asked for is NaN, or a coordinate isn't finite */
    JELLYPLAIN_CORNERS = 7,         /* a least corner of a box is above its greatest corner on some axis */
    JELLYPLAIN_DEPTH = 8,           /* the depth is above 12 */
    JELLYPLAIN_NINTH_ZERO = 9,      /* a motion box's search finds more than eight zeros on an axis */
    JELLYPLAIN_SQUARED_LENGTH = 10, /* a cover's slices are too wide for the rotation in them */
    JELLYPLAIN_FILE = 11,           /* a file departs from its layout */
    JELLYPLAIN_CHAIN = 12,          /* a chain has fewer than 2 poses or more than 32, or its times don't rise
                                     * strictly */
    JELLYPLAIN_TIME_LIST = 13,      /* a list of times falls, or the answers lent for it aren't three places a time */
    JELLYPLAIN_SET = 14,            /* a set has no box or more than 16, a box is cut into no parts or more than 16,
                                     * or a list of rows has none or more than 256 */
    JELLYPLAIN_ROOM = 15,           /* a buffer is too short for the text of a move file */
    JELLYPLAIN_PAD = 16,            /* a pad is below zero */
    JELLYPLAIN_NOT_RIGID = 17,      /* a pose of a rigid move or chain scales or shears */
    JELLYPLAIN_DETERMINANT = 18,    /* a pose of a rigid move or chain mirrors: its determinant isn't above zero */
    JELLYPLAIN_PLACE = 19,          /* a place is beyond the last pose */
    JELLYPLAIN_MISMATCH = 20,       /* two chains to be joined differ in a bit of the pose that they share, a zero's
                                     * sign too, or in their kind */
    JELLYPLAIN_TICKS = 21,          /* a tick is NaN, there are fewer than 2 or more than 64, or they don't rise
                                     * strictly */
    JELLYPLAIN_DAY = 22             /* a day has no boom or more than 8, or a run length outside 1 to 1,000 ticks */
} jellyplain_refusal;

/* What was refused, in words that last as long as the program; any number may be asked for. */
static inline const char *jellyplain_refusal_text(uint32_t number)
{
    switch (number) {
    case JELLYPLAIN_NONE:
        return "nothing is refused";
    case JELLYPLAIN_POSE_NOT_FINITE:
        return "a matrix entry, a time or a pad of a pose isn't finite";
    case JELLYPLAIN_BOTTOM_ROW:
        return "a bottom row of a pose's matrix isn't 0 0 0 1";
    case JELLYPLAIN_TIMES:
        return "the end time is below the start time, or their difference isn't finite";
    case JELLYPLAIN_ZERO_PIVOT:
        return "a pose, or a scale on the way, flattens space: it has no inverse";
    case JELLYPLAIN_NOT_FINITE:
        return "numbers leave the range of floats on the way";
    case JELLYPLAIN_QUERY:
        return "the time asked for is NaN, or a coordinate isn't finite";
    case JELLYPLAIN_CORNERS:
        return "a least corner of a box is above its greatest corner on some axis";
    case JELLYPLAIN_DEPTH:
        return "the depth is above 12";
    case JELLYPLAIN_NINTH_ZERO:
        return "a motion box's search finds more than eight zeros on an axis";
    case JELLYPLAIN_SQUARED_LENGTH:
        return "a cover's slices are too wide for the rotation in them";
    case JELLYPLAIN_FILE:
        return "a file departs from its layout";
    case JELLYPLAIN_CHAIN:
        return "a chain has fewer than 2 poses or more than 32, or its times don't rise strictly";
    case JELLYPLAIN_TIME_LIST:
        return "a list of times falls, or the answers lent for it aren't three places a time";
    case JELLYPLAIN_SET:
        return "a set has no box or more than 16, a box is cut into no parts or more than 16, or a list of rows has "
               "none or more than 256";
    case JELLYPLAIN_ROOM:
        return "a buffer is too short for the text of a move file";
    case JELLYPLAIN_PAD:
        return "a pad is below zero";
    case JELLYPLAIN_NOT_RIGID:
        return "a pose of a rigid move or chain scales or shears";
    case JELLYPLAIN_DETERMINANT:
        return "a pose of a rigid move or chain mirrors: its determinant isn't above zero";
    case JELLYPLAIN_PLACE:
        return "a place is beyond the last pose";
    case JELLYPLAIN_MISMATCH:
        return "two chains to be joined differ in a bit of the pose that they share, a zero's sign too, or in their "
               "kind";
    case JELLYPLAIN_TICKS:
        return "a tick is NaN, there are fewer than 2 or more than 64, or they don't rise strictly";
    case JELLYPLAIN_DAY:
        return "a day has no boom or more than 8, or a run length outside 1 to 1,000 ticks";
    default:
        return "a number that is not known";
    }
}
/* end of what tools/numbers makes */

/* The move from one pose to another. A boom that neither stretches nor shears may be built as rigid: between the poses
 * a turn and a shift alone, so that its covers are tighter.
 * Refused with 1, 2, 16, 3; a rigid one with 17, 18 of the start, then of the end; 4 or 5. */
JELLYPLAIN_CHECKED uint8_t jellyplain_build(bool rigid, const jellyplain_pose *start, const jellyplain_pose *end,
                                            jellyplain_move *JELLYPLAIN_RESTRICT motion);

/* Where the point p stands at a time.
 * Refused with 6, 5. */
JELLYPLAIN_CHECKED uint8_t jellyplain_point(const jellyplain_move *motion, float time, const float p[3],
                                            float moved[JELLYPLAIN_RESTRICT 3]);

/* The pad at a time: between the times lerp of the two poses' pads, before and after them that pose's own, the larger
 * throughout where the poses are equal.
 * Refused with 6, 5. */
JELLYPLAIN_CHECKED uint8_t jellyplain_pad(const jellyplain_move *motion, float time, float pad[JELLYPLAIN_RESTRICT 1]);

/* The transform at a time: its matrix, and then its inverse.
 * Refused with 6; 4 or 5. */
JELLYPLAIN_CHECKED uint8_t jellyplain_interpolate(const jellyplain_move *motion, float time,
                                                  float transform[JELLYPLAIN_RESTRICT 2][4][4]);

/* pbrt's motion box of a point: x0 y0 z0 x1 y1 z1, least corner and greatest corner. It is no cover. What it cost: how
 * many intervals its search examined on x, y and z, at most 511 each, and 0 where the poses are equal.
 * Refused with 6; 5 or 9. */
JELLYPLAIN_CHECKED uint8_t jellyplain_bound_point_motion(const jellyplain_move *motion, const float p[3],
                                                         float bounds[JELLYPLAIN_RESTRICT 6],
                                                         uint32_t examined[JELLYPLAIN_RESTRICT 3]);

/* pbrt's motion box of the box b. It is no cover. The counts are the sums over its eight corners, and 0 for a move
 * without rotation, which needs no search.
 * Refused with 6, 7; 5 or 9. */
JELLYPLAIN_CHECKED uint8_t jellyplain_motion_bounds(const jellyplain_move *motion, const float b[6],
                                                    float bounds[JELLYPLAIN_RESTRICT 6],
                                                    uint32_t examined[JELLYPLAIN_RESTRICT 3]);

/* A box that holds every point of the box b at every time but NaN, and that point less and plus the pad at that time on
 * each axis, each rounded; from 2^depth slices of the move. A greater depth, up to 12, is not refused where a lesser
 * was accepted, and its box lies in the lesser's. Its zeros are +0, whatever signs went into them.
 * Refused with 6, 7, 8; 5 or 10. */
JELLYPLAIN_CHECKED uint8_t jellyplain_cover(const jellyplain_move *motion, const float b[6], uint32_t depth,
                                            float bounds[JELLYPLAIN_RESTRICT 6]);

/* ---- chains, by their moves; the inline functions below take the struct
 *
 * `count` is how many moves there are, 1 to JELLYPLAIN_MOVES. 0 and more than JELLYPLAIN_MOVES are no chain, which is
 * refused with 12 before a move is read: `no chain` below. jellyplain_moves_try judges its place before that. */

/* The moves of a chain of poses whose times rise strictly, one fewer than poses, into the front of `moves`; those
 * behind them stay. All `count` poses are read before their number is judged.
 * Refused with 1, 2, 16 of any pose; 12, 3; a rigid chain with 17, 18 pose by pose; 4 or 5. */
JELLYPLAIN_CHECKED uint8_t jellyplain_build_moves(bool rigid, const jellyplain_pose *poses, size_t count,
                                                  jellyplain_move moves[JELLYPLAIN_RESTRICT JELLYPLAIN_MOVES]);

/* The moves of two chains made one, with the pose that they share once, into the front of `moves`, the first's and then
 * the second's; those behind them stay. It answers as the first up to the shared time, as the second above it, and its
 * cover is the union of theirs. Where neither count is 0, all moves of both are read before their number is judged.
 * Refused with 12 where either has no moves; 20 where the last pose of the first and the first of the second differ
 * in a bit of time, matrix or pad, or one chain is rigid and the other isn't; 12 for more than 32 poses, or for
 * times that don't rise strictly, as where jellyplain_build wrote a move with equal times. */
JELLYPLAIN_CHECKED uint8_t jellyplain_moves_join(const jellyplain_move *first, size_t first_count,
                                                 const jellyplain_move *second, size_t second_count,
                                                 jellyplain_move moves[JELLYPLAIN_RESTRICT JELLYPLAIN_MOVES]);

/* A run's first place and its length and JELLYPLAIN_NONE, or 0, 0 and a refusal. */
typedef struct {
    size_t place;
    size_t length;
    uint8_t refusal;
} jellyplain_run;

/* Of poses that are refused as a chain, the shortest run of neighbouring ones that is refused with the same number, the
 * leftmost among equals: one pose, as a move from it to itself, or two. Place and length are 0 where the poses are a
 * chain. All `count` poses are read, however many there are.
 * Refused with 12, where the poses are refused with it. */
JELLYPLAIN_CHECKED jellyplain_run jellyplain_refused_run(bool rigid, const jellyplain_pose *poses, size_t count);

/* Where the point p stands at a time: a time equal to an inner pose's belongs to the earlier move.
 * Refused with 12 for no chain; 6, 5. */
JELLYPLAIN_CHECKED uint8_t jellyplain_moves_point(const jellyplain_move *moves, size_t count, float time,
                                                  const float p[3], float moved[JELLYPLAIN_RESTRICT 3]);

/* The pad at a time, of the move that the time belongs to.
 * Refused with 12 for no chain; 6, 5. */
JELLYPLAIN_CHECKED uint8_t jellyplain_moves_pad(const jellyplain_move *moves, size_t count, float time,
                                                float pad[JELLYPLAIN_RESTRICT 1]);

/* The transform at a time, of the move that the time belongs to: its matrix, and then its inverse. A boom that is
 * driven to it stands where jellyplain_moves_point says: the matrix applied to a point, each row's products with x, y,
 * z and 1 added from the left in floats, is the point query's answer bit for bit. It may be refused where points are
 * answered: between two poses the scale on the way may have no inverse, 4, or the inverse may leave the range of
 * floats, 5, and a point needs no inverse.
 * Refused with 12 for no chain; 6; 4 or 5. */
JELLYPLAIN_CHECKED uint8_t jellyplain_moves_interpolate(const jellyplain_move *moves, size_t count, float time,
                                                        float transform[JELLYPLAIN_RESTRICT 2][4][4]);

/* What a chain holds: how many poses, the times of the first and of the last, whether it was built as rigid, and
 * JELLYPLAIN_NONE; or 0, +0, +0, false and a refusal. */
typedef struct {
    size_t poses;
    float first;
    float last;
    bool rigid;
    uint8_t refusal;
} jellyplain_held;

/* What a chain holds.
 * Refused with 12 for no chain. */
JELLYPLAIN_CHECKED jellyplain_held jellyplain_moves_held(const jellyplain_move *moves, size_t count);

/* The pose of a chain at a place, counted from 0, as it was set, bit by bit.
 * Refused with 12 for no chain; 19 for a place beyond the last pose. */
JELLYPLAIN_CHECKED uint8_t jellyplain_moves_pose(const jellyplain_move *moves, size_t count, size_t place,
                                                 jellyplain_pose *JELLYPLAIN_RESTRICT pose);

/* Where the point p stands at each time of a list that never falls, three places a time. All times are read before
 * `places` is judged, and of `answers` nothing is read; all places stay after a refusal.
 * Refused with 12 for no chain; 6, 13, 5. */
JELLYPLAIN_CHECKED uint8_t jellyplain_moves_points(const jellyplain_move *moves, size_t count, const float *times,
                                                   size_t times_count, const float p[3],
                                                   float *JELLYPLAIN_RESTRICT answers, size_t places);

/* A box that holds every point of the box b at every time but NaN, less and plus its pad as above, from 2^depth slices
 * of each move; greater depths and zeros as above.
 * Refused with 12 for no chain; 6, 7, 8; 5 or 10. */
JELLYPLAIN_CHECKED uint8_t jellyplain_moves_cover(const jellyplain_move *moves, size_t count, const float b[6],
                                                  uint32_t depth, float bounds[JELLYPLAIN_RESTRICT 6]);

/* The cover of the box b if the pose at a place, counted from 0, were this one: what jellyplain_moves_cover answers of
 * a chain that is built with it. Only the moves beside the place are built, and `moves` stays as it is.
 * Refused with 19 for a place beyond the last pose, any place where there are no moves; 12 for more than
 * JELLYPLAIN_MOVES; as the changed chain is with 1, 2, 16, 12, 3, a rigid one 17, 18, then 4 or 5; 6, 7, 8; 5 or 10. */
JELLYPLAIN_CHECKED uint8_t jellyplain_moves_try(const jellyplain_move *moves, size_t count, size_t place,
                                                const jellyplain_pose *pose, const float b[6], uint32_t depth,
                                                float bounds[JELLYPLAIN_RESTRICT 6]);

/* A box for each of 1 to 16 boxes that holds every point of it at every time but NaN, as jellyplain_moves_cover does,
 * in order, the places behind them +0; and the union of them.
 * `boxes_count` is judged before a box is read; `covers` and `all` stay after a refusal.
 * Refused with 12 for no chain; 14; as jellyplain_moves_cover is of the first refused box. */
JELLYPLAIN_CHECKED uint8_t jellyplain_moves_covers(const jellyplain_move *moves, size_t count, const float (*boxes)[6],
                                                   size_t boxes_count, uint32_t depth,
                                                   float covers[JELLYPLAIN_RESTRICT JELLYPLAIN_BOXES][6],
                                                   float all[JELLYPLAIN_RESTRICT 6]);

/* ---- two chains over one bay */

/* The most ticks, and the most windows between them. */
#define JELLYPLAIN_TICK_COUNT 64
#define JELLYPLAIN_WINDOWS 63

/* How many windows are listed and JELLYPLAIN_NONE, or 0 and a refusal. */
typedef struct {
    size_t count;
    uint8_t refusal;
} jellyplain_windows;

/* A box that holds every point of the box b at every time from one tick to a later one, both included, less and plus
 * its pad as above; each move's share of the window is cut depth times. Greater depths and zeros as above. Ticks may be
 * infinite.
 * Refused with 12 for no chain; 21 where the ticks don't rise; 6, 7, 8; 5 or 10. */
JELLYPLAIN_CHECKED uint8_t jellyplain_moves_window_cover(const jellyplain_move *moves, size_t count, const float b[6],
                                                         uint32_t depth, float earlier, float later,
                                                         float bounds[JELLYPLAIN_RESTRICT 6]);

/* The windows between neighbouring ticks, counted from 0, in which the boxes of two chains meet, touching included,
 * into the front of `places`, 0 behind them. In any other window, ticks included, no point of b and no point of
 * `other`, each less or plus its pad or anything between, are ever at the same place. A greater depth, up to 12, lists
 * no other. `ticks_count` is judged before a tick is read; all places stay after a refusal.
 * Refused with 12 where either is no chain; 21 of the ticks; 6, 7 of b; 6, 7 of `other`; 8; 5 or 10, the earlier
 * window first, then the first chain. */
JELLYPLAIN_CHECKED jellyplain_windows jellyplain_moves_windows(const jellyplain_move *moves, size_t count,
                                                               const jellyplain_move *others, size_t others_count,
                                                               const float b[6], const float other[6], uint32_t depth,
                                                               const float *ticks, size_t ticks_count,
                                                               uint32_t places[JELLYPLAIN_RESTRICT JELLYPLAIN_WINDOWS]);

/* ---- move files */

/* The most poses that a file has room for (519 where they have pads), and the bytes that hold the text of any chain. */
#define JELLYPLAIN_FILE_POSES 559
#define JELLYPLAIN_TEXT 4161

/* How many poses a file holds and JELLYPLAIN_NONE, or 0 and a refusal. */
typedef struct {
    size_t count;
    uint8_t refusal;
} jellyplain_file_read;

/* How many bytes a text has and JELLYPLAIN_NONE, or 0 and a refusal. */
typedef struct {
    size_t length;
    uint8_t refusal;
} jellyplain_written;

/* The poses of a move file into the front of `poses`, with pads of +0 where the file has the old thirteen names, and
 * its box; whether they make a chain is asked by jellyplain_build_moves. More than 65,536 bytes are no move file, which
 * is judged once the first line is read; poses and box stay after a refusal.
 * Refused with 11. */
JELLYPLAIN_CHECKED jellyplain_file_read jellyplain_read_file(
    const uint8_t *bytes, size_t size, jellyplain_pose poses[JELLYPLAIN_RESTRICT JELLYPLAIN_FILE_POSES],
    float bounds[JELLYPLAIN_RESTRICT 6]);

/* The poses of a chain and the box b as a move file, in the one way that it is written: fourteen names, lower-case
 * digits, single spaces, line feeds, no space at a line's end. The text goes into the front of `out`, and the bytes
 * behind it stay; all bytes do after a refusal. `size` is judged before a byte is written, and none is read.
 * Refused with 12 for no chain; 6, 7; 15 where `size` is too small. */
JELLYPLAIN_CHECKED jellyplain_written jellyplain_write_file(const jellyplain_move *moves, size_t count,
                                                            const float b[6], uint8_t *JELLYPLAIN_RESTRICT out,
                                                            size_t size);

/* ---- a day of booms */

/* The most booms of a day. */
#define JELLYPLAIN_BOOMS 8

/* The tick in which each of the first `count` booms starts, a cover and a run length of 1 to 1,000 ticks each; all wait
 * from tick 0 and are taken in their order, and one starts where its box meets, even by touching, no running boom's
 * box. No two that run meet, and each starts no later than the sum of the others' run lengths. The places behind them
 * are 0. `count` is judged before a boom is read; `starts` stays after a refusal.
 * Refused with 22; 6, 7 of the first refused box. */
JELLYPLAIN_CHECKED uint8_t jellyplain_day(const float boxes[JELLYPLAIN_BOOMS][6],
                                          const uint32_t lengths[JELLYPLAIN_BOOMS], size_t count,
                                          uint32_t starts[JELLYPLAIN_RESTRICT JELLYPLAIN_BOOMS]);

/* ---- the rows that a boom reaches */

/* The most rows. */
#define JELLYPLAIN_ROWS 256

/* How many rows are named and JELLYPLAIN_NONE, or 0 and a refusal. */
typedef struct {
    size_t count;
    uint8_t refusal;
} jellyplain_reached;

/* The places, counted from 0, of those of 1 to 256 rows, each a box, that a cover meets, touching included, into the
 * front of `places`, 0 behind them. A row that is not named holds no point of the boom at any time, less or plus its
 * pad or anything between, where the cover is one that this library gave for the boom's box: jellyplain_cover,
 * jellyplain_moves_cover, of a set the union. A window's cover says so at the times of its window only. `rows_count` is
 * judged before a row is read; all places stay after a refusal.
 * Refused with 14 for no rows or more than 256; 6, 7 of the cover; 6, 7 of the first refused row. */
JELLYPLAIN_CHECKED jellyplain_reached jellyplain_reached_rows(const float cover[6], const float (*rows)[6],
                                                              size_t rows_count,
                                                              uint32_t places[JELLYPLAIN_RESTRICT JELLYPLAIN_ROWS]);

/* A box in n parts along its longest axis, the first of equals, in order into the front of `parts`; those behind them
 * stay. Each part lies in the box, and every point of the box is inside some part. For a boom in parts
 * jellyplain_moves_reach names fewer rows than for the whole box. All parts stay after a refusal.
 * Refused with 14 for n of 0 or above 16; 6, 7. */
JELLYPLAIN_CHECKED uint8_t jellyplain_cut(const float b[6], uint32_t n,
                                          float parts[JELLYPLAIN_RESTRICT JELLYPLAIN_BOXES][6]);

/* Which of 1 to 256 rows, each a box, a boom of 1 to 16 boxes may wet, and in which of the windows between neighbouring
 * ticks: one mask a row, in order into the front of `masks`; those behind them stay. Bit w of a mask is 1 exactly where
 * the row is named in window w, counted from 0: it meets, touching included, one of the boxes whose union is
 * jellyplain_moves_window_cover's answer for that window and one of the boom's boxes. So the rows whose mask isn't 0
 * are the map, and their bits the schedule. Ticks may be infinite: with -infinity and +infinity alone there is one
 * window, all time.
 * In a row that isn't named in a window there is no point of any of the boxes at any time of the window, both ticks
 * included, less or plus its pad or anything between. A greater depth, up to 12, is not refused where a lesser was
 * accepted, and each of its masks is a part of the lesser's, bit by bit. A row that is named in a window meets that
 * window's cover of one of the boxes. `boxes_count`, `rows_count` and `ticks_count` are judged before a box, a row or a
 * tick is read; all masks stay after a refusal.
 * Refused with 12 for no moves; 14 for no boxes or more than 16; 14 for no rows or more than 256; 21 of the ticks; 6, 7
 * of the first refused box; 6, 7 of the first refused row; 8; 5 or 10, the earlier window first, then the first box. */
JELLYPLAIN_CHECKED uint8_t jellyplain_moves_reach(const jellyplain_move *moves, size_t count, const float (*boxes)[6],
                                                  size_t boxes_count, uint32_t depth, const float *ticks,
                                                  size_t ticks_count, const float (*rows)[6], size_t rows_count,
                                                  uint64_t masks[JELLYPLAIN_RESTRICT JELLYPLAIN_ROWS]);

/* ---- chains, by the struct: each is refused as the function is that it calls */

/* How many moves a chain has, and 0 where `count` is no chain's, so that asking it is refused with 12. */
static inline size_t jellyplain_chain_count(const jellyplain_chain *chain)
{
    return chain->count <= JELLYPLAIN_MOVES ? chain->count : 0;
}

/* After a refusal the chain has no moves: `count` is 0, and asking it is refused with 12. */
JELLYPLAIN_CHECKED static inline uint8_t jellyplain_build_chain(bool rigid, const jellyplain_pose *poses, size_t count,
                                                                jellyplain_chain *JELLYPLAIN_RESTRICT chain)
{
    uint8_t refusal = jellyplain_build_moves(rigid, poses, count, chain->moves);
    chain->count = refusal == JELLYPLAIN_NONE ? count - 1 : 0;
    return refusal;
}

/* `joined` is neither of the two. After a refusal it has no moves, as above. */
JELLYPLAIN_CHECKED static inline uint8_t jellyplain_chain_join(const jellyplain_chain *first,
                                                               const jellyplain_chain *second,
                                                               jellyplain_chain *JELLYPLAIN_RESTRICT joined)
{
    size_t first_count = jellyplain_chain_count(first), second_count = jellyplain_chain_count(second);
    uint8_t refusal = jellyplain_moves_join(first->moves, first_count, second->moves, second_count, joined->moves);
    joined->count = refusal == JELLYPLAIN_NONE ? first_count + second_count : 0;
    return refusal;
}

JELLYPLAIN_CHECKED static inline uint8_t jellyplain_chain_point(const jellyplain_chain *chain, float time,
                                                                const float p[3], float moved[JELLYPLAIN_RESTRICT 3])
{
    return jellyplain_moves_point(chain->moves, jellyplain_chain_count(chain), time, p, moved);
}

JELLYPLAIN_CHECKED static inline uint8_t jellyplain_chain_pad(const jellyplain_chain *chain, float time,
                                                              float pad[JELLYPLAIN_RESTRICT 1])
{
    return jellyplain_moves_pad(chain->moves, jellyplain_chain_count(chain), time, pad);
}

JELLYPLAIN_CHECKED static inline uint8_t jellyplain_chain_interpolate(const jellyplain_chain *chain, float time,
                                                                      float transform[JELLYPLAIN_RESTRICT 2][4][4])
{
    return jellyplain_moves_interpolate(chain->moves, jellyplain_chain_count(chain), time, transform);
}

JELLYPLAIN_CHECKED static inline jellyplain_held jellyplain_chain_held(const jellyplain_chain *chain)
{
    return jellyplain_moves_held(chain->moves, jellyplain_chain_count(chain));
}

JELLYPLAIN_CHECKED static inline uint8_t jellyplain_chain_pose(const jellyplain_chain *chain, size_t place,
                                                               jellyplain_pose *JELLYPLAIN_RESTRICT pose)
{
    return jellyplain_moves_pose(chain->moves, jellyplain_chain_count(chain), place, pose);
}

JELLYPLAIN_CHECKED static inline uint8_t jellyplain_chain_points(const jellyplain_chain *chain, const float *times,
                                                                 size_t times_count, const float p[3],
                                                                 float *JELLYPLAIN_RESTRICT answers, size_t places)
{
    return jellyplain_moves_points(chain->moves, jellyplain_chain_count(chain), times, times_count, p, answers, places);
}

JELLYPLAIN_CHECKED static inline uint8_t jellyplain_chain_cover(const jellyplain_chain *chain, const float b[6],
                                                                uint32_t depth, float bounds[JELLYPLAIN_RESTRICT 6])
{
    return jellyplain_moves_cover(chain->moves, jellyplain_chain_count(chain), b, depth, bounds);
}

/* Refused with 12 first where the chain has no moves. */
JELLYPLAIN_CHECKED static inline uint8_t jellyplain_chain_try(const jellyplain_chain *chain, size_t place,
                                                              const jellyplain_pose *pose, const float b[6],
                                                              uint32_t depth, float bounds[JELLYPLAIN_RESTRICT 6])
{
    size_t count = jellyplain_chain_count(chain);
    if (count == 0)
        return JELLYPLAIN_CHAIN;
    return jellyplain_moves_try(chain->moves, count, place, pose, b, depth, bounds);
}

JELLYPLAIN_CHECKED static inline uint8_t jellyplain_chain_covers(const jellyplain_chain *chain, const float (*boxes)[6],
                                                                 size_t boxes_count, uint32_t depth,
                                                                 float covers[JELLYPLAIN_RESTRICT JELLYPLAIN_BOXES][6],
                                                                 float all[JELLYPLAIN_RESTRICT 6])
{
    return jellyplain_moves_covers(chain->moves, jellyplain_chain_count(chain), boxes, boxes_count, depth, covers, all);
}

JELLYPLAIN_CHECKED static inline uint8_t jellyplain_chain_window_cover(const jellyplain_chain *chain, const float b[6],
                                                                       uint32_t depth, float earlier, float later,
                                                                       float bounds[JELLYPLAIN_RESTRICT 6])
{
    return jellyplain_moves_window_cover(chain->moves, jellyplain_chain_count(chain), b, depth, earlier, later, bounds);
}

JELLYPLAIN_CHECKED static inline jellyplain_windows jellyplain_chain_windows(
    const jellyplain_chain *chain, const jellyplain_chain *others, const float b[6], const float other[6],
    uint32_t depth, const float *ticks, size_t ticks_count, uint32_t places[JELLYPLAIN_RESTRICT JELLYPLAIN_WINDOWS])
{
    return jellyplain_moves_windows(chain->moves, jellyplain_chain_count(chain), others->moves,
                                    jellyplain_chain_count(others), b, other, depth, ticks, ticks_count, places);
}

JELLYPLAIN_CHECKED static inline uint8_t jellyplain_chain_reach(const jellyplain_chain *chain, const float (*boxes)[6],
                                                                size_t boxes_count, uint32_t depth, const float *ticks,
                                                                size_t ticks_count, const float (*rows)[6],
                                                                size_t rows_count,
                                                                uint64_t masks[JELLYPLAIN_RESTRICT JELLYPLAIN_ROWS])
{
    return jellyplain_moves_reach(chain->moves, jellyplain_chain_count(chain), boxes, boxes_count, depth, ticks,
                                  ticks_count, rows, rows_count, masks);
}

JELLYPLAIN_CHECKED static inline jellyplain_written jellyplain_chain_write(
    const jellyplain_chain *chain, const float b[6], uint8_t *JELLYPLAIN_RESTRICT out, size_t size)
{
    return jellyplain_write_file(chain->moves, jellyplain_chain_count(chain), b, out, size);
}

/* ---- a box in decimals. printf's %g and %f round to the nearest, which may be inward: the text then names a smaller
 * box than the one that is proved. These round outward, by whole numbers, whatever the thread's rounding is. */

/* How many chars hold any of these texts, its end included. */
#define JELLYPLAIN_DECIMAL 52

/* A float as a decimal with `places` digits behind the point, 9 where it asks for more, rounded up or down. A zero has
 * no sign. What is no number is "nan", "inf" or "-inf". */
static inline void jellyplain_decimal(float value, bool up, uint32_t places, char text[JELLYPLAIN_DECIMAL])
{
    uint8_t digits[JELLYPLAIN_DECIMAL]; /* of the whole number |value| * 10^places, rounded; the last digit first */
    uint32_t bits, exponent, count = 0, length = 0, sum, i, k;
    uint64_t n;
    bool negative, zero = true;
    memcpy(&bits, &value, sizeof bits);
    negative = bits >> 31 != 0;
    exponent = bits >> 23 & 255;
    if (exponent == 255) {
        memcpy(text, (bits & 0x7fffff) != 0 ? "nan\0" : negative ? "-inf" : "inf\0", 5);
        return;
    }
    places = places < 9 ? places : 9;
    n = (bits & 0x7fffff) | (exponent != 0 ? 0x800000u : 0);
    exponent = exponent != 0 ? exponent : 1; /* |value| is n * 2^(exponent - 150) */
    for (k = 0; k < places; k++)
        n *= 10;
    if (exponent < 150) {
        uint32_t down = 150 - exponent < 63 ? 150 - exponent : 63; /* n is below 2^54 */
        n = (n >> down) + ((n & (((uint64_t)1 << down) - 1)) != 0 && up != negative ? 1 : 0);
    }
    for (; n != 0 || count <= places; n /= 10)
        digits[count++] = (uint8_t)(n % 10);
    for (k = 150; k < exponent; k++) { /* twice the number */
        for (i = 0, sum = 0; i < count; i++, sum /= 10) {
            sum += 2u * digits[i];
            digits[i] = (uint8_t)(sum % 10);
        }
        if (sum != 0)
            digits[count++] = (uint8_t)sum;
    }
    for (i = 0; i < count; i++)
        zero = zero && digits[i] == 0;
    if (negative && !zero)
        text[length++] = '-';
    while (count != 0) {
        count--;
        text[length++] = (char)('0' + digits[count]);
        if (count == places && places != 0)
            text[length++] = '.';
    }
    text[length] = '\0';
}

/* The six numbers of a box: its least corner rounded down, its greatest up. */
static inline void jellyplain_decimals(const float box[6], uint32_t places, char text[6][JELLYPLAIN_DECIMAL])
{
    for (uint32_t k = 0; k < 6; k++)
        jellyplain_decimal(box[k], k >= 3, places, text[k]);
}

#ifdef __cplusplus
}
#endif

#endif
