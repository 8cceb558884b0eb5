/* A fuzz of every function that the library exports: any numbers, any lengths, any bytes.
 *   fuzz SEED CALLS [SECONDS]   so many calls, or fewer where the seconds are over; exit status 1 at the first fault, with the seed and the call's number
 *   fuzz --list                 the names of the functions that are called
 * Each array ends where a page begins that can be neither read nor written; what the function may only read can't be written. Each call is made twice, over two
 * different fillings of what is lent: its number is one of those that the header names for it, it is the same both times, after a refusal all that was lent is as
 * it came, and otherwise what is written is the same both times and nothing around it is touched.
 */
#define _DEFAULT_SOURCE
#include <signal.h>
#include <stdio.h>
#include <stdlib.h>
#include <string.h>
#include <sys/mman.h>
#include <time.h>
#include <unistd.h>

#include "jellyplain.h"

/* ---- numbers */

static uint64_t state;

static uint64_t next(void)
{
    state ^= state << 13;
    state ^= state >> 7;
    state ^= state << 17;
    return state;
}

static size_t below(size_t n)
{
    return (size_t)(next() >> 11) % n;
}

static bool once_in(size_t n)
{
    return below(n) == 0;
}

static float of_bits(uint32_t bits)
{
    float x;
    memcpy(&x, &bits, sizeof x);
    return x;
}

static float between(float low, float high)
{
    return low + (high - low) * (float)below(1u << 24) / (float)(1u << 24);
}

/* 0, -0, the infinities, two NaN, the least and greatest subnormal and normal numbers, 1, -1, 2^24, 2^127 */
static const uint32_t special[] = {0,          0x80000000, 0x7f800000, 0xff800000, 0x7fc00000, 0x7f800001, 1,          0x80000001, 0x007fffff,
                                   0x00800000, 0x7f7fffff, 0xff7fffff, 0x3f800000, 0xbf800000, 0x4b800000, 0x7f000000, 0xff000000};

static float any_float(void)
{
    switch (below(4)) {
    case 0:
        return of_bits((uint32_t)next());
    case 1:
        return of_bits(special[below(sizeof special / sizeof special[0])]);
    case 2:
        return (float)below(9) - 4;
    default:
        return between(-20, 20);
    }
}

/* A number that a caller would hand in, and now and then any other. */
static float likely(float low, float high)
{
    return once_in(40) ? any_float() : between(low, high);
}

static size_t likely_count(size_t most)
{
    return once_in(12) ? below(most + 10) : below(most + 1);
}

static uint32_t any_depth(void)
{
    return once_in(30) ? (uint32_t)next() : once_in(30) ? (uint32_t)below(15) : (uint32_t)below(5);
}

/* ---- memory: arrays that end where a page begins that can't be touched */

#define ROOM ((size_t)1 << 17)
#define AREAS 10

typedef struct {
    unsigned char *from, *at;
    size_t size;
    bool lent;
} area;

static area areas[AREAS];
static size_t used;

static void fault(const char *what);

static void make_areas(void)
{
    size_t page = (size_t)sysconf(_SC_PAGESIZE);
    for (size_t i = 0; i < AREAS; i++) {
        unsigned char *whole = (unsigned char *)mmap(NULL, ROOM + 2 * page, PROT_NONE, MAP_PRIVATE | MAP_ANONYMOUS, -1, 0);
        if (whole == MAP_FAILED || mprotect(whole + page, ROOM, PROT_READ | PROT_WRITE) != 0) {
            puts("fuzz: no memory");
            exit(2);
        }
        areas[i].from = whole + page;
    }
}

/* An array of so many bytes that the function only reads. */
static void *given(size_t size)
{
    area *a = &areas[used++];
    a->lent = false;
    a->size = size;
    a->at = a->from + ROOM - size;
    return a->at;
}

/* An array that it is lent for its answer. */
static void *lent(size_t size)
{
    void *at = given(size);
    areas[used - 1].lent = true;
    return at;
}

/* How much of a lent array an accepted call writes, from its front; whole where nothing else is said. */
static size_t written[AREAS];

static size_t front_of(size_t size)
{
    return size < ROOM ? size : ROOM;
}

static void fill(unsigned char filling)
{
    for (size_t i = 0; i < used; i++)
        if (areas[i].lent)
            memset(areas[i].at - 64 < areas[i].from ? areas[i].from : areas[i].at - 64, filling,
                   areas[i].at - 64 < areas[i].from ? ROOM : areas[i].size + 64);
}

static bool filled(const unsigned char *from, const unsigned char *to, unsigned char filling)
{
    for (; from < to; from++)
        if (*from != filling)
            return false;
    return true;
}

static void guard(int mode)
{
    for (size_t i = 0; i < used; i++)
        if (!areas[i].lent && mprotect(areas[i].from, ROOM, mode) != 0)
            fault("mprotect");
}

/* ---- what is handed in */

static void put_pose(jellyplain_pose *pose, float time, bool rigid)
{
    /* a turn about z in halves of Pythagorean parts, so that no library of mathematics is asked */
    float t = likely(-1, 1), n = 1 + t * t, c = (1 - t * t) / n, s = 2 * t / n, k = rigid ? 1 : likely(0.5f, 2);
    float matrix[4][4] = {{c * k, -s, 0, 0}, {s, c * k, 0, 0}, {0, 0, 1, 0}, {0, 0, 0, 1}};
    memcpy(pose->matrix, matrix, sizeof matrix);
    for (size_t i = 0; i < 3; i++)
        pose->matrix[i][3] = likely(-20, 20);
    if (once_in(20))
        pose->matrix[below(4)][below(4)] = any_float();
    pose->time = once_in(40) ? any_float() : time;
    pose->pad = once_in(3) ? likely(0, 2) : 0;
}

static jellyplain_pose *any_poses(size_t count, bool rigid)
{
    jellyplain_pose *poses = (jellyplain_pose *)given(count * sizeof *poses);
    float time = likely(-10, 10);
    for (size_t i = 0; i < count; i++) {
        if (i > 0 && once_in(10)) {
            poses[i] = poses[i - 1];
            poses[i].time = time;
        } else {
            put_pose(&poses[i], time, rigid);
        }
        time += once_in(30) ? 0 : likely(0.1f, 3);
    }
    return poses;
}

/* Kept moves: of a built chain, with a float changed now and then, or any floats. */
static jellyplain_move built[JELLYPLAIN_MOVES];
static size_t built_count;

static void build_some(void)
{
    jellyplain_pose poses[JELLYPLAIN_POSES];
    size_t count = 2 + below(once_in(10) ? JELLYPLAIN_POSES - 1 : 4);
    bool rigid = once_in(2);
    float time = between(-10, 10);
    for (size_t i = 0; i < count; i++) {
        put_pose(&poses[i], time, rigid);
        time += between(0.1f, 3);
    }
    if (jellyplain_build_moves(rigid, poses, count, built) == JELLYPLAIN_NONE)
        built_count = count - 1;
}

static jellyplain_move *any_moves(size_t count)
{
    jellyplain_move *moves = (jellyplain_move *)given(count * sizeof *moves);
    bool wild = once_in(10);
    for (size_t i = 0; i < count; i++) {
        if (wild || built_count == 0)
            for (size_t j = 0; j < 180; j++)
                moves[i].rows[j / 4][j % 4] = any_float();
        else
            moves[i] = built[i % built_count];
        if (once_in(20))
            moves[i].rows[below(45)][below(4)] = any_float();
    }
    return moves;
}

static size_t moves_count(void)
{
    return once_in(20) ? below(45) : built_count > 0 && !once_in(8) ? built_count : below(4);
}

static float *any_floats(size_t count, float low, float high)
{
    float *floats = (float *)given(count * sizeof *floats);
    for (size_t i = 0; i < count; i++)
        floats[i] = likely(low, high);
    return floats;
}

/* Floats that rise, but for some. */
static float *any_times(size_t count)
{
    float *times = (float *)given(count * sizeof *times), time = once_in(6) ? of_bits(0xff800000) : likely(-12, 0);
    for (size_t i = 0; i < count; i++) {
        times[i] = time;
        time = once_in(200) ? any_float() : i == 0 && !(time > -100) ? likely(-12, 0) : time + likely(0.01f, 2);
    }
    if (count > 0 && once_in(6))
        times[count - 1] = of_bits(0x7f800000);
    return times;
}

/* Boxes, most of them in order. */
static float (*any_boxes(size_t count))[6]
{
    float(*boxes)[6] = (float(*)[6])given(count * sizeof *boxes);
    for (size_t i = 0; i < count; i++)
        for (size_t axis = 0; axis < 3; axis++) {
            boxes[i][axis] = likely(-20, 20);
            boxes[i][axis + 3] = once_in(200) ? any_float() : boxes[i][axis] + between(0, 4);
        }
    return boxes;
}

/* ---- the functions: each puts its arguments once, and may then be called twice */

static unsigned call_build(void)
{
    static bool rigid;
    static jellyplain_pose *poses;
    static jellyplain_move *move;
    if (used == 0) {
        rigid = once_in(2);
        poses = any_poses(2, rigid);
        move = (jellyplain_move *)lent(sizeof *move);
    }
    return jellyplain_build(rigid, &poses[0], &poses[1], move);
}

static unsigned call_point(void)
{
    static jellyplain_move *move;
    static float time, *p, *moved;
    if (used == 0) {
        move = any_moves(1);
        time = likely(-12, 12);
        p = any_floats(3, -20, 20);
        moved = (float *)lent(3 * sizeof *moved);
    }
    return jellyplain_point(move, time, p, moved);
}

static unsigned call_pad(void)
{
    static jellyplain_move *move;
    static float time, *pad;
    if (used == 0) {
        move = any_moves(1);
        time = likely(-12, 12);
        pad = (float *)lent(sizeof *pad);
    }
    return jellyplain_pad(move, time, pad);
}

static unsigned call_interpolate(void)
{
    static jellyplain_move *move;
    static float time, (*transform)[4][4];
    if (used == 0) {
        move = any_moves(1);
        time = likely(-12, 12);
        transform = (float(*)[4][4])lent(2 * sizeof *transform);
    }
    return jellyplain_interpolate(move, time, transform);
}

static unsigned call_bound_point_motion(void)
{
    static jellyplain_move *move;
    static float *p, *bounds;
    static uint32_t *examined;
    if (used == 0) {
        move = any_moves(1);
        p = any_floats(3, -20, 20);
        bounds = (float *)lent(6 * sizeof *bounds);
        examined = (uint32_t *)lent(3 * sizeof *examined);
    }
    unsigned number = jellyplain_bound_point_motion(move, p, bounds, examined);
    if (number == JELLYPLAIN_NONE && (examined[0] > 511 || examined[1] > 511 || examined[2] > 511))
        fault("more intervals are examined than there are");
    return number;
}

static unsigned call_motion_bounds(void)
{
    static jellyplain_move *move;
    static float(*b)[6], *bounds;
    static uint32_t *examined;
    if (used == 0) {
        move = any_moves(1);
        b = any_boxes(1);
        bounds = (float *)lent(6 * sizeof *bounds);
        examined = (uint32_t *)lent(3 * sizeof *examined);
    }
    return jellyplain_motion_bounds(move, *b, bounds, examined);
}

static unsigned call_cover(void)
{
    static jellyplain_move *move;
    static float(*b)[6], *bounds;
    static uint32_t depth;
    if (used == 0) {
        move = any_moves(1);
        b = any_boxes(1);
        depth = any_depth();
        bounds = (float *)lent(6 * sizeof *bounds);
    }
    return jellyplain_cover(move, *b, depth, bounds);
}

static unsigned call_build_moves(void)
{
    static bool rigid;
    static size_t count;
    static jellyplain_pose *poses;
    static jellyplain_move *moves;
    if (used == 0) {
        rigid = once_in(2);
        count = once_in(4) ? likely_count(JELLYPLAIN_POSES) : below(5);
        poses = any_poses(count, rigid);
        moves = (jellyplain_move *)lent(JELLYPLAIN_MOVES * sizeof *moves);
        written[1] = count > 0 ? (count - 1) * sizeof *moves : 0;
    }
    return jellyplain_build_moves(rigid, poses, count, moves);
}

static unsigned call_moves_join(void)
{
    static size_t first_count, second_count;
    static jellyplain_move *first, *second, *moves;
    if (used == 0) {
        size_t cut = built_count > 1 ? 1 + below(built_count - 1) : 1;
        bool halves = built_count > 1 && !once_in(4);
        first_count = halves ? cut : moves_count();
        second_count = halves ? built_count - cut : moves_count();
        first = any_moves(first_count);
        second = any_moves(second_count);
        if (halves)
            memcpy(second, built + cut, second_count * sizeof *second);
        moves = (jellyplain_move *)lent(JELLYPLAIN_MOVES * sizeof *moves);
        written[2] = front_of((first_count + second_count) * sizeof *moves);
    }
    return jellyplain_moves_join(first, first_count, second, second_count, moves);
}

static unsigned call_refused_run(void)
{
    static bool rigid;
    static size_t count;
    static jellyplain_pose *poses;
    if (used == 0) {
        rigid = once_in(2);
        count = once_in(4) ? likely_count(JELLYPLAIN_POSES) : below(5);
        poses = any_poses(count, rigid);
    }
    jellyplain_run run = jellyplain_refused_run(rigid, poses, count);
    if (run.length > 2 || run.place + run.length > count || (run.refusal != JELLYPLAIN_NONE && run.length != 0))
        fault("a run that isn't among the poses");
    return run.refusal;
}

static unsigned call_moves_point(void)
{
    static size_t count;
    static jellyplain_move *moves;
    static float time, *p, *moved;
    if (used == 0) {
        count = moves_count();
        moves = any_moves(count);
        time = likely(-12, 12);
        p = any_floats(3, -20, 20);
        moved = (float *)lent(3 * sizeof *moved);
    }
    return jellyplain_moves_point(moves, count, time, p, moved);
}

static unsigned call_moves_pad(void)
{
    static size_t count;
    static jellyplain_move *moves;
    static float time, *pad;
    if (used == 0) {
        count = moves_count();
        moves = any_moves(count);
        time = likely(-12, 12);
        pad = (float *)lent(sizeof *pad);
    }
    return jellyplain_moves_pad(moves, count, time, pad);
}

static unsigned call_moves_interpolate(void)
{
    static size_t count;
    static jellyplain_move *moves;
    static float time, (*transform)[4][4];
    if (used == 0) {
        count = moves_count();
        moves = any_moves(count);
        time = likely(-12, 12);
        transform = (float(*)[4][4])lent(2 * sizeof *transform);
    }
    return jellyplain_moves_interpolate(moves, count, time, transform);
}

static unsigned call_moves_held(void)
{
    static size_t count;
    static jellyplain_move *moves;
    if (used == 0) {
        count = once_in(10) ? (size_t)next() | 32 : moves_count();
        moves = any_moves(count <= JELLYPLAIN_MOVES ? count : 0);
    }
    jellyplain_held held = jellyplain_moves_held(moves, count);
    if (held.poses != (held.refusal == JELLYPLAIN_NONE ? count + 1 : 0))
        fault("a chain that holds other poses than it has");
    return held.refusal;
}

static unsigned call_moves_pose(void)
{
    static size_t count, place;
    static jellyplain_move *moves;
    static jellyplain_pose *pose;
    if (used == 0) {
        count = once_in(10) ? (size_t)next() | 32 : moves_count();
        moves = any_moves(count <= JELLYPLAIN_MOVES ? count : 0);
        place = once_in(10) ? (size_t)next() : below(count % 40 + 2);
        pose = (jellyplain_pose *)lent(sizeof *pose);
    }
    return jellyplain_moves_pose(moves, count, place, pose);
}

static unsigned call_moves_points(void)
{
    static size_t count, times_count, places;
    static jellyplain_move *moves;
    static float *times, *p, *answers;
    if (used == 0) {
        count = moves_count();
        moves = any_moves(count);
        times_count = below(40);
        times = any_times(times_count);
        p = any_floats(3, -20, 20);
        places = once_in(20) ? below(130) : 3 * times_count;
        answers = (float *)lent(places * sizeof *answers);
    }
    return jellyplain_moves_points(moves, count, times, times_count, p, answers, places);
}

static unsigned call_moves_cover(void)
{
    static size_t count;
    static jellyplain_move *moves;
    static float(*b)[6], *bounds;
    static uint32_t depth;
    if (used == 0) {
        count = moves_count();
        moves = any_moves(count);
        b = any_boxes(1);
        depth = any_depth();
        bounds = (float *)lent(6 * sizeof *bounds);
    }
    return jellyplain_moves_cover(moves, count, *b, depth, bounds);
}

static unsigned call_moves_try(void)
{
    static size_t count, place;
    static jellyplain_move *moves;
    static jellyplain_pose *pose;
    static float(*b)[6], *bounds;
    static uint32_t depth;
    if (used == 0) {
        count = once_in(10) ? (size_t)next() : moves_count();
        moves = any_moves(count <= JELLYPLAIN_MOVES ? count : 0);
        place = once_in(10) ? (size_t)next() : below(count % 40 + 2);
        pose = any_poses(1, once_in(2));
        b = any_boxes(1);
        depth = any_depth();
        bounds = (float *)lent(6 * sizeof *bounds);
    }
    return jellyplain_moves_try(moves, count, place, pose, *b, depth, bounds);
}

/* A length above the most that is judged before the list is read: nothing of the list is there. */
static size_t judged_count(size_t most, size_t *there)
{
    size_t count = once_in(20) ? (once_in(2) ? most + 1 : (size_t)next() | (most + 1)) : likely_count(most) % (most + 1);
    *there = count <= most ? count : 0;
    return count;
}

/* Mostly few, so that a call is short. */
static size_t few_count(size_t few, size_t most, size_t *there)
{
    size_t count = judged_count(most, there);
    if (count <= most && !once_in(4))
        *there = count = count % (few + 1);
    return count;
}

static unsigned call_moves_covers(void)
{
    static size_t count, boxes_count;
    static jellyplain_move *moves;
    static float(*boxes)[6], (*covers)[6], *all;
    static uint32_t depth;
    if (used == 0) {
        size_t there;
        count = moves_count();
        moves = any_moves(count);
        boxes_count = judged_count(JELLYPLAIN_BOXES, &there);
        boxes = any_boxes(there);
        depth = any_depth() % 11;
        covers = (float(*)[6])lent(JELLYPLAIN_BOXES * sizeof *covers);
        all = (float *)lent(6 * sizeof *all);
    }
    return jellyplain_moves_covers(moves, count, (const float(*)[6])boxes, boxes_count, depth, covers, all);
}

static unsigned call_moves_window_cover(void)
{
    static size_t count;
    static jellyplain_move *moves;
    static float(*b)[6], *bounds, earlier, later;
    static uint32_t depth;
    if (used == 0) {
        count = moves_count();
        moves = any_moves(count);
        b = any_boxes(1);
        depth = any_depth();
        earlier = once_in(8) ? of_bits(0xff800000) : likely(-12, 12);
        later = once_in(8) ? of_bits(0x7f800000) : earlier + likely(0, 4);
        bounds = (float *)lent(6 * sizeof *bounds);
    }
    return jellyplain_moves_window_cover(moves, count, *b, depth, earlier, later, bounds);
}

static unsigned call_moves_windows(void)
{
    static size_t count, others_count, ticks_count;
    static jellyplain_move *moves, *others;
    static float(*b)[6], (*other)[6], *ticks;
    static uint32_t depth, *places;
    if (used == 0) {
        size_t there;
        count = moves_count();
        moves = any_moves(count);
        others_count = moves_count();
        others = any_moves(others_count);
        b = any_boxes(1);
        other = any_boxes(1);
        depth = any_depth() % 7 == 6 ? (uint32_t)next() : any_depth() % 7;
        ticks_count = judged_count(JELLYPLAIN_TICK_COUNT, &there);
        ticks = any_times(there);
        places = (uint32_t *)lent(JELLYPLAIN_WINDOWS * sizeof *places);
    }
    jellyplain_windows answer = jellyplain_moves_windows(moves, count, others, others_count, *b, *other, depth, ticks, ticks_count, places);
    if (answer.count >= JELLYPLAIN_TICK_COUNT || (answer.refusal != JELLYPLAIN_NONE && answer.count != 0))
        fault("more windows are listed than there are");
    return answer.refusal;
}

static unsigned call_read_file(void)
{
    static size_t size;
    static uint8_t *bytes;
    static jellyplain_pose *poses;
    static float *bounds;
    if (used == 0) {
        static uint8_t text[JELLYPLAIN_TEXT];
        static const float box[6] = {-1, -1, -1, 1, 1, 1};
        jellyplain_written file = jellyplain_write_file(built, built_count, box, text, sizeof text);
        size = once_in(50) ? below(ROOM) : once_in(4) ? below(file.length + 1) : file.length;
        bytes = (uint8_t *)given(size);
        for (size_t i = 0; i < size; i++)
            bytes[i] = file.length > 0 ? text[i % file.length] : (uint8_t)next();
        for (size_t i = below(4); size > 0 && i > 0; i--)
            bytes[below(size)] = once_in(2) ? (uint8_t)next() : (uint8_t) "0123456789abcdefABCDEF \t\r\n"[below(26)];
        poses = (jellyplain_pose *)lent(JELLYPLAIN_FILE_POSES * sizeof *poses);
        bounds = (float *)lent(6 * sizeof *bounds);
    }
    jellyplain_file_read answer = jellyplain_read_file(bytes, size, poses, bounds);
    if (answer.count > JELLYPLAIN_FILE_POSES || (answer.refusal != JELLYPLAIN_NONE && answer.count != 0))
        fault("more poses are read than there is room for");
    written[1] = answer.count * sizeof *poses;
    return answer.refusal;
}

static unsigned call_write_file(void)
{
    static size_t count, size;
    static jellyplain_move *moves;
    static float(*b)[6];
    static uint8_t *out;
    if (used == 0) {
        count = once_in(20) ? below(45) : moves_count();
        moves = any_moves(count);
        b = any_boxes(1);
        size = once_in(3) ? below(JELLYPLAIN_TEXT + 2000) : JELLYPLAIN_TEXT;
        out = (uint8_t *)lent(size);
    }
    jellyplain_written answer = jellyplain_write_file(moves, count, *b, out, size);
    if (answer.length > size || (answer.refusal != JELLYPLAIN_NONE && answer.length != 0))
        fault("a text that is longer than its buffer");
    written[2] = answer.length;
    return answer.refusal;
}

static unsigned call_day(void)
{
    static size_t count;
    static float(*boxes)[6];
    static uint32_t *lengths, *starts;
    if (used == 0) {
        size_t there;
        count = judged_count(JELLYPLAIN_BOOMS, &there);
        boxes = any_boxes(JELLYPLAIN_BOOMS);
        lengths = (uint32_t *)given(JELLYPLAIN_BOOMS * sizeof *lengths);
        for (size_t i = 0; i < JELLYPLAIN_BOOMS; i++)
            lengths[i] = once_in(40) ? (uint32_t)next() : 1 + (uint32_t)below(1000);
        starts = (uint32_t *)lent(JELLYPLAIN_BOOMS * sizeof *starts);
    }
    return jellyplain_day((const float(*)[6])boxes, lengths, count, starts);
}

static unsigned call_reached_rows(void)
{
    static size_t rows_count;
    static float(*cover)[6], (*rows)[6];
    static uint32_t *places;
    if (used == 0) {
        size_t there;
        cover = any_boxes(1);
        rows_count = judged_count(JELLYPLAIN_ROWS, &there);
        rows = any_boxes(there);
        places = (uint32_t *)lent(JELLYPLAIN_ROWS * sizeof *places);
    }
    jellyplain_reached answer = jellyplain_reached_rows(*cover, (const float(*)[6])rows, rows_count, places);
    if (answer.count > JELLYPLAIN_ROWS || (answer.refusal != JELLYPLAIN_NONE && answer.count != 0))
        fault("more rows are named than there are");
    return answer.refusal;
}

static unsigned call_cut(void)
{
    static float(*b)[6], (*parts)[6];
    static uint32_t n;
    if (used == 0) {
        b = any_boxes(1);
        n = once_in(20) ? (uint32_t)next() : (uint32_t)likely_count(JELLYPLAIN_BOXES);
        parts = (float(*)[6])lent(JELLYPLAIN_BOXES * sizeof *parts);
        written[1] = front_of(n * sizeof *parts);
    }
    return jellyplain_cut(*b, n, parts);
}

static unsigned call_moves_reach(void)
{
    static size_t count, boxes_count, ticks_count, rows_count;
    static jellyplain_move *moves;
    static float(*boxes)[6], *ticks, (*rows)[6];
    static uint32_t depth;
    static uint64_t *masks;
    if (used == 0) {
        size_t there;
        count = moves_count();
        moves = any_moves(count);
        boxes_count = few_count(3, JELLYPLAIN_BOXES, &there);
        boxes = any_boxes(there);
        ticks_count = few_count(5, JELLYPLAIN_TICK_COUNT, &there);
        ticks = any_times(there);
        rows_count = few_count(20, JELLYPLAIN_ROWS, &there);
        rows = any_boxes(there);
        depth = once_in(30) ? (uint32_t)next() : any_depth() % 4;
        masks = (uint64_t *)lent(JELLYPLAIN_ROWS * sizeof *masks);
        written[4] = there * sizeof *masks;
    }
    unsigned number = jellyplain_moves_reach(moves, count, (const float(*)[6])boxes, boxes_count, depth, ticks, ticks_count, (const float(*)[6])rows, rows_count, masks);
    for (size_t i = 0; number == JELLYPLAIN_NONE && i < rows_count; i++)
        if (masks[i] >> (ticks_count - 1) != 0)
            fault("names a row in a window that isn't there");
    return number;
}

static unsigned call_layout(void)
{
    return jellyplain_layout() == JELLYPLAIN_LAYOUT ? 0 : 255;
}

static unsigned call_version(void)
{
    return jellyplain_version() == JELLYPLAIN_VERSION ? 0 : 255;
}

/* Each with the numbers that the header names for it, by bits. */
#define N(number) (1u << (number))
#define BUILD (N(1) | N(2) | N(16) | N(3) | N(17) | N(18) | N(4) | N(5))
#define COVER (N(6) | N(7) | N(8) | N(5) | N(10))
static const struct {
    const char *name;
    unsigned (*call)(void);
    uint32_t numbers;
} functions[] = {
    {"jellyplain_layout", call_layout, 0},
    {"jellyplain_version", call_version, 0},
    {"jellyplain_build", call_build, BUILD},
    {"jellyplain_point", call_point, N(6) | N(5)},
    {"jellyplain_pad", call_pad, N(6) | N(5)},
    {"jellyplain_interpolate", call_interpolate, N(6) | N(4) | N(5)},
    {"jellyplain_bound_point_motion", call_bound_point_motion, N(6) | N(5) | N(9)},
    {"jellyplain_motion_bounds", call_motion_bounds, N(6) | N(7) | N(5) | N(9)},
    {"jellyplain_cover", call_cover, COVER},
    {"jellyplain_build_moves", call_build_moves, BUILD | N(12)},
    {"jellyplain_moves_join", call_moves_join, N(12) | N(20)},
    {"jellyplain_refused_run", call_refused_run, N(12)},
    {"jellyplain_moves_point", call_moves_point, N(12) | N(6) | N(5)},
    {"jellyplain_moves_pad", call_moves_pad, N(12) | N(6) | N(5)},
    {"jellyplain_moves_interpolate", call_moves_interpolate, N(12) | N(6) | N(4) | N(5)},
    {"jellyplain_moves_held", call_moves_held, N(12)},
    {"jellyplain_moves_pose", call_moves_pose, N(12) | N(19)},
    {"jellyplain_moves_points", call_moves_points, N(12) | N(6) | N(13) | N(5)},
    {"jellyplain_moves_cover", call_moves_cover, N(12) | COVER},
    {"jellyplain_moves_try", call_moves_try, N(19) | N(12) | BUILD | COVER},
    {"jellyplain_moves_covers", call_moves_covers, N(12) | N(14) | COVER},
    {"jellyplain_moves_window_cover", call_moves_window_cover, N(12) | N(21) | COVER},
    {"jellyplain_moves_windows", call_moves_windows, N(12) | N(21) | COVER},
    {"jellyplain_read_file", call_read_file, N(11)},
    {"jellyplain_write_file", call_write_file, N(12) | N(6) | N(7) | N(15)},
    {"jellyplain_day", call_day, N(22) | N(6) | N(7)},
    {"jellyplain_reached_rows", call_reached_rows, N(14) | N(6) | N(7)},
    {"jellyplain_cut", call_cut, N(14) | N(6) | N(7)},
    {"jellyplain_moves_reach", call_moves_reach, N(12) | N(14) | N(21) | COVER},
};
#define FUNCTIONS (sizeof functions / sizeof functions[0])

/* ---- one call */

static uint64_t seed;
static unsigned long calls;
static const char *asked = "";

static void fault(const char *what)
{
    printf("fuzz: %s: %s (seed %llu, call %lu)\n", asked, what, (unsigned long long)seed, calls);
    fflush(stdout);
    _exit(1);
}

static void crashed(int number)
{
    (void)number;
    fault("reads or writes beyond what it was handed, or stops the program");
}

/* After a refusal every byte is as it came; otherwise those behind what is written are, and those in front of the array in any case. */
static void look_around(unsigned number, unsigned char filling)
{
    for (size_t i = 0; i < used; i++) {
        area *a = &areas[i];
        if (!a->lent)
            continue;
        const unsigned char *front = a->at - 64 < a->from ? a->from : a->at - 64;
        if (!filled(front, a->at, filling))
            fault("writes in front of what it is lent");
        size_t whole = number == JELLYPLAIN_NONE ? (written[i] < a->size ? written[i] : a->size) : 0;
        if (!filled(a->at + whole, a->at + a->size, filling))
            fault(number == JELLYPLAIN_NONE ? "writes behind its answer" : "writes although it refuses");
    }
}

static unsigned long accepted[FUNCTIONS], refused[FUNCTIONS];

static void call(size_t k)
{
    static unsigned char first[AREAS][ROOM];
    const unsigned char fillings[2] = {0xa5, 0x5a};
    unsigned numbers[2];
    asked = functions[k].name;
    used = 0;
    for (size_t i = 0; i < AREAS; i++)
        written[i] = ROOM;
    (void)functions[k].call(); /* puts the arguments */
    for (size_t turn = 0; turn < 2; turn++) {
        fill(fillings[turn]);
        guard(PROT_READ);
        numbers[turn] = functions[k].call();
        guard(PROT_READ | PROT_WRITE);
        if (numbers[turn] > 31 || (numbers[turn] != JELLYPLAIN_NONE && !(functions[k].numbers >> numbers[turn] & 1)))
            fault("answers a number that the header doesn't name for it");
        look_around(numbers[turn], fillings[turn]);
        for (size_t i = 0; i < used; i++) {
            size_t whole = written[i] < areas[i].size ? written[i] : areas[i].size;
            if (!areas[i].lent || numbers[turn] != JELLYPLAIN_NONE)
                continue;
            if (turn == 0)
                memcpy(first[i], areas[i].at, whole);
            else if (memcmp(first[i], areas[i].at, whole) != 0)
                fault("leaves a part of its answer as it came, or answers otherwise the second time");
        }
    }
    if (numbers[0] != numbers[1])
        fault("answers another number the second time");
    ++*(numbers[0] == JELLYPLAIN_NONE ? &accepted[k] : &refused[k]);
}

int main(int count, char **words)
{
    if (count == 2 && strcmp(words[1], "--list") == 0) {
        for (size_t k = 0; k < FUNCTIONS; k++)
            puts(functions[k].name);
        return 0;
    }
    if (count != 3 && count != 4) {
        puts("fuzz SEED CALLS [SECONDS], or fuzz --list");
        return 2;
    }
    seed = strtoull(words[1], NULL, 10);
    unsigned long most = strtoul(words[2], NULL, 10);
    double seconds = count == 4 ? strtod(words[3], NULL) : 1e9;
    state = seed * 2862933555777941757u + 3037000493u;
    if (state == 0)
        state = 1;
    make_areas();
    signal(SIGSEGV, crashed);
    signal(SIGBUS, crashed);
    signal(SIGFPE, crashed);
    signal(SIGILL, crashed);
    time_t start = time(NULL);
    for (calls = 0; calls < most && (calls % 256 != 0 || difftime(time(NULL), start) < seconds); calls++) {
        if (calls % 8 == 0)
            build_some();
        call(calls < FUNCTIONS ? calls : below(FUNCTIONS));
    }
    unsigned long met = 0;
    for (size_t k = 0; k < FUNCTIONS; k++) {
        met += accepted[k] > 0 && (functions[k].numbers == 0 || refused[k] > 0);
        if (getenv("FUZZ_COUNTS") != NULL)
            printf("%-32s %8lu accepted %8lu refused\n", functions[k].name, accepted[k], refused[k]);
    }
    if (most >= 20000 && calls == most && met != FUNCTIONS) {
        puts("fuzz: a function was never accepted, or never refused");
        return 1;
    }
    printf("%lu calls of %zu functions, each made twice: no fault (seed %llu)\n", calls, FUNCTIONS, (unsigned long long)seed);
    return 0;
}
