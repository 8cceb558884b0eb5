/* Every function of jellyplain.h: worked cases, the files of examples/ with their expected answers, and every refusal number, after each of which all that was lent is as it was.
 * C99 and C++11 alike. Run by tools/boundary.sh with files as arguments:  calls examples/NAME.txt .. examples/refused/NAME.txt .. examples/days/NAME.txt ..
 */
#include <math.h>
#include <stdio.h>
#include <stdlib.h>
#include <string.h>

#include "jellyplain.h"

static unsigned checks, failures;

static void expect(bool holds, const char *what, int line)
{
    checks++;
    if (!holds) {
        failures++;
        printf("c/tests/calls.c:%d: not so: %s\n", line, what);
    }
}
#define EXPECT(condition) expect((condition), #condition, __LINE__)

static uint32_t bits_of(float x)
{
    uint32_t bits;
    memcpy(&bits, &x, sizeof bits);
    return bits;
}

static float float_of(uint32_t bits)
{
    float x;
    memcpy(&x, &bits, sizeof x);
    return x;
}

/* The same bits. */
static bool same(const float *a, const float *b, size_t count)
{
    return memcmp(a, b, count * sizeof *a) == 0;
}

/* ---- all that is lent for an answer, in one place, so that a refusal is seen to leave all of it alone */

static struct {
    jellyplain_move move;
    jellyplain_chain chain;
    float moved[3], pad[1], transform[2][4][4], bounds[6], points[9], covers[JELLYPLAIN_BOXES][6];
    uint32_t examined[3], places[JELLYPLAIN_WINDOWS], starts[JELLYPLAIN_BOOMS];
    jellyplain_pose poses[JELLYPLAIN_FILE_POSES];
    uint8_t text[JELLYPLAIN_TEXT];
    uint32_t rows[JELLYPLAIN_ROWS];
    float parts[JELLYPLAIN_BOXES][6];
    uint64_t masks[JELLYPLAIN_ROWS];
} lent;

#define FILLED 0xa5

static void fill(void)
{
    memset(&lent, FILLED, sizeof lent);
}

static bool untouched(const void *from, size_t size)
{
    const unsigned char *bytes = (const unsigned char *)from;
    for (size_t i = 0; i < size; i++)
        if (bytes[i] != FILLED)
            return false;
    return true;
}

#define NUMBERS 23
static unsigned given[NUMBERS];

static void expect_refused(unsigned number, unsigned answered, const char *call, int line)
{
    expect(answered == number, call, line);
    expect(untouched(&lent, sizeof lent), "what was lent stays", line);
    if (answered < NUMBERS)
        given[answered]++;
}
/* A build or a join that is refused leaves a chain without moves, and all else as it was. */
static void expect_not_built(unsigned number, unsigned answered, const char *call, int line)
{
    expect(lent.chain.count == 0, "a refused chain has no moves", line);
    memset(&lent.chain.count, FILLED, sizeof lent.chain.count);
    expect_refused(number, answered, call, line);
}
#define NOT_BUILT(number, call) (fill(), expect_not_built((number), (call), #call, __LINE__))
#define REFUSED(number, call) (fill(), expect_refused((number), (call), #call, __LINE__))
#define ACCEPTED(call) (fill(), expect((call) == JELLYPLAIN_NONE, #call, __LINE__))

/* ---- poses */

static jellyplain_pose still(float time)
{
    jellyplain_pose pose = {0, {{1, 0, 0, 0}, {0, 1, 0, 0}, {0, 0, 1, 0}, {0, 0, 0, 1}}, 0};
    pose.time = time;
    return pose;
}

static jellyplain_pose shifted(float time, float x)
{
    jellyplain_pose pose = still(time);
    pose.matrix[0][3] = x;
    return pose;
}

static jellyplain_pose stretched(float time, float x)
{
    jellyplain_pose pose = still(time);
    pose.matrix[0][0] = x;
    return pose;
}

/* A quarter turn about z. */
static jellyplain_pose turned(float time)
{
    jellyplain_pose pose = {0, {{0, -1, 0, 0}, {1, 0, 0, 0}, {0, 0, 1, 0}, {0, 0, 0, 1}}, 0};
    pose.time = time;
    return pose;
}

static const float origin[3] = {0, 0, 0}, unit_box[6] = {0, 0, 0, 1, 1, 1}, crossed[6] = {1, 0, 0, 0, 0, 0}, point_box[6] = {0, 0, 0, 0, 0, 0};
static float nan_value, nan_box[6], nan_point[3], infinite;

/* ---- moves */

static void moves(void)
{
    jellyplain_pose start = still(0), end = shifted(1, 1), other;
    jellyplain_move move;

    ACCEPTED(jellyplain_build(false, &start, &end, &lent.move));
    move = lent.move;
    EXPECT(untouched(&lent.chain, sizeof lent.chain));

    const float halfway[3] = {0.5f, 0, 0}, there[3] = {1, 0, 0};
    ACCEPTED(jellyplain_point(&move, 0.5f, origin, lent.moved));
    EXPECT(same(lent.moved, halfway, 3));
    ACCEPTED(jellyplain_point(&move, -infinite, origin, lent.moved));
    EXPECT(same(lent.moved, origin, 3));
    ACCEPTED(jellyplain_point(&move, infinite, origin, lent.moved));
    EXPECT(same(lent.moved, there, 3));
    REFUSED(6, jellyplain_point(&move, nan_value, origin, lent.moved));
    REFUSED(6, jellyplain_point(&move, 0, nan_point, lent.moved));

    const float transform[2][4][4] = {{{1, 0, 0, 0.5f}, {0, 1, 0, 0}, {0, 0, 1, 0}, {0, 0, 0, 1}}, {{1, 0, 0, -0.5f}, {0, 1, 0, 0}, {0, 0, 1, 0}, {0, 0, 0, 1}}};
    ACCEPTED(jellyplain_interpolate(&move, 0.5f, lent.transform));
    EXPECT(same(&lent.transform[0][0][0], &transform[0][0][0], 32));
    REFUSED(6, jellyplain_interpolate(&move, nan_value, lent.transform));
    jellyplain_move unbuilt = move; /* an infinite entry in the stored start */
    unbuilt.rows[0][0] = infinite;
    REFUSED(5, jellyplain_interpolate(&unbuilt, -1, lent.transform));

    const float along[6] = {0, 0, 0, 1, 0, 0}, boxes[6] = {0, 0, 0, 2, 1, 1};
    ACCEPTED(jellyplain_bound_point_motion(&move, origin, lent.bounds, lent.examined));
    EXPECT(same(lent.bounds, along, 6) && lent.examined[0] == 1 && lent.examined[1] == 1 && lent.examined[2] == 1);
    REFUSED(6, jellyplain_bound_point_motion(&move, nan_point, lent.bounds, lent.examined));
    ACCEPTED(jellyplain_motion_bounds(&move, unit_box, lent.bounds, lent.examined));
    EXPECT(same(lent.bounds, boxes, 6) && lent.examined[0] == 0 && lent.examined[1] == 0 && lent.examined[2] == 0);
    REFUSED(6, jellyplain_motion_bounds(&move, nan_box, lent.bounds, lent.examined));
    REFUSED(7, jellyplain_motion_bounds(&move, crossed, lent.bounds, lent.examined));

    ACCEPTED(jellyplain_cover(&move, point_box, 1, lent.bounds));
    EXPECT(same(lent.bounds, along, 6));
    REFUSED(10, jellyplain_cover(&move, point_box, 0, lent.bounds));
    REFUSED(8, jellyplain_cover(&move, point_box, 13, lent.bounds));
    REFUSED(6, jellyplain_cover(&move, nan_box, 13, lent.bounds));
    REFUSED(7, jellyplain_cover(&move, crossed, 13, lent.bounds));

    /* A cover's zeros are +0; a point's keep their signs. */
    const float minus[6] = {-0.0f, -0.0f, -0.0f, -0.0f, -0.0f, -0.0f};
    jellyplain_pose from = still(0), to = still(1);
    for (int i = 0; i < 3; i++)
        from.matrix[i][3] = to.matrix[i][3] = -0.0f;
    jellyplain_move resting;
    ACCEPTED(jellyplain_build(false, &from, &to, &resting));
    ACCEPTED(jellyplain_point(&resting, 0.5f, minus, lent.moved));
    EXPECT(same(lent.moved, minus, 3));
    ACCEPTED(jellyplain_cover(&resting, minus, 1, lent.bounds));
    EXPECT(same(lent.bounds, point_box, 6));

    /* The pad goes from 1 to 3. */
    jellyplain_pose narrow = start, wide = end;
    narrow.pad = 1;
    wide.pad = 3;
    const float grown[6] = {-3, -3.5f, -3.5f, 4.5f, 3.5f, 3.5f};
    jellyplain_move spraying;
    ACCEPTED(jellyplain_build(false, &narrow, &wide, &spraying));
    ACCEPTED(jellyplain_pad(&spraying, 0.5f, lent.pad));
    EXPECT(lent.pad[0] == 2);
    REFUSED(6, jellyplain_pad(&spraying, nan_value, lent.pad));
    ACCEPTED(jellyplain_cover(&spraying, point_box, 1, lent.bounds));
    EXPECT(same(lent.bounds, grown, 6));

    /* What isn't built. */
    other = shifted(1, infinite);
    REFUSED(1, jellyplain_build(false, &start, &other, &lent.move));
    other = end;
    other.matrix[3][0] = 1;
    REFUSED(2, jellyplain_build(false, &start, &other, &lent.move));
    REFUSED(3, jellyplain_build(false, &end, &start, &lent.move));
    other = stretched(1, 0);
    REFUSED(4, jellyplain_build(false, &start, &other, &lent.move));
    other = stretched(1, 1e-39f);
    REFUSED(5, jellyplain_build(false, &start, &other, &lent.move));
    other = end;
    other.pad = -1;
    REFUSED(16, jellyplain_build(false, &start, &other, &lent.move));
    other = stretched(1, 1.1f);
    REFUSED(17, jellyplain_build(true, &start, &other, &lent.move));
    other = stretched(1, -1);
    REFUSED(18, jellyplain_build(true, &start, &other, &lent.move));

    /* A rigid quarter turn: the same matrices at its poses, and the cover holds the corners on the way. */
    other = turned(1);
    jellyplain_move turn;
    const float arm[3] = {2, 0, 0}, boom[6] = {0, 0, 0, 2, 0, 0}, turned_arm[3] = {0, 2, 0};
    ACCEPTED(jellyplain_build(true, &start, &other, &turn));
    ACCEPTED(jellyplain_point(&turn, 1, arm, lent.moved));
    EXPECT(same(lent.moved, turned_arm, 3));
    ACCEPTED(jellyplain_cover(&turn, boom, 8, lent.bounds));
    float cover[6], moved[3];
    memcpy(cover, lent.bounds, sizeof cover);
    EXPECT(cover[0] <= 0 && cover[0] > -0.1f && cover[3] >= 2 && cover[3] < 2.1f && cover[4] >= 2 && cover[4] < 2.1f);
    for (int k = 0; k <= 100; k++) {
        EXPECT(jellyplain_point(&turn, (float)k / 100, arm, moved) == JELLYPLAIN_NONE);
        EXPECT(cover[0] <= moved[0] && moved[0] <= cover[3] && cover[1] <= moved[1] && moved[1] <= cover[4] && cover[2] <= moved[2] && moved[2] <= cover[5]);
    }

    /* A search that finds a ninth zero. */
    jellyplain_pose ninth = still(1);
    const uint32_t words[6] = {0x3f7f20ae, 0xbd2ea87d, 0x3ea238f7, 0x3dae7ac6, 0x3f7fd34d, 0x40edcb23};
    ninth.matrix[0][0] = float_of(words[0]);
    ninth.matrix[0][1] = float_of(words[1]);
    ninth.matrix[0][3] = float_of(words[2]);
    ninth.matrix[1][0] = float_of(words[3]);
    ninth.matrix[1][1] = float_of(words[4]);
    const float p[3] = {0, float_of(words[5]), 0};
    ACCEPTED(jellyplain_build(false, &start, &ninth, &turn));
    REFUSED(9, jellyplain_bound_point_motion(&turn, p, lent.bounds, lent.examined));
    const float around[6] = {0, p[1], 0, 0, p[1], 0};
    REFUSED(9, jellyplain_motion_bounds(&turn, around, lent.bounds, lent.examined));

    /* A move that nothing has built is answered too. */
    static jellyplain_move nothing;
    REFUSED(5, jellyplain_point(&nothing, 0, arm, lent.moved));
}

/* ---- chains */

static void chains(void)
{
    jellyplain_pose poses[JELLYPLAIN_POSES + 1];
    for (int i = 0; i <= JELLYPLAIN_POSES; i++)
        poses[i] = shifted((float)i, (float)i);
    static jellyplain_chain chain, first, second, whole;
    static jellyplain_chain empty;

    /* There and back: 0, 1, 2 seconds. */
    jellyplain_pose trip[3] = {still(0), shifted(1, 1), still(2)};
    ACCEPTED(jellyplain_build_chain(false, trip, 3, &lent.chain));
    EXPECT(lent.chain.count == 2 && untouched(&lent.chain.moves[2], sizeof lent.chain.moves - 2 * sizeof lent.chain.moves[0]));
    chain = lent.chain;
    NOT_BUILT(12, jellyplain_build_chain(false, trip, 0, &lent.chain));
    NOT_BUILT(12, jellyplain_build_chain(false, trip, 1, &lent.chain));
    NOT_BUILT(12, jellyplain_build_chain(false, poses, JELLYPLAIN_POSES + 1, &lent.chain));
    REFUSED(12, jellyplain_build_moves(true, poses, JELLYPLAIN_POSES + 1, lent.chain.moves));
    ACCEPTED(jellyplain_build_moves(true, poses, JELLYPLAIN_POSES, whole.moves));
    ACCEPTED(jellyplain_build_chain(false, poses, JELLYPLAIN_POSES, &whole));
    EXPECT(whole.count == JELLYPLAIN_MOVES);

    const float halfway[3] = {0.5f, 0, 0}, along[6] = {0, 0, 0, 1, 0, 0};
    ACCEPTED(jellyplain_chain_point(&chain, 1.5f, origin, lent.moved));
    EXPECT(same(lent.moved, halfway, 3));
    ACCEPTED(jellyplain_moves_point(chain.moves, 1, 1.5f, origin, lent.moved));
    EXPECT(lent.moved[0] == 1);
    REFUSED(6, jellyplain_chain_point(&chain, nan_value, origin, lent.moved));
    REFUSED(12, jellyplain_chain_point(&empty, 0, origin, lent.moved));
    REFUSED(12, jellyplain_moves_point(chain.moves, 0, 0, origin, lent.moved));

    const float times[3] = {0.5f, 1, 1.5f}, falling[3] = {0.5f, 1.5f, 1}, places[9] = {0.5f, 0, 0, 1, 0, 0, 0.5f, 0, 0};
    ACCEPTED(jellyplain_chain_points(&chain, times, 3, origin, lent.points, 9));
    EXPECT(same(lent.points, places, 9));
    ACCEPTED(jellyplain_moves_points(chain.moves, chain.count, times, 2, origin, lent.points, 6));
    EXPECT(same(lent.points, places, 6) && untouched(lent.points + 6, 12));
    REFUSED(13, jellyplain_chain_points(&chain, falling, 3, origin, lent.points, 9));
    REFUSED(13, jellyplain_chain_points(&chain, times, 2, origin, lent.points, 9));
    REFUSED(6, jellyplain_moves_points(chain.moves, chain.count, times, 3, nan_point, lent.points, 9));
    REFUSED(12, jellyplain_moves_points(chain.moves, 0, times, 3, origin, lent.points, 9));

    ACCEPTED(jellyplain_chain_cover(&chain, point_box, 1, lent.bounds));
    EXPECT(same(lent.bounds, along, 6));
    ACCEPTED(jellyplain_moves_cover(chain.moves, chain.count, point_box, 12, lent.bounds));
    EXPECT(same(lent.bounds, along, 6));
    REFUSED(10, jellyplain_chain_cover(&chain, point_box, 0, lent.bounds));
    REFUSED(8, jellyplain_moves_cover(chain.moves, chain.count, point_box, 13, lent.bounds));
    REFUSED(12, jellyplain_moves_cover(chain.moves, 0, point_box, 13, lent.bounds));

    /* A pose that is tried. */
    jellyplain_pose further = shifted(1, 4), late = shifted(2, 4);
    const float four[6] = {0, 0, 0, 4, 0, 0};
    ACCEPTED(jellyplain_chain_try(&chain, 1, &further, point_box, 4, lent.bounds));
    EXPECT(same(lent.bounds, four, 6));
    ACCEPTED(jellyplain_moves_try(chain.moves, 1, 1, &further, point_box, 4, lent.bounds));
    REFUSED(19, jellyplain_chain_try(&chain, 3, &further, point_box, 4, lent.bounds));
    REFUSED(19, jellyplain_moves_try(chain.moves, 0, 0, &further, point_box, 4, lent.bounds));
    REFUSED(12, jellyplain_chain_try(&chain, 1, &late, point_box, 4, lent.bounds));

    /* A set of boxes: each has its own cover, the places behind them are +0, and the union holds both. */
    const float boxes[JELLYPLAIN_BOXES + 1][6] = {{0, 0, 0, 0, 0, 0}, {2, 0, 0, 3, 1, 1}};
    static float nowhere[JELLYPLAIN_BOXES][6];
    float own[6];
    ACCEPTED(jellyplain_chain_cover(&chain, boxes[1], 1, own));
    EXPECT(own[0] <= 2 && own[3] >= 4 && own[4] >= 1);
    ACCEPTED(jellyplain_chain_covers(&chain, boxes, 2, 1, lent.covers, lent.bounds));
    EXPECT(same(lent.covers[0], along, 6) && same(lent.covers[1], own, 6));
    EXPECT(memcmp(lent.covers[2], nowhere[2], 14 * sizeof nowhere[2]) == 0);
    for (int i = 0; i < 3; i++)
        EXPECT(lent.bounds[i] == fminf(along[i], own[i]) && lent.bounds[i + 3] == fmaxf(along[i + 3], own[i + 3]));
    ACCEPTED(jellyplain_moves_covers(chain.moves, 1, boxes, JELLYPLAIN_BOXES, 1, lent.covers, lent.bounds));
    REFUSED(14, jellyplain_chain_covers(&chain, boxes, 0, 1, lent.covers, lent.bounds));
    REFUSED(14, jellyplain_moves_covers(chain.moves, 1, boxes, JELLYPLAIN_BOXES + 1, 13, lent.covers, lent.bounds));
    REFUSED(8, jellyplain_chain_covers(&chain, boxes, 2, 13, lent.covers, lent.bounds));
    REFUSED(12, jellyplain_moves_covers(chain.moves, 0, boxes, 2, 1, lent.covers, lent.bounds));

    /* The pads of a chain. */
    jellyplain_pose sprays[2] = {still(0), shifted(1, 1)};
    sprays[0].pad = 1;
    sprays[1].pad = 3;
    ACCEPTED(jellyplain_build_chain(false, sprays, 2, &first));
    ACCEPTED(jellyplain_chain_pad(&first, 0.5f, lent.pad));
    EXPECT(lent.pad[0] == 2);
    ACCEPTED(jellyplain_moves_pad(first.moves, 1, infinite, lent.pad));
    EXPECT(lent.pad[0] == 3);
    REFUSED(6, jellyplain_chain_pad(&first, nan_value, lent.pad));
    REFUSED(12, jellyplain_moves_pad(first.moves, 0, 0, lent.pad));

    /* The transform of a chain is its move's; at a border that of the earlier move. Applied to a point it is the point query's answer, bit for bit. */
    float own_transform[2][4][4];
    for (int k = -1; k <= 9; k++) {
        float time = 0.25f * (float)k;
        ACCEPTED(jellyplain_interpolate(&chain.moves[time <= 1 ? 0 : 1], time, own_transform));
        ACCEPTED(jellyplain_chain_interpolate(&chain, time, lent.transform));
        EXPECT(memcmp(lent.transform, own_transform, sizeof own_transform) == 0);
        ACCEPTED(jellyplain_chain_point(&chain, time, boxes[1], lent.moved));
        for (int i = 0; i < 3; i++) {
            const float *row = own_transform[0][i];
            float x = boxes[1][0] * row[0], y = boxes[1][1] * row[1], z = boxes[1][2] * row[2];
            EXPECT(bits_of(lent.moved[i]) == bits_of(x + y + z + row[3]));
        }
    }
    REFUSED(6, jellyplain_chain_interpolate(&chain, nan_value, lent.transform));
    REFUSED(12, jellyplain_moves_interpolate(chain.moves, 0, nan_value, lent.transform));
    jellyplain_pose far_off[2] = {still(0), still(1)}; /* half way the inverse leaves the range of floats, and a point needs none */
    far_off[0].matrix[0][3] = far_off[0].matrix[1][3] = far_off[1].matrix[0][3] = float_of(0x7f7e486f);
    far_off[1].matrix[0][0] = far_off[1].matrix[1][1] = float_of(0x3f7f8a12);
    far_off[1].matrix[0][1] = float_of(0xbd759cd1);
    far_off[1].matrix[1][0] = float_of(0x3d759cd1);
    ACCEPTED(jellyplain_build_chain(false, far_off, 2, &second));
    ACCEPTED(jellyplain_chain_point(&second, 0.5f, origin, lent.moved));
    REFUSED(5, jellyplain_chain_interpolate(&second, 0.5f, lent.transform));

    /* What a chain holds. */
    jellyplain_held held = jellyplain_chain_held(&whole);
    EXPECT(held.refusal == JELLYPLAIN_NONE && held.poses == JELLYPLAIN_POSES && held.first == poses[0].time && held.last == poses[JELLYPLAIN_POSES - 1].time && !held.rigid);
    for (size_t k = 0; k < JELLYPLAIN_POSES; k++) {
        ACCEPTED(jellyplain_chain_pose(&whole, k, lent.poses));
        EXPECT(memcmp(lent.poses, &poses[k], sizeof poses[k]) == 0 && untouched(&lent.poses[1], sizeof lent.poses[1]));
    }
    REFUSED(19, jellyplain_chain_pose(&whole, JELLYPLAIN_POSES, lent.poses));
    REFUSED(19, jellyplain_moves_pose(whole.moves, 1, 2, lent.poses));
    REFUSED(12, jellyplain_moves_pose(whole.moves, 0, 9, lent.poses));
    ACCEPTED(jellyplain_build_chain(true, trip, 2, &second));
    held = jellyplain_moves_held(second.moves, 1);
    EXPECT(held.refusal == JELLYPLAIN_NONE && held.poses == 2 && held.first == trip[0].time && held.last == trip[1].time && held.rigid);
    held = jellyplain_moves_held(second.moves, 0);
    EXPECT(held.refusal == 12 && held.poses == 0 && bits_of(held.first) == 0 && bits_of(held.last) == 0 && !held.rigid);

    /* Two chains made one. */
    ACCEPTED(jellyplain_build_chain(false, trip, 2, &first));
    ACCEPTED(jellyplain_build_chain(false, trip + 1, 2, &second));
    ACCEPTED(jellyplain_chain_join(&first, &second, &lent.chain));
    EXPECT(lent.chain.count == 2 && memcmp(lent.chain.moves, chain.moves, 2 * sizeof chain.moves[0]) == 0);
    EXPECT(untouched(&lent.chain.moves[2], sizeof lent.chain.moves - 2 * sizeof lent.chain.moves[0]));
    ACCEPTED(jellyplain_moves_join(first.moves, 1, second.moves, 1, lent.chain.moves));
    NOT_BUILT(20, jellyplain_chain_join(&second, &first, &lent.chain));
    REFUSED(12, jellyplain_moves_join(first.moves, 1, second.moves, 0, lent.chain.moves));
    jellyplain_pose later[2] = {poses[JELLYPLAIN_POSES - 1], poses[JELLYPLAIN_POSES]};
    ACCEPTED(jellyplain_build_chain(false, later, 2, &second));
    NOT_BUILT(12, jellyplain_chain_join(&whole, &second, &lent.chain));
    jellyplain_pose rest = still(0); /* a move by itself may have equal times, which no chain has */
    jellyplain_move lone;
    ACCEPTED(jellyplain_build(false, &rest, &rest, &lone));
    REFUSED(12, jellyplain_moves_join(&lone, 1, &lone, 1, lent.chain.moves));

    /* The shortest refused run. */
    jellyplain_pose bad[3] = {still(0), shifted(1, nan_value), still(2)};
    jellyplain_run run = jellyplain_refused_run(false, bad, 3);
    EXPECT(run.refusal == JELLYPLAIN_NONE && run.place == 1 && run.length == 1);
    run = jellyplain_refused_run(false, trip, 3);
    EXPECT(run.refusal == JELLYPLAIN_NONE && run.place == 0 && run.length == 0);
    run = jellyplain_refused_run(true, trip, 1);
    EXPECT(run.refusal == JELLYPLAIN_CHAIN && run.place == 0 && run.length == 0);
    jellyplain_pose grows[2] = {still(0), stretched(1, 1.1f)};
    run = jellyplain_refused_run(true, grows, 2);
    EXPECT(run.refusal == JELLYPLAIN_NONE && run.place == 1 && run.length == 1);

    /* Windows: beside a chain that stands from x = 0.75 on, the first is in reach between 0.5 and 1.5 seconds. */
    const float ticks[4] = {0, 0.5f, 1.5f, 2}, gate[6] = {0.75f, 0, 0, 3, 0, 0}, before[6] = {0, 0, 0, 0.5f, 0, 0};
    jellyplain_pose stands[2] = {still(0), still(9)};
    ACCEPTED(jellyplain_build_chain(false, stands, 2, &second));
    ACCEPTED(jellyplain_chain_window_cover(&chain, point_box, 4, -infinite, 0.5f, lent.bounds));
    EXPECT(same(lent.bounds, before, 6));
    ACCEPTED(jellyplain_moves_window_cover(chain.moves, chain.count, point_box, 4, -infinite, infinite, lent.bounds));
    EXPECT(same(lent.bounds, along, 6));
    REFUSED(21, jellyplain_chain_window_cover(&chain, point_box, 4, 1, 1, lent.bounds));
    REFUSED(8, jellyplain_moves_window_cover(chain.moves, chain.count, point_box, 13, 0, 1, lent.bounds));
    fill();
    jellyplain_windows windows = jellyplain_chain_windows(&chain, &second, point_box, gate, 6, ticks, 4, lent.places);
    static uint32_t zeros[JELLYPLAIN_WINDOWS];
    EXPECT(windows.refusal == JELLYPLAIN_NONE && windows.count == 1 && lent.places[0] == 1 && memcmp(lent.places + 1, zeros, 62 * sizeof zeros[0]) == 0);
    windows = jellyplain_moves_windows(chain.moves, 1, second.moves, 1, point_box, gate, 6, ticks, 2, lent.places);
    EXPECT(windows.refusal == JELLYPLAIN_NONE && windows.count == 0 && memcmp(lent.places, zeros, sizeof zeros) == 0);
    REFUSED(21, jellyplain_chain_windows(&chain, &second, point_box, gate, 6, falling, 3, lent.places).refusal);
    REFUSED(21, jellyplain_chain_windows(&chain, &second, nan_box, gate, 13, ticks, 1, lent.places).refusal);
    REFUSED(6, jellyplain_chain_windows(&chain, &second, nan_box, crossed, 13, ticks, 4, lent.places).refusal);
    REFUSED(7, jellyplain_chain_windows(&chain, &second, point_box, crossed, 13, ticks, 4, lent.places).refusal);
    windows = jellyplain_moves_windows(chain.moves, 0, second.moves, 1, point_box, gate, 6, ticks, 2, lent.places);
    EXPECT(windows.refusal == JELLYPLAIN_CHAIN && windows.count == 0);

    /* The text of a chain, and what is read of it. */
    fill();
    jellyplain_written written = jellyplain_chain_write(&chain, unit_box, lent.text, sizeof lent.text);
    EXPECT(written.refusal == JELLYPLAIN_NONE && written.length == 129 + 3 * 126 && untouched(lent.text + written.length, sizeof lent.text - written.length));
    static uint8_t text[JELLYPLAIN_TEXT];
    memcpy(text, lent.text, sizeof text);
    fill();
    jellyplain_file_read read = jellyplain_read_file(text, written.length, lent.poses, lent.bounds);
    EXPECT(read.refusal == JELLYPLAIN_NONE && read.count == 3 && memcmp(lent.poses, trip, sizeof trip) == 0 && memcmp(lent.bounds, unit_box, sizeof unit_box) == 0);
    EXPECT(untouched(lent.poses + 3, sizeof lent.poses - 3 * sizeof lent.poses[0]));
    REFUSED(11, jellyplain_read_file(text, written.length - 1, lent.poses, lent.bounds).refusal);
    REFUSED(11, jellyplain_read_file(text, 0, lent.poses, lent.bounds).refusal);
    REFUSED(15, jellyplain_chain_write(&chain, unit_box, lent.text, written.length - 1).refusal);
    REFUSED(6, jellyplain_write_file(chain.moves, chain.count, nan_box, lent.text, 0).refusal);
    REFUSED(7, jellyplain_write_file(chain.moves, chain.count, crossed, lent.text, 0).refusal);
    REFUSED(12, jellyplain_write_file(chain.moves, 0, unit_box, lent.text, sizeof lent.text).refusal);
    written = jellyplain_chain_write(&whole, unit_box, lent.text, sizeof lent.text);
    EXPECT(written.refusal == JELLYPLAIN_NONE && written.length == JELLYPLAIN_TEXT);
}

static void days(void)
{
    const float boxes[JELLYPLAIN_BOOMS][6] = {{0, 0, 0, 2, 1, 1}, {2, 0, 0, 4, 1, 1}, {5, 0, 0, 6, 1, 1}};
    const uint32_t lengths[JELLYPLAIN_BOOMS] = {30, 20, 10, 1001}, starts[JELLYPLAIN_BOOMS] = {0, 30, 0};
    ACCEPTED(jellyplain_day(boxes, lengths, 3, lent.starts));
    EXPECT(memcmp(lent.starts, starts, sizeof starts) == 0);
    REFUSED(22, jellyplain_day(boxes, lengths, 0, lent.starts));
    REFUSED(22, jellyplain_day(boxes, lengths, 4, lent.starts));
    REFUSED(22, jellyplain_day(boxes, lengths, JELLYPLAIN_BOOMS + 1, lent.starts));
    const float corners[JELLYPLAIN_BOOMS][6] = {{2, 0, 0, 0, 1, 1}, {nan_value, 0, 0, 4, 1, 1}}, coordinate[JELLYPLAIN_BOOMS][6] = {{nan_value, 0, 0, 4, 1, 1}};
    REFUSED(7, jellyplain_day(corners, lengths, 2, lent.starts));
    REFUSED(6, jellyplain_day(coordinate, lengths, 1, lent.starts));
}

/* A chain that was never built, one whose build was refused, and one whose count is no chain's are refused with 12 by every query. */
static void asked_unbuilt(const jellyplain_chain *chain, const jellyplain_chain *built)
{
    const jellyplain_pose pose = still(0);
    const float times[2] = {0, 1};
    EXPECT(jellyplain_chain_count(chain) == 0);
    REFUSED(12, jellyplain_chain_point(chain, 0, origin, lent.moved));
    REFUSED(12, jellyplain_chain_pad(chain, 0, lent.pad));
    REFUSED(12, jellyplain_chain_interpolate(chain, 0, lent.transform));
    REFUSED(12, jellyplain_chain_held(chain).refusal);
    REFUSED(12, jellyplain_chain_pose(chain, 0, lent.poses));
    REFUSED(12, jellyplain_chain_points(chain, times, 2, origin, lent.points, 6));
    REFUSED(12, jellyplain_chain_cover(chain, unit_box, 4, lent.bounds));
    REFUSED(12, jellyplain_chain_try(chain, 0, &pose, unit_box, 4, lent.bounds));
    REFUSED(12, jellyplain_chain_covers(chain, &unit_box, 1, 4, lent.covers, lent.bounds));
    REFUSED(12, jellyplain_chain_window_cover(chain, unit_box, 4, 0, 1, lent.bounds));
    REFUSED(12, jellyplain_chain_windows(chain, built, unit_box, unit_box, 4, times, 2, lent.places).refusal);
    REFUSED(12, jellyplain_chain_windows(built, chain, unit_box, unit_box, 4, times, 2, lent.places).refusal);
    REFUSED(12, jellyplain_chain_reach(chain, &unit_box, 1, 4, times, 2, &unit_box, 1, lent.masks));
    REFUSED(12, jellyplain_chain_write(chain, unit_box, lent.text, sizeof lent.text).refusal);
    NOT_BUILT(12, jellyplain_chain_join(chain, built, &lent.chain));
    NOT_BUILT(12, jellyplain_chain_join(built, chain, &lent.chain));
}

static void unbuilt_chains(void)
{
    static jellyplain_chain built, nothing, never = JELLYPLAIN_CHAIN_INIT;
    const jellyplain_pose trip[2] = {still(0), shifted(1, 1)};
    jellyplain_chain local = JELLYPLAIN_CHAIN_INIT;
    ACCEPTED(jellyplain_build_chain(false, trip, 2, &built));
    EXPECT(jellyplain_chain_count(&built) == 1);
    asked_unbuilt(&nothing, &built);
    asked_unbuilt(&never, &built);
    asked_unbuilt(&local, &built);
    local = built;
    EXPECT(jellyplain_build_chain(false, trip, 1, &local) == 12 && local.count == 0 && memcmp(local.moves, built.moves, sizeof built.moves) == 0);
    asked_unbuilt(&local, &built);
    local = built;
    EXPECT(jellyplain_chain_join(&built, &built, &local) == 20 && local.count == 0 && memcmp(local.moves, built.moves, sizeof built.moves) == 0);
    asked_unbuilt(&local, &built);
    local.count = JELLYPLAIN_MOVES + 1;
    asked_unbuilt(&local, &built);
    local.count = SIZE_MAX;
    asked_unbuilt(&local, &built);
}

/* Of several wrongs the first of the header's order is answered: they are mended one after the other. */
static void orders(void)
{
    jellyplain_pose start = still(1), end = stretched(0, 0);
    end.matrix[1][1] = infinite;
    end.matrix[3][0] = 1;
    end.pad = -1;
    REFUSED(1, jellyplain_build(true, &start, &end, &lent.move));
    end.matrix[1][1] = 1;
    REFUSED(2, jellyplain_build(true, &start, &end, &lent.move));
    end.matrix[3][0] = 0;
    REFUSED(16, jellyplain_build(true, &start, &end, &lent.move));
    end.pad = 0;
    REFUSED(3, jellyplain_build(true, &start, &end, &lent.move));
    end.time = 2;
    REFUSED(17, jellyplain_build(true, &start, &end, &lent.move));
    REFUSED(4, jellyplain_build(false, &start, &end, &lent.move));
    jellyplain_pose mirrored = stretched(0, -1);
    REFUSED(18, jellyplain_build(true, &mirrored, &end, &lent.move));

    jellyplain_pose poses[3] = {shifted(-3e38f, infinite), stretched(3e38f, 0), still(0)};
    poses[1].matrix[3][0] = 1;
    poses[2].pad = -1;
    REFUSED(1, jellyplain_build_moves(true, poses, 3, lent.chain.moves));
    poses[0].matrix[0][3] = 0;
    REFUSED(2, jellyplain_build_moves(true, poses, 3, lent.chain.moves));
    REFUSED(2, jellyplain_build_moves(true, poses + 1, 1, lent.chain.moves));
    poses[1].matrix[3][0] = 0;
    REFUSED(16, jellyplain_build_moves(true, poses, 3, lent.chain.moves));
    poses[2].pad = 0;
    REFUSED(12, jellyplain_build_moves(true, poses, 3, lent.chain.moves));
    REFUSED(3, jellyplain_build_moves(true, poses, 2, lent.chain.moves));
    poses[0].time = 0;
    REFUSED(17, jellyplain_build_moves(true, poses, 2, lent.chain.moves));
    REFUSED(4, jellyplain_build_moves(false, poses, 2, lent.chain.moves));

    jellyplain_pose wrong = shifted(0, infinite);
    const jellyplain_pose trip[2] = {still(0), shifted(1, 1)};
    const float times[2] = {1, nan_value}, falling[2] = {1, 0}, ticks[2] = {0, 1};
    static jellyplain_chain chain;
    ACCEPTED(jellyplain_build_chain(false, trip, 2, &chain));
    REFUSED(12, jellyplain_moves_point(chain.moves, 0, nan_value, nan_point, lent.moved));
    REFUSED(12, jellyplain_moves_pad(chain.moves, 0, nan_value, lent.pad));
    REFUSED(12, jellyplain_moves_points(chain.moves, 0, times, 2, nan_point, lent.points, 9));
    REFUSED(6, jellyplain_moves_points(chain.moves, 1, times, 2, origin, lent.points, 9));
    REFUSED(13, jellyplain_moves_points(chain.moves, 1, falling, 2, origin, lent.points, 9));
    REFUSED(12, jellyplain_moves_cover(chain.moves, 0, nan_box, 13, lent.bounds));
    REFUSED(6, jellyplain_moves_cover(chain.moves, 1, nan_box, 13, lent.bounds));
    REFUSED(7, jellyplain_moves_cover(chain.moves, 1, crossed, 13, lent.bounds));
    REFUSED(19, jellyplain_moves_try(chain.moves, 1, 2, &wrong, nan_box, 13, lent.bounds));
    REFUSED(1, jellyplain_moves_try(chain.moves, 1, 1, &wrong, nan_box, 13, lent.bounds));
    REFUSED(6, jellyplain_moves_try(chain.moves, 1, 1, &trip[1], nan_box, 13, lent.bounds));
    REFUSED(12, jellyplain_moves_covers(chain.moves, 0, &unit_box, 0, 13, lent.covers, lent.bounds));
    REFUSED(14, jellyplain_moves_covers(chain.moves, 1, &unit_box, 0, 13, lent.covers, lent.bounds));
    REFUSED(12, jellyplain_moves_window_cover(chain.moves, 0, nan_box, 13, 1, 0, lent.bounds));
    REFUSED(21, jellyplain_moves_window_cover(chain.moves, 1, nan_box, 13, 1, 0, lent.bounds));
    REFUSED(6, jellyplain_moves_window_cover(chain.moves, 1, nan_box, 13, 0, 1, lent.bounds));
    REFUSED(12, jellyplain_moves_windows(chain.moves, 1, chain.moves, 0, nan_box, nan_box, 13, ticks, 1, lent.places).refusal);
    REFUSED(8, jellyplain_moves_windows(chain.moves, 1, chain.moves, 1, unit_box, unit_box, 13, ticks, 2, lent.places).refusal);
    REFUSED(12, jellyplain_write_file(chain.moves, 0, nan_box, lent.text, 0).refusal);
    const float boxes[JELLYPLAIN_BOOMS][6] = {{nan_value, 0, 0, 0, 0, 0}};
    const uint32_t lengths[JELLYPLAIN_BOOMS] = {0};
    REFUSED(22, jellyplain_day(boxes, lengths, 1, lent.starts));
    REFUSED(14, jellyplain_reached_rows(nan_box, boxes, 0, lent.rows).refusal);
    REFUSED(14, jellyplain_cut(nan_box, 0, lent.parts));
    REFUSED(14, jellyplain_cut(nan_box, JELLYPLAIN_BOXES + 1, lent.parts));
    REFUSED(6, jellyplain_cut(nan_box, 1, lent.parts));
    REFUSED(7, jellyplain_cut(crossed, JELLYPLAIN_BOXES, lent.parts));
    const float good_and_bad[3][6] = {{0, 0, 0, 1, 1, 1}, {1, 0, 0, 0, 0, 0}, {nan_value, 0, 0, 0, 0, 0}};
    REFUSED(12, jellyplain_moves_reach(chain.moves, 0, boxes, 0, 13, times, 1, boxes, 0, lent.masks));
    REFUSED(14, jellyplain_moves_reach(chain.moves, 1, boxes, 0, 13, times, 1, boxes, 1, lent.masks));
    REFUSED(14, jellyplain_moves_reach(chain.moves, 1, boxes, 1, 13, times, 1, boxes, 0, lent.masks));
    REFUSED(21, jellyplain_moves_reach(chain.moves, 1, boxes, 1, 13, times, 1, boxes, 1, lent.masks));
    REFUSED(21, jellyplain_moves_reach(chain.moves, 1, boxes, 1, 13, times, 2, boxes, 1, lent.masks));
    REFUSED(21, jellyplain_moves_reach(chain.moves, 1, boxes, 1, 13, falling, 2, boxes, 1, lent.masks));
    REFUSED(7, jellyplain_moves_reach(chain.moves, 1, good_and_bad, 3, 13, ticks, 2, boxes, 1, lent.masks));
    REFUSED(6, jellyplain_moves_reach(chain.moves, 1, &good_and_bad[2], 1, 13, ticks, 2, &good_and_bad[1], 1, lent.masks));
    REFUSED(7, jellyplain_moves_reach(chain.moves, 1, good_and_bad, 1, 13, ticks, 2, good_and_bad, 3, lent.masks));
    REFUSED(8, jellyplain_moves_reach(chain.moves, 1, good_and_bad, 1, 13, ticks, 2, good_and_bad, 1, lent.masks));
    REFUSED(10, jellyplain_moves_reach(chain.moves, 1, good_and_bad, 1, 0, ticks, 2, good_and_bad, 1, lent.masks));
}

/* Of a list of length 0 nothing is read or written, so that its pointer may be NULL. */
static void lists(void)
{
    const jellyplain_pose trip[2] = {still(0), shifted(1, 1)};
    static jellyplain_chain chain;
    ACCEPTED(jellyplain_build_chain(false, trip, 2, &chain));
    REFUSED(12, jellyplain_build_moves(false, NULL, 0, lent.chain.moves));
    REFUSED(12, jellyplain_refused_run(false, NULL, 0).refusal);
    REFUSED(12, jellyplain_moves_join(NULL, 0, chain.moves, 1, lent.chain.moves));
    REFUSED(12, jellyplain_moves_join(chain.moves, 1, NULL, 0, lent.chain.moves));
    REFUSED(12, jellyplain_moves_point(NULL, 0, 0, origin, lent.moved));
    REFUSED(12, jellyplain_moves_pad(NULL, 0, 0, lent.pad));
    REFUSED(12, jellyplain_moves_interpolate(NULL, 0, 0, lent.transform));
    REFUSED(12, jellyplain_moves_held(NULL, 0).refusal);
    REFUSED(12, jellyplain_moves_pose(NULL, 0, 0, lent.poses));
    REFUSED(12, jellyplain_moves_points(NULL, 0, NULL, 0, origin, NULL, 0));
    ACCEPTED(jellyplain_moves_points(chain.moves, 1, NULL, 0, origin, NULL, 0));
    REFUSED(12, jellyplain_moves_cover(NULL, 0, unit_box, 4, lent.bounds));
    REFUSED(19, jellyplain_moves_try(NULL, 0, 0, trip, unit_box, 4, lent.bounds));
    REFUSED(12, jellyplain_moves_covers(NULL, 0, NULL, 0, 4, lent.covers, lent.bounds));
    REFUSED(14, jellyplain_moves_covers(chain.moves, 1, NULL, 0, 4, lent.covers, lent.bounds));
    REFUSED(12, jellyplain_moves_window_cover(NULL, 0, unit_box, 4, 0, 1, lent.bounds));
    REFUSED(12, jellyplain_moves_windows(NULL, 0, NULL, 0, unit_box, unit_box, 4, NULL, 0, lent.places).refusal);
    REFUSED(21, jellyplain_moves_windows(chain.moves, 1, chain.moves, 1, unit_box, unit_box, 4, NULL, 0, lent.places).refusal);
    REFUSED(11, jellyplain_read_file(NULL, 0, lent.poses, lent.bounds).refusal);
    REFUSED(12, jellyplain_write_file(NULL, 0, unit_box, NULL, 0).refusal);
    REFUSED(15, jellyplain_write_file(chain.moves, 1, unit_box, NULL, 0).refusal);
    REFUSED(14, jellyplain_reached_rows(unit_box, NULL, 0, lent.rows).refusal);
    REFUSED(12, jellyplain_moves_reach(NULL, 0, NULL, 0, 4, NULL, 0, NULL, 0, lent.masks));
    REFUSED(14, jellyplain_moves_reach(chain.moves, 1, NULL, 0, 4, NULL, 0, NULL, 0, lent.masks));
    REFUSED(14, jellyplain_moves_reach(chain.moves, 1, &unit_box, 1, 4, NULL, 0, NULL, 0, lent.masks));
    REFUSED(21, jellyplain_moves_reach(chain.moves, 1, &unit_box, 1, 4, NULL, 0, &unit_box, 1, lent.masks));

    /* Lengths that are judged before anything is read or written. */
    const float times[2] = {0, 1};
    REFUSED(14, jellyplain_moves_covers(chain.moves, 1, NULL, JELLYPLAIN_BOXES + 1, 4, lent.covers, lent.bounds));
    REFUSED(21, jellyplain_moves_windows(chain.moves, 1, chain.moves, 1, unit_box, unit_box, 4, NULL, JELLYPLAIN_TICK_COUNT + 1, lent.places).refusal);
    REFUSED(14, jellyplain_reached_rows(unit_box, NULL, JELLYPLAIN_ROWS + 1, lent.rows).refusal);
    REFUSED(14, jellyplain_moves_reach(chain.moves, 1, NULL, JELLYPLAIN_BOXES + 1, 4, times, 2, &unit_box, 1, lent.masks));
    REFUSED(14, jellyplain_moves_reach(chain.moves, 1, &unit_box, 1, 4, times, 2, NULL, JELLYPLAIN_ROWS + 1, lent.masks));
    REFUSED(21, jellyplain_moves_reach(chain.moves, 1, &unit_box, 1, 4, NULL, JELLYPLAIN_TICK_COUNT + 1, &unit_box, 1, lent.masks));
    REFUSED(12, jellyplain_moves_try(NULL, JELLYPLAIN_MOVES + 1, 0, trip, unit_box, 4, lent.bounds));
    static const size_t too_many[] = {JELLYPLAIN_MOVES + 1, 40, SIZE_MAX / sizeof(jellyplain_move)};
    for (size_t i = 0; i < sizeof too_many / sizeof too_many[0]; i++) {
        size_t many = too_many[i];
        REFUSED(12, jellyplain_moves_point(NULL, many, 0, origin, lent.moved));
        REFUSED(12, jellyplain_moves_pad(NULL, many, 0, lent.pad));
        REFUSED(12, jellyplain_moves_interpolate(NULL, many, 0, lent.transform));
        REFUSED(12, jellyplain_moves_held(NULL, many).refusal);
        REFUSED(12, jellyplain_moves_pose(NULL, many, 0, lent.poses));
        REFUSED(12, jellyplain_moves_points(NULL, many, times, 2, origin, lent.points, 6));
        REFUSED(12, jellyplain_moves_cover(NULL, many, unit_box, 4, lent.bounds));
        REFUSED(12, jellyplain_moves_covers(NULL, many, &unit_box, 1, 4, lent.covers, lent.bounds));
        REFUSED(12, jellyplain_moves_window_cover(NULL, many, unit_box, 4, 0, 1, lent.bounds));
        REFUSED(12, jellyplain_moves_windows(NULL, many, chain.moves, 1, unit_box, unit_box, 4, times, 2, lent.places).refusal);
        REFUSED(12, jellyplain_moves_windows(chain.moves, 1, NULL, many, unit_box, unit_box, 4, times, 2, lent.places).refusal);
        REFUSED(12, jellyplain_write_file(NULL, many, unit_box, lent.text, sizeof lent.text).refusal);
        REFUSED(12, jellyplain_moves_join(NULL, many, chain.moves, 1, lent.chain.moves));
        REFUSED(12, jellyplain_moves_join(chain.moves, 1, NULL, many, lent.chain.moves));
    }
    REFUSED(13, jellyplain_moves_points(chain.moves, 1, times, 2, origin, NULL, 5));
    REFUSED(15, jellyplain_write_file(chain.moves, 1, unit_box, NULL, 129 + 2 * 126 - 1).refusal);
}

/* Every number has a text of its own, and one that is none has another. That they are the table's is seen by tools/boundary.sh. */
static void texts(void)
{
    const char *unknown = jellyplain_refusal_text(NUMBERS);
    EXPECT(strcmp(jellyplain_refusal_text(JELLYPLAIN_PAD), "a pad is below zero") == 0 && strcmp(unknown, "a number that is not known") == 0);
    EXPECT(strcmp(jellyplain_refusal_text(255), unknown) == 0 && strcmp(jellyplain_refusal_text(UINT32_MAX), unknown) == 0);
    for (uint32_t number = 0; number < NUMBERS; number++)
        for (uint32_t other = number + 1; other <= NUMBERS; other++)
            EXPECT(strcmp(jellyplain_refusal_text(number), jellyplain_refusal_text(other)) != 0);
}

/* Rows that a cover meets, touching included. */
static void rows(void)
{
    const float boxes[3][6] = {{2, 0, 0, 3, 1, 1}, {1, 1, 1, 2, 2, 2}, {0, 0, 0, 1, 1, 1}};
    fill();
    jellyplain_reached reached = jellyplain_reached_rows(unit_box, boxes, 3, lent.rows);
    EXPECT(reached.refusal == JELLYPLAIN_NONE && reached.count == 2 && lent.rows[0] == 1 && lent.rows[1] == 2 && lent.rows[2] == 0 && lent.rows[JELLYPLAIN_ROWS - 1] == 0);
    REFUSED(14, jellyplain_reached_rows(unit_box, boxes, 0, lent.rows).refusal);
    REFUSED(6, jellyplain_reached_rows(nan_box, boxes, 3, lent.rows).refusal);
    REFUSED(7, jellyplain_reached_rows(crossed, boxes, 3, lent.rows).refusal);
}

/* A box in parts: the longest axis, the first of equals; the places behind the parts stay. */
static void parts(void)
{
    const float long_box[6] = {0, 0, 0, 1, 3, 3}, faces[4] = {0, 1, 2, 3};
    ACCEPTED(jellyplain_cut(long_box, 3, lent.parts));
    for (int i = 0; i < 3; i++) {
        const float part[6] = {0, faces[i], 0, 1, faces[i + 1], 3};
        EXPECT(same(lent.parts[i], part, 6));
    }
    EXPECT(untouched(lent.parts[3], sizeof lent.parts - sizeof lent.parts[0] * 3));
    ACCEPTED(jellyplain_cut(unit_box, 1, lent.parts));
    EXPECT(same(lent.parts[0], unit_box, 6) && untouched(lent.parts[1], sizeof lent.parts - sizeof lent.parts[0]));
    ACCEPTED(jellyplain_cut(unit_box, JELLYPLAIN_BOXES, lent.parts));
    for (int i = 0; i < JELLYPLAIN_BOXES; i++)
        EXPECT(lent.parts[i][0] == (float)i / 16 && lent.parts[i][3] == (float)(i + 1) / 16 && lent.parts[i][1] == 0 && lent.parts[i][5] == 1);
    /* The last face is the high end, though the rounded length misses it; and a length beyond the floats has no face above it. */
    const float rounded[6] = {-1, 0, 0, 1e-8f, 0, 0}, huge[6] = {-3e38f, 0, 0, 3e38f, 0, 0};
    ACCEPTED(jellyplain_cut(rounded, 2, lent.parts));
    EXPECT(lent.parts[0][3] == -0.5f && lent.parts[1][0] == -0.5f && lent.parts[1][3] == 1e-8f);
    ACCEPTED(jellyplain_cut(huge, 2, lent.parts));
    EXPECT(lent.parts[0][0] == -3e38f && lent.parts[0][3] == 3e38f && lent.parts[1][0] == 3e38f && lent.parts[1][3] == 3e38f);
}

/* Rows by windows: along x to 8 and back, with a rest, rigid so that a shift's slices are as wide as the shift; a mask a row, the places behind them stay. */
static void reach(void)
{
    static jellyplain_chain chain;
    const float times[4] = {0, 8, 10, 18}, at[4] = {0, 8, 8, 0};
    jellyplain_pose trip[4];
    for (int i = 0; i < 4; i++)
        trip[i] = shifted(times[i], at[i]);
    ACCEPTED(jellyplain_build_chain(true, trip, 4, &chain));
    const float boom[6] = {0, 0, 0, 0.5f, 1, 1}, ticks[7] = {-infinite, 2, 6, 9, 12, 16, infinite}, all_time[2] = {-infinite, infinite};
    const float field[5][6] = {{1, 0, 0, 1.25f, 1, 1}, {4, 0, 0, 4.25f, 1, 1}, {8.5f, 0, 0, 9, 1, 1}, {8.75f, 0, 0, 9, 1, 1}, {1, 1, 1, 8, 2, 2}};
    const uint64_t masks[5] = {0x21, 0x12, 0x0c, 0, 0x3f}, once[5] = {1, 1, 1, 0, 1};
    ACCEPTED(jellyplain_chain_reach(&chain, &boom, 1, 6, ticks, 7, field, 5, lent.masks));
    EXPECT(memcmp(lent.masks, masks, sizeof masks) == 0 && untouched(&lent.masks[5], sizeof lent.masks - sizeof masks));
    ACCEPTED(jellyplain_moves_reach(chain.moves, chain.count, &boom, 1, 6, all_time, 2, field, 5, lent.masks));
    EXPECT(memcmp(lent.masks, once, sizeof once) == 0);
    /* The first move by itself never turns back, and after its end stands where it ended. */
    ACCEPTED(jellyplain_moves_reach(chain.moves, 1, &boom, 1, 6, ticks, 7, field, 5, lent.masks));
    const uint64_t alone[5] = {0x01, 0x02, 0x3c, 0, 0x3f};
    EXPECT(memcmp(lent.masks, alone, sizeof alone) == 0);
    /* Sixteen parts and 256 rows, 63 windows: what lies beside every part is in no mask, what lies under the mast in every one. */
    static float many[JELLYPLAIN_ROWS][6], steps[JELLYPLAIN_TICK_COUNT];
    for (int i = 0; i < JELLYPLAIN_ROWS; i++) {
        const float row[6] = {0, i % 2 == 0 ? 0.0f : 2.0f, 0, 9, 3, 1};
        memcpy(many[i], row, sizeof row);
    }
    for (int i = 0; i < JELLYPLAIN_TICK_COUNT; i++)
        steps[i] = (float)i;
    EXPECT(jellyplain_cut(boom, JELLYPLAIN_BOXES, lent.parts) == JELLYPLAIN_NONE);
    EXPECT(jellyplain_chain_reach(&chain, (const float(*)[6])lent.parts, JELLYPLAIN_BOXES, 2, steps, JELLYPLAIN_TICK_COUNT, (const float(*)[6])many, JELLYPLAIN_ROWS, lent.masks) == JELLYPLAIN_NONE);
    for (int i = 0; i < JELLYPLAIN_ROWS; i++)
        EXPECT(lent.masks[i] == (i % 2 == 0 ? UINT64_MAX >> 1 : 0));
    /* A later window that is refused leaves all masks as they were: the last pad overflows. */
    trip[3].pad = 3e38f;
    const float far_box[6] = {3e38f, 0, 0, 3e38f, 0, 0};
    ACCEPTED(jellyplain_build_chain(true, trip, 4, &chain));
    ACCEPTED(jellyplain_chain_reach(&chain, &far_box, 1, 3, ticks + 1, 3, field, 5, lent.masks));
    REFUSED(5, jellyplain_chain_reach(&chain, &far_box, 1, 3, ticks, 7, field, 5, lent.masks));
}

/* ---- the files of examples/ */

static size_t read_whole(const char *path, uint8_t *bytes, size_t size)
{
    FILE *file = fopen(path, "rb");
    if (file == NULL) {
        printf("%s can't be read\n", path);
        exit(2);
    }
    size_t length = fread(bytes, 1, size, file);
    fclose(file);
    return length;
}

/* The path with another ending. */
static const char *beside(const char *path, const char *ending)
{
    static char name[512];
    size_t stem = strlen(path) - strlen(".txt");
    if (strlen(path) < strlen(".txt") || stem + strlen(ending) >= sizeof name) {
        printf("%s is no file of examples/\n", path);
        exit(2);
    }
    memcpy(name, path, stem);
    memcpy(name + stem, ending, strlen(ending) + 1);
    return name;
}

/* The six floats behind a line of names, or the number behind the line `refused`. */
static void expected_of(const char *path, float box[6], unsigned *refusal)
{
    static char text[4096];
    text[read_whole(path, (uint8_t *)text, sizeof text - 1)] = 0;
    *refusal = JELLYPLAIN_NONE;
    if (sscanf(text, "refused %u", refusal) == 1)
        return;
    uint32_t words[6];
    unsigned read[6];
    if (sscanf(text, "x0 y0 z0 x1 y1 z1 %x %x %x %x %x %x", &read[0], &read[1], &read[2], &read[3], &read[4], &read[5]) != 6) {
        printf("%s holds no box\n", path);
        exit(2);
    }
    for (int i = 0; i < 6; i++) {
        words[i] = read[i];
        box[i] = float_of(words[i]);
    }
}

/* What the program `cover` does with a file: its poses make a chain, whose cover of its box is asked at depth 10. */
static void move_file(const char *path, const uint8_t *bytes, size_t size)
{
    static jellyplain_pose poses[JELLYPLAIN_FILE_POSES];
    static jellyplain_chain chain;
    float box[6], expected[6] = {0, 0, 0, 0, 0, 0};
    unsigned refusal;
    expected_of(beside(path, ".expected"), expected, &refusal);
    fill();
    jellyplain_file_read read = jellyplain_read_file(bytes, size, poses, box);
    unsigned answered = read.refusal;
    if (answered == JELLYPLAIN_NONE) {
        answered = jellyplain_build_chain(false, poses, read.count, &chain);
        jellyplain_run run = jellyplain_refused_run(false, poses, read.count);
        EXPECT((run.length == 0) == (answered == JELLYPLAIN_NONE || answered == JELLYPLAIN_CHAIN));
    }
    if (answered == JELLYPLAIN_NONE)
        answered = jellyplain_chain_cover(&chain, box, 10, lent.bounds);
    expect(answered == refusal, path, __LINE__);
    expect(answered != JELLYPLAIN_NONE ? untouched(lent.bounds, sizeof lent.bounds) : same(lent.bounds, expected, 6), path, __LINE__);
    if (answered != JELLYPLAIN_NONE || refusal != JELLYPLAIN_NONE)
        return;
    /* Its text is the file where that has pads, and longer by them where it hasn't; either way it is read back with the same bits. */
    jellyplain_written written = jellyplain_chain_write(&chain, box, lent.text, sizeof lent.text);
    size_t pads = size == written.length ? 0 : 4 + 9 * read.count;
    expect(written.refusal == JELLYPLAIN_NONE && written.length == size + pads && (pads != 0 || memcmp(lent.text, bytes, size) == 0), path, __LINE__);
    jellyplain_file_read again = jellyplain_read_file(lent.text, written.length, lent.poses, lent.bounds);
    expect(again.refusal == JELLYPLAIN_NONE && again.count == read.count && memcmp(lent.poses, poses, read.count * sizeof poses[0]) == 0, path, __LINE__);
}

static void day_file(const char *path, char *text)
{
    static char starts[4096];
    starts[read_whole(beside(path, ".expected"), (uint8_t *)starts, sizeof starts - 1)] = 0;
    float boxes[JELLYPLAIN_BOOMS][6];
    uint32_t lengths[JELLYPLAIN_BOOMS] = {0};
    size_t count = 0;
    for (char *line = strchr(text, '\n'); line != NULL && line[1] != 0 && count < JELLYPLAIN_BOOMS; line = strchr(line + 1, '\n')) {
        unsigned words[7];
        if (sscanf(line + 1, "%x %x %x %x %x %x %u", &words[0], &words[1], &words[2], &words[3], &words[4], &words[5], &words[6]) != 7)
            break;
        for (int i = 0; i < 6; i++)
            boxes[count][i] = float_of(words[i]);
        lengths[count++] = words[6];
    }
    ACCEPTED(jellyplain_day((const float(*)[6])boxes, lengths, count, lent.starts));
    char *line = starts;
    expect(strncmp(line, "start\n", 6) == 0 && count > 0, path, __LINE__);
    for (size_t i = 0; i < count && (line = strchr(line, '\n')) != NULL; i++) {
        line++;
        expect((uint32_t)strtoul(line, NULL, 10) == lent.starts[i], path, __LINE__);
    }
    expect(line != NULL, path, __LINE__);
}

int main(int count, char **files)
{
    static char bytes[65537];
    if (count < 2) {
        printf("usage: calls examples/NAME.txt ..\n");
        return 2;
    }
    nan_value = float_of(0x7fc00000);
    infinite = float_of(0x7f800000);
    nan_point[2] = nan_box[5] = nan_value;

    EXPECT(jellyplain_version() == JELLYPLAIN_VERSION && jellyplain_layout() == JELLYPLAIN_LAYOUT && jellyplain_compatible());
    EXPECT(sizeof(jellyplain_pose) == 72 && sizeof(jellyplain_move) == 720 && sizeof(jellyplain_chain) == 8 + 31 * 720);
    moves();
    chains();
    days();
    unbuilt_chains();
    orders();
    lists();
    texts();
    rows();
    parts();
    reach();
    for (int i = 1; i < count; i++) {
        size_t size = read_whole(files[i], (uint8_t *)bytes, sizeof bytes - 1);
        bytes[size] = 0;
        if (strncmp(bytes, "x0 ", 3) == 0)
            day_file(files[i], bytes);
        else
            move_file(files[i], (const uint8_t *)bytes, size);
    }
    for (unsigned number = 1; number < NUMBERS; number++)
        if (given[number] == 0) {
            failures++;
            printf("c/tests/calls.c: no call is refused with %u\n", number);
        }
    printf("calls: %u checks of the functions, every refusal number and %d files, %u failed\n", checks, count - 1, failures);
    return failures == 0 ? 0 : 1;
}
