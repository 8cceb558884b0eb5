/* A move by one metre along x, and a chain that goes there and back, as plain and as rigid, asked from C. In the repository's root, after `make`:
 *     cc -Wall -Wextra -I c c/example.c target/lib/libjellyplain.a -o target/example && target/example
 * and where the library is installed, with the shared one:
 *     cc -Wall -Wextra c/example.c $(pkg-config --cflags --libs jellyplain) -o target/example && target/example
 */
#include <stdio.h>

#include "jellyplain.h"

/* Boxes that are proved are printed by this, and not by %g: rounded outward, to six digits behind the point. */
static void print_box(const char *what, const float box[6])
{
    char text[6][JELLYPLAIN_DECIMAL];
    jellyplain_decimals(box, 6, text);
    printf("%s: %s %s %s to %s %s %s\n", what, text[0], text[1], text[2], text[3], text[4], text[5]);
}

int main(void)
{
    const jellyplain_pose start = {0, {{1, 0, 0, 0}, {0, 1, 0, 0}, {0, 0, 1, 0}, {0, 0, 0, 1}}, 0};
    const jellyplain_pose end = {1, {{1, 0, 0, 1}, {0, 1, 0, 0}, {0, 0, 1, 0}, {0, 0, 0, 1}}, 0};
    const float origin[3] = {0, 0, 0};
    const float boom[6] = {0, 0, 0, 0, 2, 0};
    const jellyplain_pose there_and_back[3] = {start, end, {2, {{1, 0, 0, 0}, {0, 1, 0, 0}, {0, 0, 1, 0}, {0, 0, 0, 1}}, 0}};
    const float times[3] = {0.5f, 1, 1.5f};
    const float mast_and_arm[2][6] = {{0, 0, 0, 0, 2, 0}, {-3, 2, 0, 3, 2, 0}};
    const jellyplain_pose wide_spray = {1, {{1, 0, 0, 1}, {0, 1, 0, 0}, {0, 0, 1, 0}, {0, 0, 0, 1}}, 2};
    const float day_boxes[JELLYPLAIN_BOOMS][6] = {{0, 0, 0, 2, 1, 1}, {2, 0, 0, 4, 1, 1}, {5, 0, 0, 6, 1, 1}};
    const uint32_t lengths[JELLYPLAIN_BOOMS] = {30, 20, 10};
    static jellyplain_chain chain, there, back, joined;
    static jellyplain_pose poses[JELLYPLAIN_FILE_POSES];
    static uint8_t text[JELLYPLAIN_TEXT];
    jellyplain_move move, spraying;
    float moved[3], pad[1] = {0}, transform[2][4][4], bounds[6], points[9], covers[JELLYPLAIN_BOXES][6];
    uint32_t examined[3], starts[JELLYPLAIN_BOOMS];

    if (!jellyplain_compatible()) {
        printf("the library has version %u and layout %u, and this program is for version %u and layout %u\n", (unsigned)jellyplain_version(), (unsigned)jellyplain_layout(),
               (unsigned)JELLYPLAIN_VERSION, (unsigned)JELLYPLAIN_LAYOUT);
        return 1;
    }

    uint8_t refusal = jellyplain_build(false, &start, &end, &move);
    if (refusal != JELLYPLAIN_NONE) {
        printf("refused with %d: %s\n", refusal, jellyplain_refusal_text(refusal));
        return 1;
    }
    if (jellyplain_point(&move, 0.5f, origin, moved) == JELLYPLAIN_NONE)
        printf("the origin at 0.5: %g %g %g\n", moved[0], moved[1], moved[2]);
    if (jellyplain_interpolate(&move, 0.5f, transform) == JELLYPLAIN_NONE)
        printf("its inverse takes back by %g\n", transform[1][0][3]);
    if (jellyplain_bound_point_motion(&move, origin, bounds, examined) == JELLYPLAIN_NONE)
        printf("its motion box: x from %g to %g, %u interval examined on x\n", bounds[0], bounds[3], (unsigned)examined[0]);
    if (jellyplain_cover(&move, boom, 10, bounds) == JELLYPLAIN_NONE)
        print_box("reserved", bounds);
    if (jellyplain_build_chain(false, there_and_back, 3, &chain) == JELLYPLAIN_NONE
        && jellyplain_chain_points(&chain, times, 3, origin, points, 9) == JELLYPLAIN_NONE)
        printf("there and back: x is %g, %g and %g\n", points[0], points[3], points[6]);
    if (jellyplain_chain_cover(&chain, boom, 10, bounds) == JELLYPLAIN_NONE)
        print_box("reserved for both", bounds);
    if (jellyplain_chain_covers(&chain, mast_and_arm, 2, 10, covers, bounds) == JELLYPLAIN_NONE) {
        print_box("a mast", covers[0]);
        print_box("and an arm", covers[1]);
    }
    jellyplain_written written = jellyplain_chain_write(&chain, boom, text, sizeof text);
    if (written.refusal == JELLYPLAIN_NONE)
        printf("as a move file: %zu bytes, ", written.length);
    jellyplain_file_read read = jellyplain_read_file(text, written.length, poses, bounds);
    if (read.refusal == JELLYPLAIN_NONE)
        printf("in which %zu poses are read, the last at %g\n", read.count, poses[read.count - 1].time);
    if (jellyplain_build(false, &start, &wide_spray, &spraying) == JELLYPLAIN_NONE && jellyplain_pad(&spraying, 0.5f, pad) == JELLYPLAIN_NONE
        && jellyplain_cover(&spraying, boom, 12, bounds) == JELLYPLAIN_NONE)
        print_box("with a pad from 0 to 2", bounds);
    if (jellyplain_chain_try(&chain, 1, &wide_spray, boom, 10, bounds) == JELLYPLAIN_NONE)
        print_box("with that pad tried at the pose between", bounds);
    printf("tried at a fourth pose: refused with %d; a pad at 0.5: %g\n", jellyplain_chain_try(&chain, 3, &wide_spray, boom, 10, bounds), pad[0]);
    if (jellyplain_build_chain(false, there_and_back, 2, &there) == JELLYPLAIN_NONE && jellyplain_build_chain(false, there_and_back + 1, 2, &back) == JELLYPLAIN_NONE
        && jellyplain_chain_join(&there, &back, &joined) == JELLYPLAIN_NONE && jellyplain_chain_cover(&joined, boom, 10, bounds) == JELLYPLAIN_NONE)
        print_box("handed over in two files", bounds);
    size_t moves = joined.count;
    refusal = jellyplain_chain_join(&back, &there, &joined);
    printf("%zu moves; the other way round: refused with %d, and %zu moves\n", moves, refusal, joined.count);
    const float ticks[4] = {0, 0.5f, 1.5f, 2};
    const float gate[6] = {0.75f, 0, 0, 3, 2, 0};
    uint32_t places[JELLYPLAIN_WINDOWS];
    const jellyplain_pose still[2] = {start, {9, {{1, 0, 0, 0}, {0, 1, 0, 0}, {0, 0, 1, 0}, {0, 0, 0, 1}}, 0}};
    if (jellyplain_build_chain(false, still, 2, &back) == JELLYPLAIN_NONE) {
        jellyplain_windows windows = jellyplain_chain_windows(&chain, &back, boom, gate, 6, ticks, 4, places);
        if (windows.refusal == JELLYPLAIN_NONE)
            printf("beside a boom that stands: %zu window of 3 in which they meet, number %u\n", windows.count, (unsigned)places[0]);
    }
    jellyplain_pose longer = end;
    longer.matrix[1][1] = 1.1f;
    printf("a boom that grows by a tenth, as rigid: refused with %d\n", jellyplain_build(true, &start, &longer, &move));
    const jellyplain_pose grows[2] = {start, longer};
    jellyplain_run run = jellyplain_refused_run(true, grows, 2);
    if (run.refusal == JELLYPLAIN_NONE)
        printf("the poses that are refused: %zu from place %zu on\n", run.length, run.place);
    if (jellyplain_build_chain(true, there_and_back, 3, &chain) == JELLYPLAIN_NONE && jellyplain_chain_cover(&chain, boom, 10, bounds) == JELLYPLAIN_NONE)
        print_box("reserved as rigid", bounds);
    if (jellyplain_day(day_boxes, lengths, 3, starts) == JELLYPLAIN_NONE)
        printf("three booms start in ticks %u, %u and %u\n", (unsigned)starts[0], (unsigned)starts[1], (unsigned)starts[2]);
    const float rows[4][6] = {{-1, -5, -1, -0.25f, 5, 1}, {0, -5, -1, 0.5f, 5, 1}, {1, -5, -1, 1.5f, 5, 1}, {2, -5, -1, 2.5f, 5, 1}};
    uint32_t wet[JELLYPLAIN_ROWS];
    jellyplain_reached reached = jellyplain_reached_rows(bounds, rows, 4, wet);
    if (reached.refusal == JELLYPLAIN_NONE && reached.count == 2)
        printf("of 4 rows the boom reaches numbers %u and %u\n", (unsigned)wet[0], (unsigned)wet[1]);
    float parts[JELLYPLAIN_BOXES][6];
    uint64_t masks[JELLYPLAIN_ROWS];
    if (jellyplain_cut(boom, 4, parts) == JELLYPLAIN_NONE && jellyplain_chain_reach(&chain, (const float(*)[6])parts, 4, 8, ticks, 4, rows, 4, masks) == JELLYPLAIN_NONE)
        for (int w = 0; w < 3; w++)
            printf("from %g to %g: row 1 %s, row 2 %s\n", ticks[w], ticks[w + 1], masks[1] >> w & 1 ? "may be wet" : "is dry", masks[2] >> w & 1 ? "may be wet" : "is dry");
    printf("the library's version: %u\n", (unsigned)jellyplain_version());
    printf("at depth 13: refused with %d\n", jellyplain_cover(&move, boom, 13, bounds));
    return 0;
}
