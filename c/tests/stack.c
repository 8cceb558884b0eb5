/* The stack that each call takes, seen: the call is made on a thread whose stack is painted, and how far the paint is gone is counted from the thread's own start. The inputs are those that go deepest as far
 * as is known; that nothing goes deeper than JELLYPLAIN_STACK is what tools/stack says, from the library's code.
 */
#define _POSIX_C_SOURCE 200809L
#include <pthread.h>
#include <stdio.h>
#include <stdlib.h>
#include <string.h>

#include "jellyplain.h"

#define SIZE ((size_t)1 << 20)
#define PAINT 0x5a

static unsigned char *stack;
static jellyplain_pose poses[JELLYPLAIN_FILE_POSES], set;
static jellyplain_chain chain, second, joined;
static float bounds[6], moved[3], pad[1], transform[2][4][4], covers[JELLYPLAIN_BOXES][6], points[64 * 3], times[64];
static float boxes[JELLYPLAIN_BOXES][6], day_boxes[JELLYPLAIN_BOOMS][6];
static uint32_t examined[3], places[JELLYPLAIN_WINDOWS], lengths[JELLYPLAIN_BOOMS], starts[JELLYPLAIN_BOOMS];
static uint8_t text[JELLYPLAIN_TEXT];
static size_t length;
static const float p[3] = {3, 1, 2}, box[6] = {0, -1, -1, 12, 1, 1};

static unsigned nothing(void) { return 0; }
static unsigned version(void) { return jellyplain_compatible() ? 0 : 1; }
static unsigned build(void) { return jellyplain_build(false, &poses[0], &poses[1], &joined.moves[0]); }
static unsigned build_rigid(void) { return jellyplain_build(true, &poses[0], &poses[1], &joined.moves[0]); }
static unsigned point(void) { return jellyplain_point(&chain.moves[0], 0.4f, p, moved); }
static unsigned pad_at(void) { return jellyplain_pad(&chain.moves[0], 0.4f, pad); }
static unsigned interpolate(void) { return jellyplain_interpolate(&chain.moves[0], 0.4f, transform); }
static unsigned point_motion(void) { return jellyplain_bound_point_motion(&chain.moves[0], p, bounds, examined); }
static unsigned motion_bounds(void) { return jellyplain_motion_bounds(&chain.moves[0], box, bounds, examined); }
static unsigned cover(void) { return jellyplain_cover(&chain.moves[0], box, 8, bounds); }
static unsigned build_chain(void) { return jellyplain_build_chain(false, poses, JELLYPLAIN_POSES, &joined); }
static unsigned refused_run(void) { return jellyplain_refused_run(true, poses, JELLYPLAIN_POSES).refusal; }
static unsigned chain_point(void) { return jellyplain_chain_point(&chain, 10.4f, p, moved); }
static unsigned chain_pad(void) { return jellyplain_chain_pad(&chain, 10.4f, pad); }
static unsigned chain_interpolate(void) { return jellyplain_chain_interpolate(&chain, 10.4f, transform); }
static unsigned chain_held(void) { return jellyplain_chain_held(&chain).refusal; }
static unsigned chain_pose(void) { return jellyplain_chain_pose(&chain, 5, &set); }
static unsigned chain_points(void) { return jellyplain_chain_points(&chain, times, 64, p, points, 64 * 3); }
static unsigned chain_cover(void) { return jellyplain_chain_cover(&chain, box, 6, bounds); }
static unsigned chain_try(void) { return jellyplain_chain_try(&chain, 5, &poses[5], box, 6, bounds); }
static unsigned chain_covers(void) { return jellyplain_chain_covers(&chain, (const float(*)[6])boxes, JELLYPLAIN_BOXES, 6, covers, bounds); }
static unsigned chain_join(void) { return jellyplain_chain_join(&chain, &second, &joined); }
static unsigned window_cover(void) { return jellyplain_chain_window_cover(&chain, box, 6, 0.5f, 2.5f, bounds); }
static unsigned windows(void) { return jellyplain_chain_windows(&chain, &chain, box, box, 2, times, 64, places).refusal; }
static unsigned write_file(void) { return jellyplain_chain_write(&chain, box, text, sizeof text).refusal; }
static unsigned read_file(void) { return jellyplain_read_file(text, length, poses, bounds).refusal; }
static unsigned day(void) { return jellyplain_day((const float(*)[6])day_boxes, lengths, JELLYPLAIN_BOOMS, starts); }
#ifdef JELLYPLAIN_ROWS
static float rows[JELLYPLAIN_ROWS][6];
static uint32_t reached[JELLYPLAIN_ROWS];
static uint64_t masks[JELLYPLAIN_ROWS];
static unsigned cut(void) { return jellyplain_cut(box, JELLYPLAIN_BOXES, covers); }
static unsigned reach(void) { return jellyplain_chain_reach(&chain, (const float(*)[6])boxes, JELLYPLAIN_BOXES, 3, times, 64, (const float(*)[6])rows, JELLYPLAIN_ROWS, masks); }
static unsigned reached_rows(void) { return jellyplain_reached_rows(box, (const float(*)[6])rows, JELLYPLAIN_ROWS, reached).refusal; }
#endif

static void *run(void *call)
{
    unsigned (*function)(void);
    memcpy(&function, call, sizeof function);
    if (function() != JELLYPLAIN_NONE)
        return call;
    return NULL;
}

/* How many bytes of a painted stack a thread has touched that makes this call. */
static size_t touched(const char *name, unsigned (*function)(void))
{
    memset(stack, PAINT, SIZE);
    pthread_attr_t attributes;
    pthread_t thread;
    void *refused = NULL;
    if (pthread_attr_init(&attributes) != 0 || pthread_attr_setstack(&attributes, stack, SIZE) != 0 || pthread_create(&thread, &attributes, run, &function) != 0
        || pthread_join(thread, &refused) != 0) {
        printf("no thread on a stack of its own\n");
        exit(2);
    }
    pthread_attr_destroy(&attributes);
    if (refused != NULL) {
        printf("%s is refused: what it takes isn't seen\n", name);
        exit(1);
    }
    size_t unpainted = 0;
    while (unpainted < SIZE && stack[unpainted] == PAINT)
        unpainted++;
    return SIZE - unpainted;
}

int main(void)
{
    static const struct {
        const char *name;
        unsigned (*function)(void);
    } calls[] = {
        {"jellyplain_compatible", version}, {"jellyplain_build", build}, {"jellyplain_build, rigid", build_rigid}, {"jellyplain_point", point}, {"jellyplain_pad", pad_at},
        {"jellyplain_interpolate", interpolate}, {"jellyplain_bound_point_motion", point_motion}, {"jellyplain_motion_bounds", motion_bounds}, {"jellyplain_cover", cover},
        {"jellyplain_build_moves", build_chain}, {"jellyplain_refused_run", refused_run}, {"jellyplain_moves_point", chain_point}, {"jellyplain_moves_pad", chain_pad},
        {"jellyplain_moves_interpolate", chain_interpolate}, {"jellyplain_moves_held", chain_held}, {"jellyplain_moves_pose", chain_pose},
        {"jellyplain_moves_points", chain_points}, {"jellyplain_moves_cover", chain_cover}, {"jellyplain_moves_try", chain_try}, {"jellyplain_moves_covers", chain_covers},
        {"jellyplain_moves_join", chain_join}, {"jellyplain_moves_window_cover", window_cover}, {"jellyplain_moves_windows", windows}, {"jellyplain_write_file", write_file},
        {"jellyplain_read_file", read_file}, {"jellyplain_day", day},
#ifdef JELLYPLAIN_ROWS
        {"jellyplain_reached_rows", reached_rows}, {"jellyplain_cut", cut}, {"jellyplain_moves_reach", reach},
#endif
    };
    void *memory = NULL;
    if (posix_memalign(&memory, 1 << 16, SIZE) != 0)
        return 2;
    stack = (unsigned char *)memory;
    /* A turn by 37 degrees between each pose and the next, with a scale and a shift, so that every step has something to do. */
    float c = 1, s = 0;
    for (int i = 0; i < JELLYPLAIN_POSES; i++) {
        float grown = 1 + 0.0001f * (float)(i % 3), next = 0.7986355f * c - 0.6018150f * s;
        const jellyplain_pose pose = {(float)i, {{grown * c, -grown * s, 0, (float)(i % 5)}, {grown * s, grown * c, 0, 1}, {0, 0, grown, 0.1f * (float)i}, {0, 0, 0, 1}}, 0.1f * (float)(i % 4)};
        poses[i] = pose;
        s = 0.7986355f * s + 0.6018150f * c;
        c = next;
    }
    for (int i = 0; i < 64; i++)
        times[i] = 0.5f * (float)i;
    for (int i = 0; i < JELLYPLAIN_BOXES; i++)
        memcpy(boxes[i], box, sizeof box);
    for (int i = 0; i < JELLYPLAIN_BOOMS; i++) {
        memcpy(day_boxes[i], box, sizeof box);
        lengths[i] = 1000;
    }
#ifdef JELLYPLAIN_ROWS
    for (int i = 0; i < JELLYPLAIN_ROWS; i++)
        memcpy(rows[i], box, sizeof box);
#endif
    if (jellyplain_build_chain(false, poses, 20, &chain) != JELLYPLAIN_NONE || jellyplain_build_chain(false, poses + 19, 12, &second) != JELLYPLAIN_NONE)
        return 2;
    jellyplain_written written = jellyplain_chain_write(&chain, box, text, sizeof text);
    length = written.length;
    touched("nothing", nothing);
    size_t own = touched("nothing", nothing), most = 0;
    for (size_t i = 0; i < sizeof calls / sizeof calls[0]; i++) {
        size_t all = touched(calls[i].name, calls[i].function), taken = all > own ? all - own : 0;
        printf("%6zu %s\n", taken, calls[i].name);
        most = taken > most ? taken : most;
    }
    printf("stack: at most %zu bytes seen, JELLYPLAIN_STACK is %d\n", most, JELLYPLAIN_STACK);
    /* A measure that sees nothing would pass any limit: building a chain keeps its moves on the stack until all are built. */
    return most <= JELLYPLAIN_STACK && most > sizeof chain.moves ? 0 : 1;
}
