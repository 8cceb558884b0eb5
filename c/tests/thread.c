/* What jellyplain.h says of the calling thread is shown, each by an input that is answered inside its cover as a program starts, and otherwise where the thread is otherwise:
 * a point that is asked with another rounding, with flush to zero or with denormals-are-zero leaves the cover that was reserved for it; with denormals-are-zero alone it does so even where cover and
 * point are asked alike; and with the invalid operation unmasked a cover that is refused stops the program. The control bits are left as they are.
 */
#define _POSIX_C_SOURCE 200809L
#include <signal.h>
#include <stdio.h>
#include <string.h>
#include <sys/resource.h>
#include <sys/wait.h>
#include <unistd.h>
#include <xmmintrin.h>

#include "jellyplain.h"

/* MXCSR as a program starts, and its bits. */
#define START 0x1f80u
#define DENORMALS_ARE_ZERO 0x0040u
#define INVALID_MASKED 0x0080u
#define DOWN 0x2000u
#define UP 0x4000u
#define TOWARD_ZERO 0x6000u
#define FLUSH_TO_ZERO 0x8000u
#define CONTROL 0xffc0u

static unsigned failures;

static void expect(bool holds, const char *what)
{
    printf("%s %s\n", holds ? "shown:" : "NOT SHOWN:", what);
    failures += !holds;
}

static bool inside(const float box[6], const float p[3])
{
    for (int i = 0; i < 3; i++)
        if (!(box[i] <= p[i] && p[i] <= box[i + 3]))
            return false;
    return true;
}

/* A boom that stands: its pose for a second, the point p of it, and the cover of the box that is that point alone. */
typedef struct {
    jellyplain_pose pose;
    float p[3];
} standing;

static bool outside(const standing *boom, unsigned cover_csr, unsigned point_csr)
{
    jellyplain_pose end = boom->pose;
    end.time = boom->pose.time + 1;
    const float box[6] = {boom->p[0], boom->p[1], boom->p[2], boom->p[0], boom->p[1], boom->p[2]};
    float cover[6], moved[3];
    jellyplain_move move;
    _mm_setcsr(cover_csr);
    bool answered = jellyplain_build(false, &boom->pose, &end, &move) == JELLYPLAIN_NONE && jellyplain_cover(&move, box, 10, cover) == JELLYPLAIN_NONE;
    _mm_setcsr(point_csr);
    answered = answered && jellyplain_point(&move, boom->pose.time, boom->p, moved) == JELLYPLAIN_NONE;
    bool kept = (_mm_getcsr() & CONTROL) == (point_csr & CONTROL);
    _mm_setcsr(START);
    if (!answered || !kept) {
        printf("NOT SHOWN: with MXCSR %#x and %#x: %s\n", cover_csr, point_csr, answered ? "the control bits are others after the call" : "refused");
        failures++;
        return false;
    }
    return !inside(cover, moved);
}

/* A cover of depth 0 that is refused: of a move that scales and shifts, over a box. */
typedef struct {
    float scale;
    float box[6];
    uint8_t refusal;
} refused;

/* How a process ends that asks for such a cover with some exceptions masked. */
static int ended(const refused *asked, unsigned csr)
{
    fflush(stdout);
    pid_t child = fork();
    if (child == 0) {
        const struct rlimit no_core = {0, 0};
        setrlimit(RLIMIT_CORE, &no_core);
        const float s = asked->scale;
        jellyplain_pose start = {0, {{s, 0, 0, 0}, {0, s, 0, 0}, {0, 0, s, 0}, {0, 0, 0, 1}}, 0}, end = start;
        end.time = end.matrix[0][3] = 1;
        float cover[6];
        jellyplain_move move;
        if (jellyplain_build(false, &start, &end, &move) != JELLYPLAIN_NONE)
            _exit(1);
        _mm_setcsr(csr);
        _exit(jellyplain_cover(&move, asked->box, 0, cover) == asked->refusal ? 0 : 1);
    }
    int status = -1;
    waitpid(child, &status, 0);
    return status;
}

int main(void)
{
    /* 0.6 * 0.1 and the like are rounded, each its own way. */
    const standing turned = {{0, {{0.8f, -0.6f, 0, 0.1f}, {0.6f, 0.8f, 0, 0.1f}, {0, 0, 1, 0.1f}, {0, 0, 0, 1}}, 0}, {0.1f, 0.7f, 0.3f}};
    /* Half of a number at the end of the normal range, and a difference of two such numbers. */
    const standing halved = {{0, {{0.5f, 0, 0, 0}, {0, 0.5f, 0, 0}, {0, 0, 0.5f, 0}, {0, 0, 0, 1}}, 0}, {1.5e-38f, 0, 0}};
    const standing near = {{0, {{1, 0, 0, -1.7632415e-38f}, {0, 1, 0, 0}, {0, 0, 1, 0}, {0, 0, 0, 1}}, 0}, {1.1754944e-38f, 0, 0}};
    /* One slice is too wide for its rotation; a box leaves the range of floats on the way. */
    const refused wide = {1, {0, 0, 0, 0, 2, 0}, JELLYPLAIN_SQUARED_LENGTH};
    const refused far = {1e30f, {-1e30f, -1e30f, -1e30f, 1e30f, 1e30f, 1e30f}, JELLYPLAIN_NOT_FINITE};

    expect((_mm_getcsr() & CONTROL) == START, "a program starts with round to nearest, denormal numbers and masked exceptions");
    expect(!outside(&turned, START, START) && !outside(&halved, START, START) && !outside(&near, START, START), "so started, the three points are inside their covers");
    expect(outside(&turned, START, START | DOWN), "a point asked with rounding down leaves the cover that was reserved for it");
    expect(outside(&turned, START, START | UP), "a point asked with rounding up leaves it");
    expect(outside(&turned, START, START | TOWARD_ZERO), "a point asked with rounding toward zero leaves it");
    expect(outside(&turned, START | UP, START), "a point asked as the program started leaves the cover that was reserved with rounding up");
    expect(outside(&halved, START, START | FLUSH_TO_ZERO), "a point asked with flush to zero leaves the cover that was reserved for it");
    expect(outside(&halved, START, START | DENORMALS_ARE_ZERO), "a point asked with denormals-are-zero leaves it");
    expect(outside(&near, START | DENORMALS_ARE_ZERO, START | DENORMALS_ARE_ZERO), "with denormals-are-zero a point leaves the cover that was reserved in the same way");
    expect(ended(&wide, START) == 0, "a cover of depth 0 is refused with 10, with every exception masked");
    expect(ended(&wide, START & ~INVALID_MASKED) == 0, "with the invalid operation unmasked too");
    expect(ended(&far, START) == 0, "a cover of depth 0 is refused with 5, with every exception masked");
    int status = ended(&far, START & ~INVALID_MASKED);
    expect(WIFSIGNALED(status) && WTERMSIG(status) == SIGFPE, "with the invalid operation unmasked the same cover ends the program by SIGFPE");
    printf("thread: %u not shown\n", failures);
    return failures == 0 ? 0 : 1;
}
