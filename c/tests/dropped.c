/* Each function whose answer may be a refusal, one a line, with the answer passed over: the compiler has to warn of every one (tools/boundary.sh looks for them all). It is only compiled. */
#include "jellyplain.h"

extern void dropped(const jellyplain_pose *poses, jellyplain_move *moves, jellyplain_chain *chain, jellyplain_chain *joined, float *floats, uint32_t *words, uint64_t *masks, uint8_t *bytes,
                    const float (*boxes)[6], float (*covers)[6], float (*transform)[4][4], jellyplain_pose *pose);

void dropped(const jellyplain_pose *poses, jellyplain_move *moves, jellyplain_chain *chain, jellyplain_chain *joined, float *floats, uint32_t *words, uint64_t *masks, uint8_t *bytes,
             const float (*boxes)[6], float (*covers)[6], float (*transform)[4][4], jellyplain_pose *pose)
{
    jellyplain_build(false, poses, poses, moves);
    jellyplain_point(moves, 0, floats, floats);
    jellyplain_pad(moves, 0, floats);
    jellyplain_interpolate(moves, 0, transform);
    jellyplain_bound_point_motion(moves, floats, floats, words);
    jellyplain_motion_bounds(moves, floats, floats, words);
    jellyplain_cover(moves, floats, 0, floats);
    jellyplain_build_moves(false, poses, 2, moves);
    jellyplain_moves_join(moves, 1, moves, 1, moves);
    jellyplain_refused_run(false, poses, 2);
    jellyplain_moves_point(moves, 1, 0, floats, floats);
    jellyplain_moves_pad(moves, 1, 0, floats);
    jellyplain_moves_interpolate(moves, 1, 0, transform);
    jellyplain_moves_held(moves, 1);
    jellyplain_moves_pose(moves, 1, 0, pose);
    jellyplain_moves_points(moves, 1, floats, 1, floats, floats, 3);
    jellyplain_moves_cover(moves, 1, floats, 0, floats);
    jellyplain_moves_try(moves, 1, 0, poses, floats, 0, floats);
    jellyplain_moves_covers(moves, 1, boxes, 1, 0, covers, floats);
    jellyplain_moves_window_cover(moves, 1, floats, 0, 0, 1, floats);
    jellyplain_moves_windows(moves, 1, moves, 1, floats, floats, 0, floats, 2, words);
    jellyplain_read_file(bytes, 0, 0, floats);
    jellyplain_write_file(moves, 1, floats, bytes, 0);
    jellyplain_day(boxes, words, 1, words);
    jellyplain_build_chain(false, poses, 2, chain);
    jellyplain_chain_join(chain, chain, joined);
    jellyplain_chain_point(chain, 0, floats, floats);
    jellyplain_chain_pad(chain, 0, floats);
    jellyplain_chain_interpolate(chain, 0, transform);
    jellyplain_chain_held(chain);
    jellyplain_chain_pose(chain, 0, pose);
    jellyplain_chain_points(chain, floats, 1, floats, floats, 3);
    jellyplain_chain_cover(chain, floats, 0, floats);
    jellyplain_chain_try(chain, 0, poses, floats, 0, floats);
    jellyplain_chain_covers(chain, boxes, 1, 0, covers, floats);
    jellyplain_chain_window_cover(chain, floats, 0, 0, 1, floats);
    jellyplain_chain_windows(chain, chain, floats, floats, 0, floats, 2, words);
    jellyplain_chain_write(chain, floats, bytes, 0);
#ifdef JELLYPLAIN_ROWS
    jellyplain_reached_rows(floats, boxes, 1, words);
    jellyplain_cut(floats, 1, covers);
    jellyplain_moves_reach(moves, 1, boxes, 1, 0, floats, 2, boxes, 1, masks);
    jellyplain_chain_reach(chain, boxes, 1, 0, floats, 2, boxes, 1, masks);
#endif
}
