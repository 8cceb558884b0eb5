//! Document 02's questions: those of the program `chain_answers`, about chains that are kept in slots.

use crate::angles;
use crate::chain::{self, Chain, Pose};
use crate::core::geometry::point::Point3f;
use crate::day::{starting_ticks, Boom};
use crate::file::File;
use crate::judged::{point_values, Judged, Kind, Move};
use crate::lines::{bounds, bytes, counted, float, floats, matrix, matrix_floats, parts, read, whole, Answer, Session, Values};
use crate::reach::cut;
use crate::rows::reached_rows;
use crate::windows::Window;

/// The words of a question behind its name.
type Words<'a> = &'a [&'a [u8]];

/// What answers a question.
type Question = fn(&mut Slots, Words) -> Answer;

/// Every question by its name.
const QUESTIONS: &[(&str, Question)] = &[
    ("chain", chain),
    ("lone", lone),
    ("join", join),
    ("cpoint", point),
    ("ctimes", times),
    ("ccover", cover),
    ("cset", set),
    ("cpad", pad),
    ("try", try_pose),
    ("cinterp", interp),
    ("cparts", move_parts),
    ("cmotion", motion),
    ("cpmotion", point_motion),
    ("write", write),
    ("read", read_file),
    ("acosn", arc_cosine),
    ("stretch", stretch),
    ("windows", windows),
    ("wcover", window_cover),
    ("day", day),
    ("rows", rows),
    ("reach", reach),
    ("cut", parts_of_box),
];

const SLOTS: usize = 4;
const LONGEST: usize = 8000;

/// A chain, or a move built by itself, of which less can be asked.
struct Kept {
    chain: Chain,
    is_lone: bool,
}

/// The program `chain_answers`.
pub struct Slots {
    kept: [Option<Kept>; SLOTS],
    longest: usize,
}

impl Default for Slots {
    fn default() -> Slots {
        Slots { kept: [const { None }; SLOTS], longest: LONGEST }
    }
}

impl Session for Slots {
    fn longest(&self) -> usize {
        self.longest
    }

    fn judged(&mut self, question: &[u8], words: &[&[u8]]) -> Answer {
        let (_, answer) = QUESTIONS.iter().find(|(name, _)| name.as_bytes() == question)?;
        answer(self, words)
    }
}

impl Slots {
    /// With lines of any length: a file may hold more poses than a line of the program's has room for.
    pub fn any_length() -> Slots {
        Slots { longest: usize::MAX, ..Slots::default() }
    }

    /// Empties a slot for a refusal, else fills it.
    fn keep(&mut self, slot: usize, built: Judged<Chain>, is_lone: bool) -> Answer {
        let answer = built.as_ref().map(|chain| Values::default().number(chain.poses.len())).map_err(|number| *number);
        self.kept[slot] = built.ok().map(|chain| Kept { chain, is_lone });
        Some(answer)
    }

    fn kept(&self, slot: usize) -> Option<&Kept> {
        self.kept[slot].as_ref()
    }

    /// A chain or a move by itself.
    fn any(&self, slot: usize) -> Option<&Chain> {
        Some(&self.kept(slot)?.chain)
    }

    /// A chain; a move by itself is none.
    fn chain(&self, slot: usize) -> Option<&Chain> {
        self.kept(slot).filter(|kept| !kept.is_lone).map(|kept| &kept.chain)
    }
}

/// The first word as a whole number, and the words behind it.
fn first(words: Words) -> Option<(u64, Words)> {
    let (word, rest) = words.split_first()?;
    Some((whole(word)?, rest))
}

/// The first word as a slot's number, and the words behind it.
fn slot(words: Words) -> Option<(usize, Words)> {
    let (number, rest) = first(words)?;
    let slot = usize::try_from(number).ok()?;
    (slot < SLOTS).then_some((slot, rest))
}

/// A kind of chain.
fn kind(words: Words) -> Option<(Kind, Words)> {
    match words.split_first()? {
        (&b"plain", rest) => Some((Kind::Plain, rest)),
        (&b"rigid", rest) => Some((Kind::Rigid, rest)),
        _ => None,
    }
}

/// A slot, and a kind of chain.
fn slot_and_kind(words: Words) -> Option<(usize, Kind, Words)> {
    let (slot, words) = slot(words)?;
    let (kind, words) = kind(words)?;
    Some((slot, kind, words))
}

/// Floats to the end.
fn list(words: Words) -> Option<Vec<f32>> {
    words.iter().map(|word| float(word)).collect()
}

const POSE_FLOATS: usize = 18;

/// Any number of poses: time, matrix and pad.
fn poses(words: Words) -> Option<Vec<Pose>> {
    let values = list(words)?;
    let poses = values.chunks_exact(POSE_FLOATS);
    poses.remainder().is_empty().then(|| poses.map(|pose| Pose { time: pose[0], matrix: matrix(&pose[1..17]), pad: pose[17] }).collect())
}

fn box_floats(b: Judged<[f32; 6]>) -> Judged<Values> {
    b.map(|b| floats(&b))
}

/// A move of the chain in a slot, by its place.
fn move_of<'a, 'w>(slots: &'a Slots, words: Words<'w>) -> Option<(&'a Move, Words<'w>)> {
    let (slot, words) = slot(words)?;
    let (place, words) = first(words)?;
    Some((slots.any(slot)?.moves.get(usize::try_from(place).ok()?)?, words))
}

/// chain S KIND P*
fn chain(slots: &mut Slots, words: Words) -> Answer {
    let (slot, kind, words) = slot_and_kind(words)?;
    slots.keep(slot, Chain::build(kind, &poses(words)?), false)
}

/// lone S KIND P P
fn lone(slots: &mut Slots, words: Words) -> Answer {
    let (slot, kind, words) = slot_and_kind(words)?;
    let poses: [Pose; 2] = poses(words)?.try_into().ok()?;
    slots.keep(slot, Chain::lone(kind, &poses), true)
}

/// join S A B
fn join(slots: &mut Slots, words: Words) -> Answer {
    let (into, words) = slot(words)?;
    let (first, words) = slot(words)?;
    let (second, []) = slot(words)? else { return None };
    let joined = slots.chain(first)?.join(slots.chain(second)?);
    slots.keep(into, joined, false)
}

/// cpoint S T X Y Z
fn point(slots: &mut Slots, words: Words) -> Answer {
    let (slot, words) = slot(words)?;
    let [time, x, y, z] = read(words)?;
    let moved = slots.any(slot)?.transform_point(time, &Point3f::new(x, y, z));
    Some(moved.map(|p| floats(&point_values(&p))))
}

/// cpad S T
fn pad(slots: &mut Slots, words: Words) -> Answer {
    let (slot, words) = slot(words)?;
    let [time] = read(words)?;
    Some(slots.any(slot)?.pad(time).map(|pad| floats(&[pad])))
}

/// ctimes S PLACES X Y Z T*
fn times(slots: &mut Slots, words: Words) -> Answer {
    let (slot, words) = slot(words)?;
    let (places, words) = first(words)?;
    let values = list(words)?;
    let (p, times) = values.split_at_checked(3)?;
    let chain = slots.chain(slot)?;
    // More places than a list of this length can ask for are as good as one too many.
    let mut answers = vec![0.0; places.min(3 * times.len() as u64 + 1) as usize];
    Some(chain.transform_points(times, &Point3f::new(p[0], p[1], p[2]), &mut answers).map(|()| floats(&answers)))
}

/// ccover S D BOX
fn cover(slots: &mut Slots, words: Words) -> Answer {
    let (slot, words) = slot(words)?;
    let (depth, words) = first(words)?;
    let b = read(words)?;
    Some(box_floats(slots.any(slot)?.cover(&b, depth)))
}

/// try S PLACE D P BOX
fn try_pose(slots: &mut Slots, words: Words) -> Answer {
    let (slot, words) = slot(words)?;
    let (place, words) = first(words)?;
    let (depth, words) = first(words)?;
    let (pose, bounds) = words.split_at_checked(POSE_FLOATS)?;
    let [pose]: [Pose; 1] = poses(pose)?.try_into().ok()?;
    let b = read(bounds)?;
    Some(box_floats(slots.chain(slot)?.try_pose(place, pose, &b, depth)))
}

/// cset S D BOX*
fn set(slots: &mut Slots, words: Words) -> Answer {
    let (slot, words) = slot(words)?;
    let (depth, words) = first(words)?;
    let values = list(words)?;
    let (boxes, []) = values.as_chunks() else { return None };
    let (union, covers) = match slots.chain(slot)?.covers(boxes, depth) {
        Ok(answer) => answer,
        Err(number) => return Some(Err(number)),
    };
    Some(Ok(floats(&union).floats(covers.as_flattened())))
}

/// cinterp S I T
fn interp(slots: &mut Slots, words: Words) -> Answer {
    let (m, words) = move_of(slots, words)?;
    let [time] = read(words)?;
    Some(m.interpolate(time).map(|t| matrix_floats(&t.m).floats(t.m_inv.m.as_flattened())))
}

/// cparts S I
fn move_parts(slots: &mut Slots, words: Words) -> Answer {
    let (m, words) = move_of(slots, words)?;
    let [] = read(words)?;
    Some(Ok(parts(m)))
}

/// cmotion S I BOX
fn motion(slots: &mut Slots, words: Words) -> Answer {
    let (m, words) = move_of(slots, words)?;
    Some(m.motion_bounds(&bounds(&read(words)?)).map(|motion| counted(&motion)))
}

/// cpmotion S I X Y Z
fn point_motion(slots: &mut Slots, words: Words) -> Answer {
    let (m, words) = move_of(slots, words)?;
    let [x, y, z] = read(words)?;
    Some(m.bound_point_motion(&Point3f::new(x, y, z)).map(|motion| counted(&motion)))
}

/// acosn C
fn arc_cosine(_: &mut Slots, words: Words) -> Answer {
    let [c] = read(words)?;
    Some(Ok(floats(&[angles::acos(c)]).number(angles::acos_cosines(c) as usize)))
}

/// write S ROOM BOX
fn write(slots: &mut Slots, words: Words) -> Answer {
    let (slot, words) = slot(words)?;
    let (room, words) = first(words)?;
    let b = read(words)?;
    let text = slots.chain(slot)?.write(&b, room);
    Some(text.map(|text| Values::default().number(text.len()).bytes(text.as_bytes())))
}

/// read HEXBYTES
fn read_file(_: &mut Slots, words: Words) -> Answer {
    // No word at all is a file of no bytes.
    let file = match words {
        [] => File::read(b""),
        [word] => File::read(&bytes(word)?),
        _ => return None,
    };
    Some(file.map(|file| {
        let answer = Values::default().number(file.poses.len()).bits(&file.bounds);
        file.poses.iter().fold(answer, |answer, pose| answer.bits(&[pose.time]).bits(pose.matrix.m.as_flattened()).bits(&[pose.pad]))
    }))
}

/// stretch KIND P*
fn stretch(_: &mut Slots, words: Words) -> Answer {
    let (kind, words) = kind(words)?;
    Some(chain::stretch(kind, &poses(words)?).map(|[place, length]| Values::default().number(place).number(length)))
}

/// windows A B D BOXA BOXB T*
fn windows(slots: &mut Slots, words: Words) -> Answer {
    let (first_slot, words) = slot(words)?;
    let (second_slot, words) = slot(words)?;
    let (depth, words) = first(words)?;
    let values = list(words)?;
    let (boxes, ticks) = values.split_at_checked(12)?;
    let ([b, c], []) = boxes.as_chunks() else { return None };
    let met = slots.chain(first_slot)?.windows(slots.chain(second_slot)?, b, c, depth, ticks);
    Some(met.map(|met| met.iter().fold(Values::default().number(met.len()), |values, place| values.number(*place))))
}

/// wcover S D BOX T0 T1
fn window_cover(slots: &mut Slots, words: Words) -> Answer {
    let (slot, words) = slot(words)?;
    let (depth, words) = first(words)?;
    let [x0, y0, z0, x1, y1, z1, earlier, later] = read(words)?;
    Some(box_floats(slots.chain(slot)?.window_cover(&[x0, y0, z0, x1, y1, z1], depth, Window { earlier, later })))
}

/// A box and a decimal run length.
fn boom(words: Words) -> Option<Boom> {
    let (ticks, cover) = words.split_last()?;
    Some(Boom { cover: read(cover)?, ticks: whole(ticks)? })
}

/// day [BOX LENGTH]*
fn day(_: &mut Slots, words: Words) -> Answer {
    let booms: Vec<Boom> = words.chunks(7).map(boom).collect::<Option<_>>()?;
    Some(starting_ticks(&booms).map(|starts| starts.iter().fold(Values::default(), |values, start| values.number(*start as usize))))
}

/// rows BOX BOX*
fn rows(_: &mut Slots, words: Words) -> Answer {
    let values = list(words)?;
    let (boxes, []) = values.as_chunks() else { return None };
    let (cover, rows) = boxes.split_first()?;
    Some(reached_rows(cover, rows).map(|met| met.iter().fold(Values::default().number(met.len()), |values, place| values.number(*place))))
}

/// So many things of so many floats each, and the floats behind them.
fn counted_floats(values: &[f32], count: u64, size: usize) -> Option<(&[f32], &[f32])> {
    values.split_at_checked(usize::try_from(count).ok()?.checked_mul(size)?)
}

/// reach S D NB NT NR, then the boxes, the ticks and the rows
fn reach(slots: &mut Slots, words: Words) -> Answer {
    let (slot, words) = slot(words)?;
    let (depth, words) = first(words)?;
    let (boxes_count, words) = first(words)?;
    let (ticks_count, words) = first(words)?;
    let (rows_count, words) = first(words)?;
    let values = list(words)?;
    let (boxes, values) = counted_floats(&values, boxes_count, 6)?;
    let (ticks, values) = counted_floats(values, ticks_count, 1)?;
    let (rows, []) = counted_floats(values, rows_count, 6)? else { return None };
    let masks = slots.any(slot)?.reach(boxes.as_chunks().0, depth, ticks, rows.as_chunks().0);
    Some(masks.map(|masks| masks.iter().fold(Values::default(), |values, mask| values.mask(*mask))))
}

/// cut N BOX
fn parts_of_box(_: &mut Slots, words: Words) -> Answer {
    let (count, words) = first(words)?;
    Some(cut(&read(words)?, count).map(|parts| floats(parts.as_flattened())))
}

#[cfg(test)]
mod tests {
    use super::*;

    const ORIGIN: &str = "00000000 00000000 00000000";

    /// The identity moved along x, at a time; both as bits.
    fn pose(time: &str, x: &str) -> String {
        let row = |place: usize| ["3f800000 00000000 00000000", "00000000 3f800000 00000000", "00000000 00000000 3f800000"][place];
        format!("{time} {} {x} {} 00000000 {} 00000000 {ORIGIN} 3f800000 00000000", row(0), row(1), row(2))
    }

    fn three_poses() -> String {
        [pose("00000000", "00000000"), pose("3f800000", "3f800000"), pose("40000000", "00000000")].join(" ")
    }

    fn answers(questions: &[&str]) -> Vec<String> {
        let mut slots = Slots::default();
        questions.iter().filter_map(|question| slots.answer(question.as_bytes())).collect()
    }

    #[test]
    fn slots_are_kept_and_emptied() {
        let build = |slot: usize| format!("chain {slot} plain {}", three_poses());
        let (first, second, none) = (build(0), build(3), "chain 0 plain".to_owned());
        let ask = |slot: usize| format!("cpoint {slot} 3f000000 {ORIGIN}");
        let half = "ok 3f000000 00000000 00000000";
        let session = [&ask(0), &first, &second, &ask(0), &ask(3), &ask(1), "chain 0 plain 00000000", &ask(0), &none, &ask(0), &ask(3)];
        assert_eq!(answers(&session), ["error", "ok 3", "ok 3", half, half, "error", "error", half, "refused 12", "error", half]);
    }

    #[test]
    fn a_lone_move_has_no_list_of_times_and_no_set() {
        let lone = format!("lone 1 plain {} {}", pose("3f800000", "00000000"), pose("3f800000", "3f800000"));
        let session = [
            &lone,
            &format!("cpoint 1 40000000 {ORIGIN}"),
            &format!("ctimes 1 3 {ORIGIN} 40000000"),
            &format!("cset 1 4 {ORIGIN} {ORIGIN}"),
            &format!("ccover 1 4 {ORIGIN} {ORIGIN}"),
        ];
        let expected = ["ok 2", "ok 3f800000 00000000 00000000", "error", "error", "ok 00000000 00000000 00000000 3f800000 00000000 00000000"];
        assert_eq!(answers(&session.map(String::as_str)), expected);
    }

    #[test]
    fn counts_of_words() {
        let build = format!("chain 2 plain {}", three_poses());
        let words = |question: &str| answers(&[&build, question])[1].split(' ').count();
        assert_eq!(words("cparts 2 1"), 1 + 2 + 138);
        assert_eq!(words("cinterp 2 1 3fc00000"), 1 + 32);
        assert_eq!(words(&format!("cmotion 2 0 {ORIGIN} {ORIGIN}")), 1 + 6 + 3);
        assert_eq!(words(&format!("cpmotion 2 0 {ORIGIN}")), 1 + 6 + 3);
        assert_eq!(words(&format!("ccover 2 3 {ORIGIN} {ORIGIN}")), 1 + 6);
        assert_eq!(words(&format!("cset 2 3{}", format!(" {ORIGIN} {ORIGIN}").repeat(16))), 1 + 6 * 17);
        assert_eq!(answers(&[&build, "cset 2 3"])[1], "refused 14");
        assert_eq!(words(&format!("day{}", format!(" {ORIGIN} {ORIGIN} 5").repeat(8))), 1 + 8);
        assert_eq!(answers(&["day", &format!("day {ORIGIN} {ORIGIN} 007 {ORIGIN} {ORIGIN} 1")]), ["refused 22", "ok 0 7"]);
        assert_eq!(
            words(&format!("reach 2 1 2 3 4{} 00000000 3f800000 40000000{}", format!(" {ORIGIN} {ORIGIN}").repeat(2), format!(" {ORIGIN} {ORIGIN}").repeat(4))),
            1 + 4
        );
        assert_eq!(answers(&[&build, &format!("reach 2 1 1 2 1 {ORIGIN} {ORIGIN} 00000000 3f800000 {ORIGIN} {ORIGIN}")])[1], "ok 0000000000000001");
        assert_eq!(answers(&[&build, "reach 2 1 0 0 0"])[1], "refused 14");
        assert_eq!(words(&format!("cut 5 {ORIGIN} {ORIGIN}")), 1 + 5 * 6);
        assert_eq!(words(&format!("ctimes 2 6 {ORIGIN} 3f000000 3f800000")), 1 + 6);
        assert_eq!(words(&format!("ctimes 2 0 {ORIGIN}")), 1);
        assert_eq!(answers(&[&build, &format!("ctimes 2 18446744073709551615 {ORIGIN}")])[1], "refused 13");
    }

    #[test]
    fn kinds() {
        let build = |kind: &str, end: &str| format!("chain 0 {kind} {} {}", pose("00000000", "00000000"), pose("3f800000", end));
        let scaled = build("rigid", "40000000").replacen("3f800000", "40000000", 1);
        let mirrored = build("rigid", "40000000").replacen("3f800000", "bf800000", 1);
        let session = answers(&[&build("plain", "40000000"), "cparts 0 0", &build("rigid", "40000000"), "cparts 0 0", &scaled, "cparts 0 0", &mirrored]);
        assert_eq!((&*session[0], &*session[2], &*session[4], &*session[5], &*session[6]), ("ok 2", "ok 2", "refused 17", "error", "refused 18"));
        // Only the S of the end differs: a plain one has the translation in its fourth column, which nothing reads.
        let differing = session[1].split(' ').zip(session[3].split(' ')).filter(|(plain, rigid)| plain != rigid);
        assert_eq!(differing.collect::<Vec<_>>(), [("40000000", "00000000")]);
    }

    #[test]
    fn files() {
        let build = format!("chain 2 plain {}", three_poses());
        let write = |room: usize| format!("write 2 {room} {ORIGIN} {ORIGIN}");
        let session = answers(&[&build, &write(506), &write(507), &format!("write 2 0 7fc00000 {ORIGIN} 00000000 00000000")]);
        assert_eq!((&*session[1], &*session[3]), ("refused 15", "refused 6"));
        let text = session[2].strip_prefix("ok 507 ").unwrap();
        assert_eq!(
            answers(&[&format!("read {text}"), "read", "read ", "read 0a", &format!("read {}", text.to_uppercase())]),
            [
                &*format!("ok 3 {ORIGIN} {ORIGIN} {}", three_poses()),
                "refused 11",
                "refused 11",
                "refused 11",
                &*format!("ok 3 {ORIGIN} {ORIGIN} {}", three_poses()),
            ]
        );
    }

    #[test]
    fn malformed_lines() {
        let build = format!("chain 0 plain {}", three_poses());
        let one_more = format!("{build} 00000000");
        for line in [
            "chain",
            "chain 0",
            "chain 4 plain",
            "chain -1 plain",
            "chain 0 Plain",
            "chain 0 Rigid",
            "chain 0 0",
            &one_more,
            "lone 0 plain",
            "cparts 0",
            "cparts 0 2",
            "cparts 0 0 0",
            "cparts 4 0",
            "cinterp 0 0",
            "ctimes 0 0",
            "ctimes 0 0 00000000 00000000",
            "cpoint 0 00000000",
            "ccover 0",
            "cset 0",
            "cset 0 x",
            "cset 0 4 00000000",
            "write",
            "write 0",
            "write 0 5000",
            "write 4 5000 00000000 00000000 00000000 00000000 00000000 00000000",
            "write 1 5000 00000000 00000000 00000000 00000000 00000000 00000000",
            "read 0",
            "read 0g",
            "read 00 00",
            "day 0",
            "day 00000000 00000000 00000000 00000000 00000000 00000000",
            "day 00000000 00000000 00000000 00000000 00000000 00000000 x",
            "day 00000000 00000000 00000000 00000000 00000000 1 00000000",
            "rows",
            "rows 0",
            "rows 00000000 00000000 00000000 00000000 00000000",
            "rows 00000000 00000000 00000000 00000000 00000000 00000000 00000000",
            "reach",
            "reach 0 1 0 0",
            "reach 0 1 0 0 1",
            "reach 1 1 0 0 0",
            "reach 0 1 1 0 0 00000000 00000000 00000000 00000000 00000000",
            "reach 0 1 18446744073709551615 0 0",
            "cut",
            "cut 1",
            "cut 1 00000000 00000000 00000000 00000000 00000000",
            "cut x 00000000 00000000 00000000 00000000 00000000 00000000",
            "sin 00000000",
            "acosn",
            "acosn 0",
            "acosn 0 00000000",
            "acosn 00000000 00000000",
            "nothing",
        ] {
            assert_eq!(answers(&[&build, line]), ["ok 3", "error"], "{line:?}");
        }
        assert_eq!(answers(&[&format!("chain {:08000} plain", 0)]), ["error"]);
        assert_eq!(Slots::any_length().answer(format!("chain {:08000} plain", 0).as_bytes()).unwrap(), "refused 12");
    }
}
