//! Takes the three source files of pbrt-rust as they are, makes the edits of the table `EDITS` and writes the results to OUT_DIR, where src/lib.rs includes them.
//! An edit whose text is not found as often as it says stops the build. No edit touches arithmetic.

use std::path::{Path, PathBuf};
use std::{env, fs};

const TRANSFORM: &str = "core/transform.rs";
const QUATERNION: &str = "core/quaternion.rs";
const BOUNDS: &str = "core/geometry/bounds.rs";

enum Change {
    /// The first text becomes the second, everywhere; it is found exactly so many times.
    Replace(&'static str, &'static str, usize),
    /// The text from the first marker up to the second, which stays; the first is found once, the second is the next one after it.
    Cut(&'static str, &'static str),
}
use Change::{Cut, Replace};

/// Every edit: the file, what changes, and why.
const EDITS: &[(&str, Change, &str)] = &[
    // Sine, cosine and arc cosine of a float are document 01's.
    (TRANSFORM, Replace("radians(theta).sin()", "crate::angles::sin(radians(theta))", 4), "angles"),
    (TRANSFORM, Replace("radians(theta).cos()", "crate::angles::cos(radians(theta))", 4), "angles"),
    (TRANSFORM, Replace("clamp(cos_theta, -1.0, 1.0).acos()", "crate::angles::acos(clamp(cos_theta, -1.0, 1.0))", 2), "angles"),
    (TRANSFORM, Replace("self.low.sin()", "crate::angles::sin(self.low)", 1), "angles"),
    (TRANSFORM, Replace("self.high.sin()", "crate::angles::sin(self.high)", 1), "angles"),
    (TRANSFORM, Replace("self.low.cos()", "crate::angles::cos(self.low)", 1), "angles"),
    (TRANSFORM, Replace("self.high.cos()", "crate::angles::cos(self.high)", 1), "angles"),
    (TRANSFORM, Replace("(2.0 * theta * t_newton).cos()", "crate::angles::cos(2.0 * theta * t_newton)", 1), "angles"),
    (TRANSFORM, Replace("(2.0 * theta * t_newton).sin()", "crate::angles::sin(2.0 * theta * t_newton)", 1), "angles"),
    (TRANSFORM, Replace("(2.0 * t_newton * theta).cos()", "crate::angles::cos(2.0 * t_newton * theta)", 1), "angles"),
    (TRANSFORM, Replace("(2.0 * t_newton * theta).sin()", "crate::angles::sin(2.0 * t_newton * theta)", 1), "angles"),
    (QUATERNION, Replace("clamp(cos_theta, -1.0, 1.0).acos()", "crate::angles::acos(clamp(cos_theta, -1.0, 1.0))", 1), "angles"),
    (QUATERNION, Replace("thetap.cos()", "crate::angles::cos(thetap)", 1), "angles"),
    (QUATERNION, Replace("thetap.sin()", "crate::angles::sin(thetap)", 1), "angles"),
    // Log and assertions.
    (TRANSFORM, Replace("use log::error;", "use crate::log::error;", 1), "the crate `log` is not at hand"),
    (
        TRANSFORM,
        Replace(
            "if minv.m[icol][icol] == 0.0 {\n                error!(\"Singular matrix in MatrixInvert\");",
            "if minv.m[icol][icol] == 0.0 {\n                crate::log::zero_pivot();",
            1,
        ),
        "tells the zero pivot, which is refusal 4, from the pivot count above 1, which has the same message",
    ),
    (
        TRANSFORM,
        Replace("assert!(self.low >= 0.0);", "crate::log::range(self.low >= 0.0);", 2),
        "the range assertions are noted instead of ending the program, since `zeros` is asked of any coefficients",
    ),
    (TRANSFORM, Replace("assert!(self.high <= 2.0001 * PI);", "crate::log::range(self.high <= 2.0001 * PI);", 2), "likewise"),
    (
        TRANSFORM,
        Replace("    type I = Interval;\n", "    type I = Interval;\n    crate::log::examined();\n", 1),
        "`interval_find_zeros` notes each of its calls, so each interval that it examines",
    ),
    (
        TRANSFORM,
        Replace(
            "        // Flip R1[1] if needed to select shortest path\n",
            "        if crate::log::rigid() {\n            res.s = [Matrix4x4::default(); 2];\n        }\n        // Flip R1[1] if needed to select shortest path\n",
            1,
        ),
        "a rigid move has the identity in place of both S in its coefficients, of which only the original has the formulas; no plain move comes here",
    ),
    // Parts that need modules which are missing here and are not ported.
    (TRANSFORM, Replace("use crate::core::geometry::ray::*;\n", "", 1), "rays are not ported"),
    (TRANSFORM, Replace("use crate::core::interaction::SurfaceInteraction;\n", "", 1), "surface interactions are not ported"),
    (
        TRANSFORM,
        Cut("    pub fn transform_ray(&self, r: &Ray) -> Ray {\n        let mut o_error", "    pub fn transform_bounds("),
        "`transform_ray` and `transform_ray_error` need rays",
    ),
    (
        TRANSFORM,
        Cut("    pub fn transform_surface_interaction<'a>", "    pub fn swaps_handedness("),
        "`transform_surface_interaction` needs surface interactions",
    ),
    (
        TRANSFORM,
        Cut("    pub fn transform_ray(&self, r: &Ray) -> Ray {\n        if !self.actually_animated", "    pub fn motion_bounds("),
        "the animated `transform_ray` needs rays",
    ),
    (BOUNDS, Replace("use crate::core::geometry::ray::Ray;\n", "", 1), "rays are not ported"),
    (BOUNDS, Cut("\n    pub fn intersect_p(&self, ray: &Ray", "\n}\n"), "`intersect_p` and `intersect_p2`, the last of their block, need rays"),
    (BOUNDS, Replace("pub type Bounds2f = Bounds2<Float>;\npub type Bounds2i = Bounds2<isize>;\n", "", 1), "boxes of the plane are not ported"),
    (
        BOUNDS,
        Cut("#[derive(Debug, Clone, Copy, PartialEq)]\npub struct Bounds2<T>", "#[derive(Debug, Clone, Copy, PartialEq)]\npub struct Bounds3<T>"),
        "boxes of the plane need points and vectors of the plane",
    ),
    (
        BOUNDS,
        Replace("use super::point::{Point2, Point3, Point2f, Point2i, Point3f};", "use super::point::{Point3, Point3f};", 1),
        "points of the plane are not ported",
    ),
    (BOUNDS, Replace("use super::vector::{Vector2, Vector3};", "use super::vector::Vector3;", 1), "vectors of the plane are not ported"),
    // Paths of crates that are not at hand.
    (BOUNDS, Replace("use num::{Num, Bounded};", "use crate::num::{self, Num, Bounded};", 1), "the crate `num` is not at hand"),
    (
        BOUNDS,
        Replace("use static_assertions::_core::fmt::Formatter;", "use std::fmt::Formatter;", 1),
        "the crate `static_assertions` is not at hand; the name is the standard library's",
    ),
];

/// What stays of the float functions after the edits: the two calls of `Interval`'s own sine and cosine, and no other.
const LEFT: &[(&str, &str, usize)] = &[
    (TRANSFORM, ".sin()", 1),
    (TRANSFORM, "c.sin()", 1),
    (TRANSFORM, ".cos()", 1),
    (TRANSFORM, "c.cos()", 1),
    (TRANSFORM, ".acos()", 0),
    (QUATERNION, ".sin()", 0),
    (QUATERNION, ".cos()", 0),
    (QUATERNION, ".acos()", 0),
];

fn count(text: &str, part: &str) -> usize {
    text.matches(part).count()
}

fn edited(file: &str, mut text: String) -> String {
    for (_, change, why) in EDITS.iter().filter(|(name, _, _)| *name == file) {
        text = match change {
            Replace(old, new, times) => {
                let found = count(&text, old);
                assert_eq!(found, *times, "{file}: `{old}` is found {found} times and not {times} ({why})");
                text.replace(old, new)
            }
            Cut(from, to) => {
                let found = count(&text, from);
                assert_eq!(found, 1, "{file}: `{from}` is found {found} times and not once ({why})");
                let start = text.find(from).unwrap();
                let length = text[start + from.len()..].find(to);
                let end = start + from.len() + length.unwrap_or_else(|| panic!("{file}: `{to}` is not found after `{from}` ({why})"));
                text[..start].to_owned() + &text[end..]
            }
        };
    }
    for (_, part, times) in LEFT.iter().filter(|(name, _, _)| *name == file) {
        let found = count(&text, part);
        assert_eq!(found, *times, "{file}: after the edits `{part}` is found {found} times and not {times}");
    }
    text
}

fn main() {
    let source = match env::var_os("PBRT_SRC") {
        Some(folder) => PathBuf::from(folder),
        None => Path::new(&env::var_os("CARGO_MANIFEST_DIR").unwrap()).join("../../shared/docs/src"),
    };
    let out = PathBuf::from(env::var_os("OUT_DIR").unwrap());
    println!("cargo:rerun-if-env-changed=PBRT_SRC");
    println!("cargo:rerun-if-changed=build.rs");
    for file in [TRANSFORM, QUATERNION, BOUNDS] {
        let path = source.join(file);
        let text = fs::read_to_string(&path)
            .unwrap_or_else(|e| panic!("{}: {e}; PBRT_SRC names the folder of pbrt-rust's sources, in which core/ stands", path.display()));
        println!("cargo:rerun-if-changed={}", path.display());
        let name = path.file_name().unwrap();
        fs::write(out.join(name), edited(file, text)).unwrap();
    }
}
