//! The oracle: pbrt-rust's `AnimatedTransform` and what it rests on, taken from the three source files by build.rs; around them document 01's numbers (`judged`),
//! a second implementation of the cover (`cover`), document 02's chains (`chain`) and windows of times (`windows`), move files (`file`), days of booms (`day`), rows that a boom reaches (`rows`), boxes in parts and rows window by window (`reach`), and the questions of the programs `answers` (`move_questions`) and
//! `chain_answers` (`chain_questions`), line by line (`lines`).

/// pbrt-rust's own module tree, so that the paths in the three files hold: `transform`, `quaternion` and `geometry::bounds` are the originals, the rest is the shim.
pub mod core {
    pub mod geometry {
        #[allow(dead_code, unused_imports, clippy::all)]
        pub mod bounds {
            include!(concat!(env!("OUT_DIR"), "/bounds.rs"));
        }
        pub mod normal;
        pub mod point;
        pub mod vector;
    }
    pub mod pbrt;
    #[allow(dead_code, unused_imports, clippy::all)]
    pub mod quaternion {
        include!(concat!(env!("OUT_DIR"), "/quaternion.rs"));
    }
    #[allow(dead_code, unused_imports, clippy::all)]
    pub mod transform {
        include!(concat!(env!("OUT_DIR"), "/transform.rs"));
        pub mod fields;
    }
}

pub mod angles;
pub mod chain;
pub mod chain_questions;
pub mod cover;
pub mod day;
pub mod file;
pub mod judged;
pub mod lines;
pub mod log;
pub mod move_questions;
pub mod num;
pub mod reach;
pub mod refusal;
pub mod rows;
pub mod windows;
