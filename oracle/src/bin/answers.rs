//! Answers document 01's questions.

use oracle::lines::Session;
use oracle::move_questions::Moves;

fn main() -> std::io::Result<()> {
    Moves::default().run()
}
