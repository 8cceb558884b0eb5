//! Answers document 02's questions. With `--any-length` a line may be as long as it is.

use oracle::chain_questions::Slots;
use oracle::lines::Session;

fn main() -> std::io::Result<()> {
    let arguments: Vec<String> = std::env::args().skip(1).collect();
    let mut slots = match arguments.as_slice() {
        [] => Slots::default(),
        [option] if option == "--any-length" => Slots::any_length(),
        _ => {
            eprintln!("usage: chain_answers [--any-length]");
            std::process::exit(2);
        }
    };
    slots.run()
}
