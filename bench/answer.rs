//! The answer of the plain program alone, for one file. `bench/answer` builds it.
use std::io::Write;

mod plain;

fn main() {
    let words: Vec<String> = std::env::args().skip(1).collect();
    let [path] = words.as_slice() else {
        eprintln!("usage: bench/answer FILE");
        std::process::exit(2);
    };
    let input = std::fs::read(path).expect("the day cannot be read");
    std::io::stdout().write_all(plain::answer(&input).as_bytes()).expect("the answer cannot be written");
}
