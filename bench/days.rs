//! The whole of `cutcheck`, proved and plain, on the same days. `bench/whole` builds it.
//!
//!     days make FOLDER    writes days of known size as input texts
//!     days race FILE..    answers each file both ways, compares the bytes, and times both in turn
use plain::{INPUT, SLOTS};
use std::fmt::Write as _;
use std::hint::black_box;
use std::time::Instant;

mod plain;

const CLOCK_BYTES: usize = 8 * SLOTS;
const OUTPUT: usize = 71680;

/// The proved program's one call, from target/bench/libexports.a. A slice is a pointer and a length.
mod proved {
    use super::{CLOCK_BYTES, OUTPUT, SLOTS};

    extern "C" {
        fn chongyeori_report(
            input: *const u8,
            input_len: usize,
            clocks: *mut u8,
            clocks_len: usize,
            held: *mut u16,
            held_len: usize,
            order: *mut u8,
            order_len: usize,
            out: *mut u8,
            out_len: usize,
        ) -> usize;
    }

    /// What `main` of cutcheck does between reading and writing, its buffers included.
    #[inline(never)]
    pub fn answer(input: &[u8], out: &mut [u8; OUTPUT]) -> usize {
        let mut clocks = [0u8; CLOCK_BYTES];
        let mut held = [0u16; SLOTS];
        let mut order = [0u8; SLOTS];
        // The call takes any slices; these have the sizes that document 01 names.
        unsafe {
            chongyeori_report(
                input.as_ptr(),
                input.len(),
                clocks.as_mut_ptr(),
                clocks.len(),
                held.as_mut_ptr(),
                held.len(),
                order.as_mut_ptr(),
                order.len(),
                out.as_mut_ptr(),
                out.len(),
            )
        }
    }
}

/// splitmix64
struct Random(u64);

impl Random {
    fn below(&mut self, bound: usize) -> usize {
        self.0 = self.0.wrapping_add(0x9e3779b97f4a7c15);
        let mut z = self.0;
        z = (z ^ (z >> 30)).wrapping_mul(0xbf58476d1ce4e5b9);
        z = (z ^ (z >> 27)).wrapping_mul(0x94d049bb133111eb);
        ((z ^ (z >> 31)) % bound as u64) as usize
    }
}

/// `per` events on each tablet in mixed order, as many as an input holds. One event in `rare` takes a message (0: none)
/// with all that the sender knew `lag` or fewer of its events ago. Nobody holds what is asked for, so every cut is asked.
fn made(seed: u64, tablets: usize, per: u8, rare: usize, lag: usize) -> String {
    let mut random = Random(seed);
    let mut clocks: Vec<Vec<Vec<u8>>> = vec![Vec::new(); tablets];
    let mut text = format!("ask=atleast,4294967295\ntablets={tablets}\n");
    let mut events = 0;
    while clocks.iter().any(|own| own.len() < per as usize) {
        let column = random.below(tablets);
        if clocks[column].len() == per as usize {
            continue;
        }
        let mut clock = clocks[column].last().cloned().unwrap_or(vec![0; tablets]);
        if rare > 0 && random.below(rare) == 0 {
            let sender = (column + 1 + random.below(tablets - 1)) % tablets;
            let ago = random.below(lag) + 1;
            if ago <= clocks[sender].len() {
                let sent = &clocks[sender][clocks[sender].len() - ago];
                for j in 0..tablets {
                    clock[j] = clock[j].max(sent[j]);
                }
            }
        }
        clock[column] = clocks[column].len() as u8 + 1;
        let entries: Vec<String> = clock.iter().map(|e| e.to_string()).collect();
        let event = format!("tablet={}\nclock={}\nheld={}\n", column + 1, entries.join(","), random.below(3));
        if INPUT < text.len() + event.len() + "events=2032\n".len() {
            break;
        }
        text.push_str(&event);
        events += 1;
        clocks[column].push(clock);
    }
    let _ = writeln!(text, "events={events}");
    text
}

fn make(folder: &str) {
    // Silent days have 10 to the power n cuts. With every event taking a message a day has few; an input then holds about
    // 1,500 events of 6 tablets: 7 tablets' clocks take so much room that no day of 1,700 events has word of much.
    let days = [
        ("6-tablets-silent", made(1, 6, 9, 0, 1)),
        ("7-tablets-silent", made(2, 7, 9, 0, 1)),
        ("8-tablets-silent", made(3, 8, 9, 0, 1)),
        ("4-tablets-some-talk", made(4, 4, 250, 4, 12)),
        ("6-tablets-late-talk", made(4, 6, 254, 1, 12)),
        ("6-tablets-dense-talk", made(4, 6, 254, 1, 1)),
    ];
    for (name, text) in days {
        std::fs::write(format!("{folder}/{name}.txt"), text).expect("a day cannot be written");
    }
}

/// The number behind a key of an answer.
fn figure(answer: &str, key: &str) -> u64 {
    let line = answer.lines().find(|l| l.starts_with(key)).unwrap_or("");
    line.get(key.len()..).and_then(|v| v.parse().ok()).unwrap_or(0)
}

fn seconds<A>(mut call: impl FnMut() -> A, calls: usize) -> f64 {
    let start = Instant::now();
    for _ in 0..calls {
        black_box(call());
    }
    start.elapsed().as_secs_f64() / calls as f64
}

fn race(path: &str) {
    let input = std::fs::read(path).expect("a day cannot be read");
    let mut out = Box::new([0u8; OUTPUT]);
    let plain = plain::answer(&input);
    let length = proved::answer(&input, &mut out);
    if out.get(..length) != Some(plain.as_bytes()) {
        panic!("{path}: the two answers differ");
    }
    let once = seconds(|| plain::answer(black_box(&input)), 1);
    let calls = ((0.1 / once) as usize).max(1);
    let rounds = if once < 0.5 { 7 } else { 3 };
    let (mut a, mut b) = (f64::MAX, f64::MAX);
    for _ in 0..rounds {
        a = a.min(seconds(|| proved::answer(black_box(&input), &mut out), calls));
        b = b.min(seconds(|| plain::answer(black_box(&input)), calls));
    }
    let name = path.rsplit('/').next().unwrap_or(path).trim_end_matches(".txt");
    let (events, cuts) = (figure(&plain, "events="), figure(&plain, "cuts="));
    println!("{name:<24} {events:>6} {cuts:>10} {:>10.2} {:>10.2} {:>6.2}", 1e3 * a, 1e3 * b, b / a);
}

fn main() {
    let words: Vec<String> = std::env::args().skip(1).collect();
    match words.first().map(String::as_str) {
        Some("make") if words.len() == 2 => make(&words[1]),
        Some("race") => {
            println!("whole answers, milliseconds of each, and the proved program's speed to the plain one's:");
            println!("{:<24} {:>6} {:>10} {:>10} {:>10} {:>6}", "day", "events", "cuts", "proved", "plain", "ratio");
            words[1..].iter().for_each(|path| race(path));
        }
        _ => {
            eprintln!("usage: days make FOLDER | days race FILE..");
            std::process::exit(2);
        }
    }
}
