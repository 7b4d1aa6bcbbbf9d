//! The proved counter and lister against a plain Rust version of the same lexical algorithm: made traces, a check that both
//! agree, then the time of each in the same run over the same buffers. `bench/run` builds and runs it.
use std::hint::black_box;
use std::time::Instant;

const PER_TABLET: usize = 254;
const SLOTS: usize = 2032;
const CLOCK_BYTES: usize = 16256;

/// The proved library, target/bench/libexports.a. A slice is a pointer and a length.
mod proved {
    use super::Trace;

    extern "C" {
        fn chongyeori_count(
            tablets: u8,
            events: u16,
            clocks: *const u8,
            clocks_len: usize,
            held: *const u16,
            held_len: usize,
            order: *const u8,
            order_len: usize,
            position: u16,
        ) -> u64;
        fn chongyeori_list(
            tablets: u8,
            events: u16,
            clocks: *const u8,
            clocks_len: usize,
            held: *const u16,
            held_len: usize,
            order: *const u8,
            order_len: usize,
            position: u16,
            out: *mut u8,
            out_len: usize,
        ) -> u64;
    }

    pub fn count(t: &Trace, position: u16) -> u64 {
        // The calls take no `requires`: any slices will do, and these are whole.
        unsafe {
            chongyeori_count(
                t.tablets,
                t.events,
                t.clocks.as_ptr(),
                t.clocks.len(),
                t.held.as_ptr(),
                t.held.len(),
                t.order.as_ptr(),
                t.order.len(),
                position,
            )
        }
    }

    pub fn list(t: &Trace, position: u16, out: &mut [u8]) -> u64 {
        unsafe {
            chongyeori_list(
                t.tablets,
                t.events,
                t.clocks.as_ptr(),
                t.clocks.len(),
                t.held.as_ptr(),
                t.held.len(),
                t.order.as_ptr(),
                t.order.len(),
                position,
                out.as_mut_ptr(),
                out.len(),
            )
        }
    }
}

/// The same algorithm in plain Rust: the store test, the bounds of the interval, the lexical step.
mod plain {
    use super::{Trace, CLOCK_BYTES, PER_TABLET, SLOTS};

    fn slot(column: usize, event: u8) -> usize {
        column * PER_TABLET + event as usize - 1
    }

    fn covered(a: &[u8], b: &[u8]) -> bool {
        (0..8).all(|j| a[j] <= b[j])
    }

    fn may_follow(n: usize, clocks: &[u8], tallies: &[u8; 8], tablet: u8) -> bool {
        if tablet == 0 || n < tablet as usize {
            return false;
        }
        let own = tablet as usize - 1;
        if 254 <= tallies[own] {
            return false;
        }
        let from = 8 * slot(own, tallies[own] + 1);
        let clock = &clocks[from..from + 8];
        if clock[own] != tallies[own] + 1 {
            return false;
        }
        for j in 0..8 {
            if j != own && clock[j] > if j < n { tallies[j] } else { 0 } {
                return false;
            }
        }
        for j in 0..8 {
            let last = if j == own { tallies[j] } else { clock[j] };
            if last != 0 {
                let at = 8 * slot(j, last);
                if !covered(&clocks[at..at + 8], clock) {
                    return false;
                }
            }
        }
        true
    }

    fn sound(t: &Trace) -> bool {
        let n = t.tablets as usize;
        if n == 0 || 8 < n {
            return false;
        }
        if t.clocks.len() < CLOCK_BYTES || t.held.len() < SLOTS || t.order.len() < SLOTS {
            return false;
        }
        if SLOTS < t.events as usize {
            return false;
        }
        let mut tallies = [0u8; 8];
        for &tablet in &t.order[..t.events as usize] {
            if !may_follow(n, &t.clocks, &tallies, tablet) {
                return false;
            }
            tallies[tablet as usize - 1] += 1;
        }
        true
    }

    struct Span {
        low: [u8; 8],
        high: [u8; 8],
    }

    fn interval(t: &Trace, position: u16) -> Span {
        let p = position as usize;
        let mut high = [0u8; 8];
        for &tablet in &t.order[..p] {
            high[tablet as usize - 1] += 1;
        }
        let mut low = [0u8; 8];
        if p > 0 {
            let own = t.order[p - 1] as usize - 1;
            let from = 8 * slot(own, high[own]);
            low.copy_from_slice(&t.clocks[from..from + 8]);
        }
        Span { low, high }
    }

    fn can_raise(clocks: &[u8], high: &[u8; 8], counts: &[u8; 8], k: usize) -> bool {
        if high[k] <= counts[k] {
            return false;
        }
        let from = 8 * slot(k, counts[k] + 1);
        (0..k).all(|j| clocks[from + j] <= counts[j])
    }

    /// Moves to the next cut of the range; false where there is none.
    fn step(n: usize, clocks: &[u8], span: &Span, counts: &mut [u8; 8]) -> bool {
        for k in (0..n).rev() {
            if can_raise(clocks, &span.high, counts, k) {
                counts[k] += 1;
                for j in k + 1..n {
                    let mut most = span.low[j];
                    for i in 0..=k {
                        if counts[i] != 0 {
                            most = most.max(clocks[8 * slot(i, counts[i]) + j]);
                        }
                    }
                    counts[j] = most;
                }
                return true;
            }
        }
        false
    }

    #[inline(never)]
    pub fn count(t: &Trace, position: u16) -> u64 {
        if !sound(t) || t.events < position {
            return 0;
        }
        let span = interval(t, position);
        let mut counts = span.low;
        let mut count = 1u64;
        while step(t.tablets as usize, &t.clocks, &span, &mut counts) {
            match count.checked_add(1) {
                Some(more) => count = more,
                None => return 0,
            }
        }
        count
    }

    #[inline(never)]
    pub fn list(t: &Trace, position: u16, out: &mut [u8]) -> u64 {
        if !sound(t) || t.events < position || out.len() < 8 {
            return 0;
        }
        let span = interval(t, position);
        let mut counts = span.low;
        let mut written = 0;
        for room in out.chunks_exact_mut(8) {
            room.copy_from_slice(&counts);
            written += 1;
            if !step(t.tablets as usize, &t.clocks, &span, &mut counts) {
                break;
            }
        }
        written
    }
}

/// A record and its three buffers, as document 01 lays them out.
#[derive(Clone)]
pub struct Trace {
    pub tablets: u8,
    pub events: u16,
    pub clocks: Vec<u8>,
    pub held: Vec<u16>,
    pub order: Vec<u8>,
    tallies: [u8; 8],
}

impl Trace {
    fn open(tablets: u8) -> Trace {
        Trace {
            tablets,
            events: 0,
            clocks: vec![0; CLOCK_BYTES],
            held: vec![0; SLOTS],
            order: vec![0; SLOTS],
            tallies: [0; 8],
        }
    }

    fn clock(&self, column: usize, event: u8) -> [u8; 8] {
        let from = 8 * (column * PER_TABLET + event as usize - 1);
        self.clocks[from..from + 8].try_into().unwrap()
    }

    /// The next event of a tablet; with a message, it also knows what the sender knew `lag` of its events ago.
    fn event(&mut self, column: usize, message: Option<(usize, u8)>) {
        let mut clock = [0u8; 8];
        if self.tallies[column] > 0 {
            clock = self.clock(column, self.tallies[column]);
        }
        if let Some((sender, lag)) = message {
            if self.tallies[sender] > lag {
                let sent = self.clock(sender, self.tallies[sender] - lag);
                for j in 0..8 {
                    clock[j] = clock[j].max(sent[j]);
                }
            }
        }
        self.tallies[column] += 1;
        let event = self.tallies[column];
        clock[column] = event;
        let slot = column * PER_TABLET + event as usize - 1;
        self.clocks[8 * slot..8 * slot + 8].copy_from_slice(&clock);
        self.held[slot] = event as u16;
        self.order[self.events as usize] = column as u8 + 1;
        self.events += 1;
    }
}

/// splitmix64
struct Random(u64);

impl Random {
    fn below(&mut self, bound: usize) -> usize {
        self.0 = self.0.wrapping_add(0x9e3779b97f4a7c15);
        let mut z = self.0;
        z = (z ^ (z >> 30)).wrapping_mul(0xbf58476d1ce4e5b9);
        z = (z ^ (z >> 27)).wrapping_mul(0x94d049bb133111eb);
        ((z ^ (z >> 31)) % bound as u64) as usize
    }
}

/// `per` events on each tablet in mixed order. One event in `rare` takes a message (0: none), of the sender's last
/// `lags` events.
fn made(seed: u64, tablets: usize, per: u8, rare: usize, lags: usize) -> Trace {
    let mut random = Random(seed);
    let mut trace = Trace::open(tablets as u8);
    while (trace.events as usize) < tablets * per as usize {
        let column = random.below(tablets);
        if trace.tallies[column] == per {
            continue;
        }
        let mut message = None;
        if rare > 0 && tablets > 1 && random.below(rare) == 0 {
            let sender = (column + 1 + random.below(tablets - 1)) % tablets;
            message = Some((sender, random.below(lags) as u8));
        }
        trace.event(column, message);
    }
    trace
}

/// The position from `first` on whose interval has the most cuts, by the plain counter.
fn widest(trace: &Trace, first: u16) -> u16 {
    (first..=trace.events)
        .max_by_key(|&p| plain::count(trace, p))
        .unwrap()
}

fn agree(what: &str, trace: &Trace, positions: &[u16], lengths: &[usize]) {
    for &p in positions {
        let (a, b) = (proved::count(trace, p), plain::count(trace, p));
        if a != b {
            panic!("{what}: interval {p} has {a} cuts by the proved counter, {b} by the plain one");
        }
        for &length in lengths {
            let mut x = vec![0xa5u8; length];
            let mut y = x.clone();
            let a = proved::list(trace, p, &mut x);
            let b = plain::list(trace, p, &mut y);
            if a != b || x != y {
                panic!("{what}: interval {p}, output of {length} bytes: {a} and {b} cuts, not the same bytes");
            }
        }
    }
}

/// Faulty stores: both must refuse, and leave the output as it was.
fn agree_refused(trace: &Trace) {
    let mut faulty = vec![trace.clone(); 9];
    faulty[0].tablets = 0;
    faulty[1].tablets = 9;
    faulty[2].clocks.truncate(CLOCK_BYTES - 1);
    faulty[3].held.truncate(SLOTS - 1);
    faulty[4].order.truncate(SLOTS - 1);
    faulty[5].events = 2033;
    faulty[6].order[3] = 0;
    faulty[7].clocks[0] = 2;
    faulty[8].clocks[7] = 1;
    for (which, t) in faulty.iter().enumerate() {
        if proved::count(t, 1) != 0 {
            panic!("faulty store {which} was counted");
        }
        agree("faulty store", t, &[0, 1, 5], &[64]);
    }
}

/// Seconds for a call of each, the best of several rounds of `calls` calls that take turns; and what a call answers.
fn timed(calls: usize, mut a: impl FnMut() -> u64, mut b: impl FnMut() -> u64) -> (f64, f64, u64) {
    let answer = black_box(a());
    assert_eq!(answer, black_box(b()));
    let (mut best_a, mut best_b) = (f64::MAX, f64::MAX);
    for _ in 0..7 {
        let start = Instant::now();
        for _ in 0..calls {
            black_box(a());
        }
        best_a = best_a.min(start.elapsed().as_secs_f64());
        let start = Instant::now();
        for _ in 0..calls {
            black_box(b());
        }
        best_b = best_b.min(start.elapsed().as_secs_f64());
    }
    (best_a / calls as f64, best_b / calls as f64, answer)
}

fn line(case: &str, work: &str, unit: &str, (a, b, units): (f64, f64, u64)) {
    let (a, b) = (units as f64 / a / 1e6, units as f64 / b / 1e6);
    println!("{case:<24} {work:<6} {units:>8} {unit:<6} {a:>8.2} {b:>8.2} {:>6.2}", a / b);
}

fn race(case: &str, trace: &Trace, position: u16) {
    let t = black_box(trace);
    let p = black_box(position);
    let cuts = plain::count(t, p);
    let calls = (2_000_000 / cuts).max(1) as usize;
    line(case, "count", "cuts", timed(calls, || proved::count(t, p), || plain::count(t, p)));
    let room = cuts.min(131_072) as usize;
    let calls = (2_000_000 / room).max(1);
    let mut x = vec![0u8; 8 * room];
    let mut y = vec![0u8; 8 * room];
    line(
        case,
        "list",
        "cuts",
        timed(calls, || proved::list(t, p, black_box(&mut x)), || plain::list(t, p, black_box(&mut y))),
    );
    assert_eq!(x, y);
}

fn main() {
    let wide = made(1, 8, 7, 0, 1);
    let handed = made(2, 4, 250, 6, 120);
    let dense = made(3, 8, 212, 2, 1);
    let small = made(4, 3, 6, 3, 2);
    let one = made(5, 1, 254, 0, 1);

    let lengths = [0, 7, 8, 9, 80, 4_096, 1_048_576];
    let every: Vec<u16> = (0..=small.events + 1).collect();
    agree("small", &small, &every, &lengths);
    agree("one tablet", &one, &[0, 1, 128, 254, 255], &lengths);
    agree("wide", &wide, &[0, 1, 20, 40, 50, 56, 57], &lengths);
    agree("handed over", &handed, &[0, 1, 100, 400, 700, 999, 1000, 1001], &lengths);
    let some: Vec<u16> = (0..=dense.events + 1).step_by(53).collect();
    agree("dense", &dense, &some, &[8, 4_096]);
    agree_refused(&small);
    println!("both agree on counts and on listed bytes");

    println!("millions a second of each, and proved to plain:");
    println!("{:<24} {:<6} {:>8} {:<6} {:>8} {:>8} {:>6}", "trace", "call", "a call", "", "proved", "plain", "ratio");
    race("8 tablets, no message", &wide, widest(&wide, wide.events - 8));
    race("4 tablets, 1,000 events", &handed, widest(&handed, 0));
    race("8 tablets, 1,696 events", &dense, widest(&dense, 0));
    // The store test alone: interval 0 is one cut, so a count of it is nearly all store test. Events tested are counted.
    let t = black_box(&dense);
    let events = t.events as u64;
    line(
        "8 tablets, 1,696 events",
        "test",
        "events",
        timed(200, || proved::count(t, 0) * events, || plain::count(t, 0) * events),
    );
}
