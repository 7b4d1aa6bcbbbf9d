//! `cutcheck` in plain safe Rust: the same text, the same tests, the same lexical step, and nothing of the proved code.
use std::fmt::Write as _;

const PER_TABLET: usize = 254;
pub const SLOTS: usize = 8 * PER_TABLET;
pub const INPUT: usize = 65536;

/// A refusal's number and line.
struct Refused(u8, usize);

enum Question {
    AtLeast(u64),
    Exactly(u64),
    All(Vec<usize>),
}

struct Trace {
    tablets: usize,
    tallies: [u8; 8],
    clocks: Vec<[u8; 8]>,
    held: Vec<u16>,
    order: Vec<u8>,
}

struct Span {
    low: [u8; 8],
    high: [u8; 8],
}

fn slot(column: usize, event: u8) -> usize {
    column * PER_TABLET + event as usize - 1
}

fn covered(a: &[u8; 8], b: &[u8; 8]) -> bool {
    (0..8).all(|j| a[j] <= b[j])
}

/// Decimal without a leading zero, at most `limit`.
fn number(text: &[u8], limit: u64) -> Option<u64> {
    if text.is_empty() || (text.len() > 1 && text[0] == b'0') {
        return None;
    }
    let mut value = 0u64;
    for &digit in text {
        if !digit.is_ascii_digit() {
            return None;
        }
        value = value.checked_mul(10)?.checked_add((digit - b'0') as u64)?;
    }
    (value <= limit).then_some(value)
}

fn question(line: &[u8]) -> Option<Question> {
    let text = line.strip_prefix(b"ask=")?;
    if let Some(k) = text.strip_prefix(b"atleast,") {
        return Some(Question::AtLeast(number(k, u32::MAX as u64)?));
    }
    if let Some(k) = text.strip_prefix(b"exactly,") {
        return Some(Question::Exactly(number(k, u32::MAX as u64)?));
    }
    let mut columns = Vec::new();
    for part in text.strip_prefix(b"all,")?.split(|&b| b == b',') {
        let tablet = number(part, 8)? as usize;
        if tablet == 0 || columns.last().is_some_and(|&last| tablet <= last + 1) {
            return None;
        }
        columns.push(tablet - 1);
    }
    Some(Question::All(columns))
}

struct Reader<'a> {
    text: &'a [u8],
    line: usize,
}

impl<'a> Reader<'a> {
    /// The next line without its LF.
    fn line(&mut self) -> Result<&'a [u8], Refused> {
        self.line += 1;
        let text = self.text;
        let end = text.iter().position(|&b| b == b'\n').ok_or(Refused(12, self.line))?;
        self.text = &text[end + 1..];
        Ok(&text[..end])
    }

    fn value(&mut self, key: &[u8]) -> Result<&'a [u8], Refused> {
        let line = self.line()?;
        line.strip_prefix(key).ok_or(Refused(12, self.line))
    }

    fn number(&mut self, key: &[u8], limit: u64) -> Result<u64, Refused> {
        let value = self.value(key)?;
        number(value, limit).ok_or(Refused(12, self.line))
    }

    fn clock(&mut self, tablets: usize) -> Result<[u8; 8], Refused> {
        let mut clock = [0u8; 8];
        let mut entries = 0;
        for part in self.value(b"clock=")?.split(|&b| b == b',') {
            let entry = number(part, 255).ok_or(Refused(12, self.line))?;
            if entries == tablets {
                return Err(Refused(12, self.line));
            }
            clock[entries] = entry as u8;
            entries += 1;
        }
        if entries < tablets {
            return Err(Refused(12, self.line));
        }
        Ok(clock)
    }
}

impl Trace {
    /// The refusal of an event, 0 for none.
    fn refusal(&self, tablet: usize, clock: &[u8; 8]) -> u8 {
        if tablet == 0 || self.tablets < tablet {
            return 4;
        }
        let own = tablet - 1;
        if self.tallies[own] as usize == PER_TABLET {
            return 8;
        }
        if clock[own] != self.tallies[own] + 1 {
            return 5;
        }
        for j in 0..self.tablets {
            if j != own && self.tallies[j] < clock[j] {
                return 6;
            }
        }
        for j in 0..self.tablets {
            let last = if j == own { self.tallies[j] } else { clock[j] };
            if last > 0 && !covered(&self.clocks[slot(j, last)], clock) {
                return 7;
            }
        }
        0
    }

    fn read(text: &[u8]) -> Result<Trace, Refused> {
        let mut reader = Reader { text, line: 0 };
        let tablets = reader.number(b"tablets=", 255)? as usize;
        if tablets == 0 || 8 < tablets {
            return Err(Refused(1, 1));
        }
        let mut trace = Trace {
            tablets,
            tallies: [0; 8],
            clocks: vec![[0; 8]; SLOTS],
            held: vec![0; SLOTS],
            order: Vec::new(),
        };
        while !reader.text.starts_with(b"events=") {
            let tablet = reader.number(b"tablet=", 255)? as usize;
            let clock = reader.clock(tablets)?;
            let held = reader.number(b"held=", 65535)?;
            let refusal = trace.refusal(tablet, &clock);
            if refusal != 0 {
                return Err(Refused(refusal, reader.line));
            }
            trace.tallies[tablet - 1] += 1;
            let at = slot(tablet - 1, trace.tallies[tablet - 1]);
            trace.clocks[at] = clock;
            trace.held[at] = held as u16;
            trace.order.push(tablet as u8);
        }
        if reader.number(b"events=", u64::MAX)? != trace.order.len() as u64 {
            return Err(Refused(12, reader.line));
        }
        if !reader.text.is_empty() {
            return Err(Refused(12, reader.line + 1));
        }
        Ok(trace)
    }

    fn can_raise(&self, span: &Span, counts: &[u8; 8], k: usize) -> bool {
        if span.high[k] <= counts[k] {
            return false;
        }
        let clock = &self.clocks[slot(k, counts[k] + 1)];
        (0..k).all(|j| clock[j] <= counts[j])
    }

    /// Moves to the next cut of the range; false where there is none.
    fn step(&self, span: &Span, counts: &mut [u8; 8]) -> bool {
        for k in (0..self.tablets).rev() {
            if self.can_raise(span, counts, k) {
                counts[k] += 1;
                for j in k + 1..self.tablets {
                    let mut most = span.low[j];
                    for i in 0..=k {
                        if counts[i] != 0 {
                            most = most.max(self.clocks[slot(i, counts[i])][j]);
                        }
                    }
                    counts[j] = most;
                }
                return true;
            }
        }
        false
    }

    fn count(&self, span: &Span) -> u64 {
        let mut counts = span.low;
        let mut count = 1;
        while self.step(span, &mut counts) {
            count += 1;
        }
        count
    }

    fn holding(&self, column: usize, event: u8) -> u64 {
        if event == 0 {
            0
        } else {
            self.held[slot(column, event)] as u64
        }
    }

    fn sum(&self, counts: &[u8; 8]) -> u64 {
        (0..self.tablets).map(|j| self.holding(j, counts[j])).sum()
    }

    fn meets(&self, question: &Question, counts: &[u8; 8]) -> bool {
        match question {
            Question::AtLeast(k) => *k <= self.sum(counts),
            Question::Exactly(k) => *k == self.sum(counts),
            Question::All(columns) => columns.iter().all(|&j| 1 <= self.holding(j, counts[j])),
        }
    }

    fn first_meeting(&self, question: &Question) -> Option<[u8; 8]> {
        let span = Span { low: [0; 8], high: self.tallies };
        let mut counts = span.low;
        while !self.meets(question, &counts) {
            if !self.step(&span, &mut counts) {
                return None;
            }
        }
        Some(counts)
    }

    fn print(&self, question: &Question) -> String {
        let mut out = String::new();
        let _ = writeln!(out, "tablets={}\nevents={}\ninterval=0,1", self.tablets, self.order.len());
        let mut high = [0u8; 8];
        let mut cuts = 1u64;
        for (p, &tablet) in self.order.iter().enumerate() {
            let own = tablet as usize - 1;
            high[own] += 1;
            let count = self.count(&Span { low: self.clocks[slot(own, high[own])], high });
            cuts += count;
            let _ = writeln!(out, "interval={},{count}", p + 1);
        }
        let _ = writeln!(out, "cuts={cuts}");
        match self.first_meeting(question) {
            None => out.push_str("witness=none\n"),
            Some(cut) => {
                let entries: Vec<String> = cut[..self.tablets].iter().map(|e| e.to_string()).collect();
                let _ = writeln!(out, "witness={}", entries.join(","));
            }
        }
        out
    }
}

fn tested(input: &[u8]) -> Result<(Question, Trace), Refused> {
    if INPUT < input.len() {
        return Err(Refused(15, 0));
    }
    let end = input.iter().position(|&b| b == b'\n').ok_or(Refused(12, 0))?;
    let question = question(&input[..end]).ok_or(Refused(12, 0))?;
    let trace = Trace::read(&input[end + 1..])?;
    if let Question::All(columns) = &question {
        if columns.iter().any(|&j| trace.tablets <= j) {
            return Err(Refused(13, 0));
        }
    }
    Ok((question, trace))
}

#[inline(never)]
pub fn answer(input: &[u8]) -> String {
    match tested(input) {
        Err(Refused(number, line)) => format!("refused={number},{line}\n"),
        Ok((question, trace)) => trace.print(&question),
    }
}
