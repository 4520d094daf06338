//! Times the proved library against the independent implementation, in one run, after comparing their results: on every job, on
//! random narrowings and on random and damaged sheets. A narrowing is timed over a row of random cases of its sort, each copied
//! afresh before the call; a sheet is read from and its report written to the same two buffers each time, which are not cleared
//! in between. Times are the best of many repetitions.
mod independent;

use independent::{Answer, Counter, Half, Pair, Three};
use std::hint::black_box;
use std::time::Instant;

unsafe extern "C" {
    fn narrow_counter(kind: u32, ends: *mut Three) -> u32;
    fn narrow_half(mode: u8, kind: u32, ends: *mut Three) -> u32;
    #[link_name = "trace"]
    fn trace_ours(input: *const u8, input_length: usize, output: *mut u8, output_length: usize) -> usize;
}

struct Random(u64);

impl Random {
    fn next(&mut self) -> u64 {
        self.0 ^= self.0 << 13;
        self.0 ^= self.0 >> 7;
        self.0 ^= self.0 << 17;
        self.0.wrapping_mul(0x2545_F491_4F6C_DD1D) >> 16
    }
    /// From lo to hi, both counted in.
    fn from(&mut self, lo: u32, hi: u32) -> u32 {
        lo + (self.next() % (hi as u64 - lo as u64 + 1)) as u32
    }
}

// ---- a drive of both

#[derive(Clone, Copy, PartialEq)]
enum Drive {
    Counter,
    Half(u8),
}

const DRIVES: [Drive; 4] = [Drive::Counter, Drive::Half(0), Drive::Half(1), Drive::Half(2)];

impl Drive {
    fn name(self) -> &'static str {
        ["counter", "half toward zero", "half nearest", "half up"][match self {
            Drive::Counter => 0,
            Drive::Half(m) => 1 + m as usize,
        }]
    }
    fn top(self) -> u32 {
        if self == Drive::Counter { 65535 } else { 31743 }
    }
    fn head(self) -> [u8; 2] {
        match self {
            Drive::Counter => [1, 0],
            Drive::Half(m) => [0, m],
        }
    }
    #[inline(always)]
    fn ours(self, kind: u32, w: &mut Three) -> u32 {
        match self {
            Drive::Counter => unsafe { narrow_counter(kind, w) },
            Drive::Half(m) => unsafe { narrow_half(m, kind, w) },
        }
    }
    #[inline(always)]
    fn theirs(self, kind: u32, w: &mut Three) -> u32 {
        let answer = match self {
            Drive::Counter => independent::narrow(Counter, kind, w),
            Drive::Half(0) => independent::narrow(Half::<0>, kind, w),
            Drive::Half(1) => independent::narrow(Half::<1>, kind, w),
            Drive::Half(_) => independent::narrow(Half::<2>, kind, w),
        };
        match answer {
            Answer::Unfit => 0,
            Answer::None => 1,
            Answer::Closed => 2,
        }
    }
    /// The result of an operation, told by a narrowing of single codes; nothing where it is over.
    fn result(self, kind: u32, x: u32, y: u32) -> Option<u32> {
        let mut w = Three { a: Pair { lo: x, hi: x }, b: Pair { lo: y, hi: y }, c: Pair { lo: 0, hi: self.top() } };
        (self.theirs(kind, &mut w) == 2).then_some(w.c.lo)
    }
}

// ---- cases of single narrowings

const CASES: usize = 512;

#[derive(Clone, Copy, PartialEq)]
enum Sort {
    Narrow,
    Wide,
    Whole,
    Gap,
    None,
}

fn about(random: &mut Random, code: u32, spread: u32, top: u32) -> Pair {
    let below = random.from(0, spread);
    let above = random.from(0, spread);
    Pair { lo: code.saturating_sub(below), hi: (code + above).min(top) }
}

/// A case of a sort. Narrow: windows of up to 9 codes about a choice. Wide: up to 3,001 codes about a choice. Whole: any ends
/// that leave a choice. Gap: first and second windows of up to 61 codes about a choice, one code or two for the third; counter
/// products jump over codes there, sums never do. None: no choice, in windows of up to 5 codes with one code for the third, or in
/// windows of up to 6,001 with the third elsewhere.
fn case(random: &mut Random, drive: Drive, kind: u32, sort: Sort) -> Three {
    let top = drive.top();
    loop {
        let (x, y) = match (drive, kind) {
            (Drive::Counter, 2) => {
                let x = random.from(1100, 30000);
                (x, random.from(1100, (65_000_000 / x).clamp(1100, 60000)))
            }
            (Drive::Counter, 3) => (random.from(0, 32767), random.from(0, 32767)),
            (Drive::Half(_), 2) => (random.from(9000, 21000), random.from(9000, 21000)),
            (Drive::Half(_), 3) => {
                let x = random.from(2000, 29000);
                (x, (x + random.from(0, 3000)).saturating_sub(1500))
            }
            _ => (random.from(0, top), random.from(0, top)),
        };
        let z = if kind == 5 { 0 } else { drive.result(kind, x, y).unwrap_or(u32::MAX) };
        if z > top || (kind == 5 && x > y) {
            continue;
        }
        let w = match sort {
            Sort::Narrow => Three { a: about(random, x, 4, top), b: about(random, y, 4, top), c: about(random, z, 4, top) },
            Sort::Wide => {
                Three { a: about(random, x, 1500, top), b: about(random, y, 1500, top), c: about(random, z, 1500, top) }
            }
            Sort::Whole => {
                let mut any = || {
                    let (p, q) = (random.from(0, top), random.from(0, top));
                    Pair { lo: p.min(q), hi: p.max(q) }
                };
                Three { a: any(), b: any(), c: any() }
            }
            Sort::Gap => {
                let two = random.from(0, 1);
                Three {
                    a: about(random, x, 30, top),
                    b: about(random, y, 30, top),
                    c: Pair { lo: z, hi: (z + two).min(top) },
                }
            }
            Sort::None if kind == 5 => Three { a: about(random, y, 500, top), b: about(random, x, 500, top), c: Pair::default() },
            Sort::None if random.from(0, 1) == 0 => {
                let lo = random.from(0, top);
                Three { a: about(random, x, 3000, top), b: about(random, y, 3000, top), c: about(random, lo, 500, top) }
            }
            Sort::None => {
                let off = random.from(0, 8);
                let z = (z + off).saturating_sub(4).min(top);
                Three { a: about(random, x, 2, top), b: about(random, y, 2, top), c: Pair { lo: z, hi: z } }
            }
        };
        let mut closed = w;
        let answer = drive.theirs(kind, &mut closed);
        if answer == if sort == Sort::None { 1 } else { 2 } {
            return w;
        }
    }
}

/// Any windows, wide or narrow, fit or not.
fn any_case(random: &mut Random, top: u32) -> Three {
    let mut pair = || {
        let limit = if random.from(0, 40) == 0 { top + 3 } else { top };
        let lo = match random.from(0, 3) {
            0 => random.from(0, 40),
            1 => limit - random.from(0, 40),
            _ => random.from(0, limit),
        };
        let width = match random.from(0, 3) {
            0 => 0,
            1 => random.from(0, 6),
            2 => random.from(0, 300),
            _ => random.from(0, limit),
        };
        Pair { lo, hi: (lo + width).min(limit) }
    };
    Three { a: pair(), b: pair(), c: pair() }
}

// ---- sheets

struct Builder {
    bytes: Vec<u8>,
    lines: Vec<u32>,
}

impl Builder {
    fn new(drive: Drive) -> Self {
        let [d, m] = drive.head();
        Builder { bytes: vec![1, 0, d, m, 0, 0, 0, 0], lines: vec![] }
    }
    fn line(&mut self, value: u32, w: Pair) {
        self.lines.push(value);
        let (lo, hi) = ((w.lo as u16).to_le_bytes(), (w.hi as u16).to_le_bytes());
        self.bytes.extend([1, 0, lo[0], lo[1], hi[0], hi[1], 0, 0]);
    }
    fn rule(&mut self, kind: u8, a: usize, b: usize, c: usize) {
        self.bytes.extend([kind, 0, a as u8, b as u8, c as u8, 0, 0, 0]);
    }
    fn done(mut self) -> Vec<u8> {
        let records = self.bytes.len() / 8;
        for i in 0..records - 1 {
            self.bytes[8 * i + 1] = (i + 1) as u8;
        }
        self.bytes
    }
}

/// 64 lines with windows about hidden values that satisfy all of 128 rules: 20 lines are free, each other is a product, a sum or
/// the later of two lines, told by two rules (its arguments exchanged in the second); the rest of the rules are not after.
fn mixed(random: &mut Random, drive: Drive, spread: u32, thirds: u32) -> Vec<u8> {
    let top = drive.top();
    let mut b = Builder::new(drive);
    for _ in 0..20 {
        let value = if drive == Drive::Counter { random.from(1500, 12000) } else { random.from(14000, 16500) };
        b.line(value, about(random, value, spread, top));
    }
    let mut rules = vec![];
    while b.lines.len() < 64 {
        let (i, j) = (random.from(1, b.lines.len() as u32) as usize, random.from(1, b.lines.len() as u32) as usize);
        let kind = random.from(2, 4);
        if i == j {
            continue;
        }
        let Some(z) = drive.result(kind, b.lines[i - 1], b.lines[j - 1]).filter(|z| *z > 1000) else { continue };
        b.line(z, about(random, z, thirds, top));
        rules.push((kind as u8, i, j, b.lines.len()));
        rules.push((kind as u8, j, i, b.lines.len()));
    }
    while rules.len() < 128 {
        let (i, j) = (random.from(1, 64) as usize, random.from(1, 64) as usize);
        if i != j && b.lines[i - 1] <= b.lines[j - 1] {
            rules.push((5, i, j, 0));
        }
    }
    for i in (1..rules.len()).rev() {
        rules.swap(i, random.from(0, i as u32) as usize);
    }
    for (kind, i, j, c) in rules {
        b.rule(kind, i, j, c);
    }
    b.done()
}

/// 64 lines, each one code after the one before by a sum with line 64, the rules from the last to the first: the lower ends move
/// on by one rule in a round.
fn chain(drive: Drive) -> Vec<u8> {
    let mut b = Builder::new(drive);
    for i in 0..63 {
        b.line(0, Pair { lo: if i == 0 { 100 } else { 0 }, hi: drive.top() });
    }
    b.line(1, Pair { lo: 1, hi: 1 });
    for i in (1..63).rev() {
        b.rule(3, i, 64, i + 1);
    }
    b.done()
}

/// Two lines, one a code after the other by a sum and yet not after it: the ends creep towards each other.
fn creep(drive: Drive, top: u32) -> Vec<u8> {
    let mut b = Builder::new(drive);
    b.line(0, Pair { lo: 0, hi: top });
    b.line(1, Pair { lo: 1, hi: 1 });
    b.line(0, Pair { lo: 0, hi: top });
    b.rule(3, 1, 2, 3);
    b.rule(5, 3, 1, 0);
    b.done()
}

/// 21 travels of a third line by 1001 thousandths and their way back by not after: thousands of narrowings of products.
fn creep_by_products() -> Vec<u8> {
    let mut b = Builder::new(Drive::Counter);
    b.line(1001, Pair { lo: 1001, hi: 1001 });
    for _ in 0..21 {
        b.line(0, Pair { lo: 1000, hi: 60000 });
        b.line(0, Pair { lo: 1000, hi: 60000 });
    }
    for i in 0..21 {
        b.rule(2, 1, 2 + 2 * i, 3 + 2 * i);
        b.rule(5, 3 + 2 * i, 2 + 2 * i, 0);
    }
    b.done()
}

/// The same sheet with a first rule that has no choice, so that a trace of it is all but the settling: it loads as many records
/// and prints the windows as stored. The first rule and the windows of lines 1 and 2 are others.
fn unsettled(sheet: &[u8]) -> Vec<u8> {
    let mut bytes = sheet.to_vec();
    let first_rule = (1..bytes.len() / 8).find(|i| bytes[8 * i] != 1);
    if let Some(i) = first_rule {
        bytes[10..14].copy_from_slice(&[9, 0, 9, 0]);
        bytes[18..22].copy_from_slice(&[5, 0, 5, 0]);
        let next = bytes[8 * i + 1];
        bytes[8 * i..8 * i + 8].copy_from_slice(&[5, next, 1, 2, 0, 0, 0, 0]);
    }
    bytes
}

/// A small sheet of random windows and rules.
fn small(random: &mut Random) -> Vec<u8> {
    let drive = DRIVES[random.from(0, 3) as usize];
    let mut b = Builder::new(drive);
    let lines = random.from(3, 8);
    let wide = random.from(0, 2);
    for _ in 0..lines {
        let value = random.from(0, drive.top());
        b.line(value, about(random, value, [10, 2000, 60000][wide as usize], drive.top()));
    }
    for _ in 0..random.from(1, 9) {
        let kind = random.from(2, 5) as u8;
        // now and then a line that there is not, or one twice
        let mut line = || random.from(1, lines + (random.0 >> 40 & 63 == 0) as u32) as usize;
        let (i, mut j, mut c) = (line(), line(), line());
        if j == i {
            j = i % lines as usize + 1;
        }
        if kind == 5 {
            c = 0;
        } else {
            while c == i || c == j {
                c = c % lines as usize + 1;
            }
        }
        b.rule(kind, i, j, c);
    }
    b.done()
}

// ---- comparing and timing

fn ours(input: &[u8], output: &mut [u8]) -> usize {
    unsafe { trace_ours(input.as_ptr(), input.len(), output.as_mut_ptr(), output.len()) }
}

/// Whether both write the same bytes and answer the same; and what is written.
fn compare(input: &[u8]) -> (bool, String) {
    let (mut p, mut q) = ([7u8; 1100], [7u8; 1100]);
    let (n, m) = (ours(input, &mut p), independent::trace(input, &mut q));
    (n == m && p == q, String::from_utf8_lossy(&p[..n.min(1100)]).into_owned())
}

/// The least seconds for one call, over a budget of seconds and seven calls at least; short ones are taken sixteen at a time.
fn best_of(budget: f64, mut call: impl FnMut()) -> f64 {
    let begin = Instant::now();
    call();
    let times = if begin.elapsed().as_secs_f64() < 5e-5 { 16 } else { 1 };
    let mut best = f64::MAX;
    let mut turns = 0;
    while turns < 7 || begin.elapsed().as_secs_f64() < budget {
        let t = Instant::now();
        for _ in 0..times {
            call();
        }
        best = best.min(t.elapsed().as_secs_f64());
        turns += 1;
    }
    best / times as f64
}

fn row(name: &str, ours: f64, theirs: f64) {
    println!("| {name} | {} | {} | {:.2} |", ns(ours), ns(theirs), ours / theirs);
}

fn ns(seconds: f64) -> String {
    let n = seconds * 1e9;
    if n < 1000.0 { format!("{n:.1}") } else { format!("{n:.0}") }
}

/// The least seconds for a trace of a sheet, the mean over these sheets, of both.
fn time_sheets(sheets: &[Vec<u8>], budget: f64) -> (f64, f64) {
    let mut out = [0u8; 1024];
    let a = best_of(budget, || {
        for sheet in sheets {
            black_box(ours(black_box(sheet), &mut out));
        }
    });
    let b = best_of(budget, || {
        for sheet in sheets {
            black_box(independent::trace(black_box(sheet), &mut out));
        }
    });
    (a / sheets.len() as f64, b / sheets.len() as f64)
}

fn main() {
    let only = std::env::args().nth(1);
    let mut random = Random(0x9E37_79B9_7F4A_7C15);

    // before any timing: the same answers, ends and reports
    let mut counts = [0u64; 3];
    let mut differ = 0u64;
    for _ in 0..25_000 {
        for drive in DRIVES {
            let kind = random.from(1, 6).clamp(if random.from(0, 50) == 0 { 1 } else { 2 }, 5 + (random.from(0, 50) == 0) as u32);
            let w = match random.from(0, 2) {
                0 if (2..=5).contains(&kind) => {
                    let sort = [Sort::Narrow, Sort::Wide, Sort::Whole, Sort::Gap, Sort::None][random.from(0, 4) as usize];
                    if sort == Sort::None && kind == 4 { any_case(&mut random, drive.top()) } else { case(&mut random, drive, kind, sort) }
                }
                _ => any_case(&mut random, drive.top()),
            };
            let (mut p, mut q) = (w, w);
            let (n, m) = (drive.ours(kind, &mut p), drive.theirs(kind, &mut q));
            counts[n as usize % 3] += 1;
            if n != m || p != q {
                differ += 1;
                if differ < 5 {
                    println!("DIFFER: {} kind {kind} {w:?}: ours {n} {p:?}, independent {m} {q:?}", drive.name());
                }
            }
        }
    }
    println!("random narrowings: {} unfit, {} none, {} closed; {differ} differences", counts[0], counts[1], counts[2]);
    let mut endings = std::collections::BTreeMap::new();
    let mut off = 0u64;
    for i in 0..4_000 {
        let mut sheet = small(&mut random);
        if i % 10 == 0 {
            let at = random.from(0, sheet.len() as u32 - 1) as usize;
            sheet[at] = random.next() as u8;
        }
        if i % 97 == 0 {
            sheet.truncate(random.from(0, sheet.len() as u32) as usize);
        }
        let (same, report) = compare(&sheet);
        *endings.entry(report.split(' ').next().unwrap_or("").to_string()).or_insert(0u64) += 1;
        off += !same as u64;
    }
    println!("random sheets: {endings:?}; {off} differences");
    assert!(differ + off == 0, "the results differ");

    println!("\n| job | ours, ns | independent, ns | ratio |\n|---|---|---|---|");
    let wanted = |name: &str| only.as_ref().is_none_or(|o| name.contains(o.as_str()));
    for drive in DRIVES {
        for (kind, kind_name) in [(2, "travel"), (3, "sum"), (4, "later"), (5, "not after")] {
            for (sort, sort_name) in [(Sort::Narrow, "narrow"), (Sort::Wide, "wide"), (Sort::Whole, "whole"), (Sort::Gap, "gap"), (Sort::None, "none")] {
                let name = format!("{}: {kind_name}, {sort_name}", drive.name());
                // later and not after know no drive; they have no gaps
                if !wanted(&name) || (kind > 3 && (drive != Drive::Counter || sort == Sort::Gap)) {
                    continue;
                }
                let cases: Vec<Three> = (0..CASES).map(|_| case(&mut random, drive, kind, sort)).collect();
                for w in &cases {
                    let (mut p, mut q) = (*w, *w);
                    assert!(drive.ours(kind, &mut p) == drive.theirs(kind, &mut q) && p == q, "{name}: the results differ");
                }
                let a = best_of(0.1, || {
                    for w in &cases {
                        let mut w = *w;
                        black_box(drive.ours(kind, &mut w));
                        black_box(&w);
                    }
                });
                let b = best_of(0.1, || {
                    for w in &cases {
                        let mut w = *w;
                        black_box(drive.theirs(kind, &mut w));
                        black_box(&w);
                    }
                });
                row(&name, a / CASES as f64, b / CASES as f64);
            }
        }
    }

    let mut jobs: Vec<(String, Vec<Vec<u8>>)> = vec![];
    for name in ["report", "bench/j3a", "bench/j3g", "bench/creep65535", "chains-spent"] {
        jobs.push((name.to_string(), vec![std::fs::read(format!("sheets/{name}.sheet")).unwrap()]));
    }
    for drive in DRIVES {
        let d = drive.name();
        for (sort, spread, thirds) in [("wide", 1500, 6000), ("narrow", 12, 12), ("gaps", 40, 1)] {
            let eight = (0..8).map(|_| mixed(&mut random, drive, spread, thirds)).collect();
            jobs.push((format!("{d}: mixed, {sort}"), eight));
        }
        jobs.push((format!("{d}: chain of 63"), vec![chain(drive)]));
    }
    jobs.push(("half nearest: creep".to_string(), vec![creep(Drive::Half(1), 1500)]));
    jobs.push(("counter: creep by products".to_string(), vec![creep_by_products()]));
    for (name, sheets) in &jobs {
        if !wanted(name) {
            continue;
        }
        let bare: Vec<Vec<u8>> = sheets.iter().map(|s| unsettled(s)).collect();
        let mut endings = vec![];
        for sheet in sheets {
            let (same, report) = compare(sheet);
            assert!(same, "{name}: the reports differ");
            endings.push(report.lines().next().unwrap_or("").to_string());
        }
        let (a, b) = time_sheets(sheets, 0.3);
        let ending = if endings.len() == 1 { endings[0].clone() } else { format!("mean of {} sheets", endings.len()) };
        row(&format!("trace {name} ({ending})"), a, b);
        if sheets[0].len() == 1544 {
            assert!(bare.iter().all(|s| compare(s).0), "{name}: the reports differ");
            let (c, d) = time_sheets(&bare, 0.15);
            row(&format!("loading and printing, {name}"), c, d);
            row(&format!("settling alone, {name}"), a - c, b - d);
        }
    }
}
