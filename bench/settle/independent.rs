//! An independent implementation of trace, written for speed from the documents alone: loading, settling and printing, for the
//! counter drive and the three modes of the half drive.
//!
//!   rules    a turn is taken only by rules that are awake: those with a line that moved since their last turn (a bit each)
//!   sums     counter sums, later and not after close by a few comparisons, with no search
//!   products and half sums walk the staircase of results; each step is one division (or difference) to the next corner
//!   half     a result is never rounded in the walk: what rounds to the codes of c is an interval of exact results, which are
//!            exact in f64

/// What a narrowing answers.
#[derive(Clone, Copy, PartialEq, Eq, Debug)]
pub enum Answer {
    Unfit,
    None,
    Closed,
}

/// The two ends of a window.
#[repr(C)]
#[derive(Clone, Copy, PartialEq, Eq, Debug, Default)]
pub struct Pair {
    pub lo: u32,
    pub hi: u32,
}

/// A rule's three windows.
#[repr(C)]
#[derive(Clone, Copy, PartialEq, Eq, Debug, Default)]
pub struct Three {
    pub a: Pair,
    pub b: Pair,
    pub c: Pair,
}

// ---- the walk along the staircase

/// An operation by its exact results. `up` and `down` invert it in one argument; both take a result that is past the bound.
trait Steps: Copy {
    type Exact: Copy + PartialOrd;
    fn exact(self, x: u32, y: u32) -> Self::Exact;
    /// The least x whose result with y is not below `low`; a number above every code where there is none.
    fn up(self, y: u32, low: Self::Exact) -> u32;
    /// The greatest y whose result with x is not above `high`.
    fn down(self, x: u32, high: Self::Exact) -> u32;
    /// The code of an exact result.
    fn code(self, exact: Self::Exact) -> u32;
    /// The least exact result whose code is not below z, and the greatest whose code is not above z.
    fn low(self, z: u32) -> Self::Exact;
    fn high(self, z: u32) -> Self::Exact;
}

/// From (x, y) on, with x rising to `right` and y falling to `bottom`: the first whose result lies in the band.
#[inline(always)]
fn walk<S: Steps>(s: S, mut x: u32, right: u32, mut y: u32, bottom: u32, low: S::Exact, high: S::Exact) -> Option<(u32, u32)> {
    loop {
        let r = s.exact(x, y);
        if r > high {
            // no code below `bottom` is of use: where the result is too great even there, x is past all choices
            if s.exact(x, bottom) > high {
                return None;
            }
            y = s.down(x, high);
        } else if r < low {
            if s.exact(right, y) < low {
                return None;
            }
            x = s.up(y, low);
        } else {
            return Some((x, y));
        }
    }
}

#[inline(always)]
fn smallest<S: Steps>(s: S, w: &mut Three) -> Answer {
    let (a, b, c) = (w.a, w.b, w.c);
    let (low, high) = (s.low(c.lo), s.high(c.hi));
    let Some((x, y)) = walk(s, a.lo, a.hi, b.hi, b.lo, low, high) else {
        return Answer::None;
    };
    // there is a choice, so the walk with the arguments exchanged finds one
    let Some((v, u)) = walk(s, b.lo, y, a.hi, x, low, high) else {
        unreachable!()
    };
    let corner = s.exact(x, v);
    let least = if corner >= low {
        s.code(corner)
    } else {
        lower_end(s, x, u, y, v, c.lo, low)
    };
    let corner = s.exact(u, y);
    let most = if corner <= high {
        s.code(corner)
    } else {
        upper_end(s, x, u, y, v, c.hi, high)
    };
    w.a = Pair { lo: x, hi: u };
    w.b = Pair { lo: v, hi: y };
    w.c = Pair { lo: least, hi: most };
    Answer::Closed
}

/// The least code not below `floor` that a choice gives, where the choice (x, y) is known and the result at the lower ends is
/// below it. For each x on the way the least y that reaches the band is tried at once.
#[inline(never)]
fn lower_end<S: Steps>(s: S, mut x: u32, right: u32, mut y: u32, bottom: u32, floor: u32, low: S::Exact) -> u32 {
    loop {
        y = if s.exact(x, bottom) >= low { bottom } else { s.up(x, low).min(y) };
        let best = s.code(s.exact(x, y));
        if best <= floor {
            return best;
        }
        match walk(s, x, right, y, bottom, low, s.high(best - 1)) {
            Some(found) => (x, y) = found,
            None => return best,
        }
    }
}

/// The greatest code not above `ceiling` likewise: for each y on the way the greatest x that stays in the band.
#[inline(never)]
fn upper_end<S: Steps>(s: S, mut x: u32, right: u32, mut y: u32, bottom: u32, ceiling: u32, high: S::Exact) -> u32 {
    loop {
        x = if s.exact(right, y) <= high { right } else { s.down(y, high).max(x) };
        let best = s.code(s.exact(x, y));
        if best >= ceiling {
            return best;
        }
        match walk(s, x, right, y, bottom, s.low(best + 1), high) {
            Some(found) => (x, y) = found,
            None => return best,
        }
    }
}

// ---- the counter drive

#[derive(Clone, Copy)]
struct CounterProduct;

impl Steps for CounterProduct {
    type Exact = u32;
    #[inline(always)]
    fn exact(self, x: u32, y: u32) -> u32 {
        x * y
    }
    #[inline(always)]
    fn up(self, y: u32, low: u32) -> u32 {
        if y == 0 { u32::MAX } else { low.div_ceil(y) }
    }
    #[inline(always)]
    fn down(self, x: u32, high: u32) -> u32 {
        high / x
    }
    #[inline(always)]
    fn code(self, exact: u32) -> u32 {
        exact / 1000
    }
    #[inline(always)]
    fn low(self, z: u32) -> u32 {
        z * 1000
    }
    #[inline(always)]
    fn high(self, z: u32) -> u32 {
        z * 1000 + 999
    }
}

#[inline(always)]
fn sum_box(w: &mut Three) -> Answer {
    let (a, b, c) = (w.a, w.b, w.c);
    let lo = c.lo.max(a.lo + b.lo);
    let hi = c.hi.min(a.hi + b.hi);
    if lo > hi {
        return Answer::None;
    }
    w.a = Pair { lo: a.lo.max(lo.saturating_sub(b.hi)), hi: a.hi.min(hi - b.lo) };
    w.b = Pair { lo: b.lo.max(lo.saturating_sub(a.hi)), hi: b.hi.min(hi - a.lo) };
    w.c = Pair { lo, hi };
    Answer::Closed
}

// ---- both drives

#[inline(always)]
fn later_box(w: &mut Three) -> Answer {
    let (a, b, c) = (w.a, w.b, w.c);
    let lo = c.lo.max(a.lo).max(b.lo);
    let hi = c.hi.min(a.hi.max(b.hi));
    if lo > hi {
        return Answer::None;
    }
    w.a = Pair { lo: if b.hi < c.lo { a.lo.max(c.lo) } else { a.lo }, hi: a.hi.min(hi) };
    w.b = Pair { lo: if a.hi < c.lo { b.lo.max(c.lo) } else { b.lo }, hi: b.hi.min(hi) };
    w.c = Pair { lo, hi };
    Answer::Closed
}

#[inline(always)]
fn not_after(w: &mut Three) -> Answer {
    let (a, b) = (w.a, w.b);
    if a.lo > b.hi {
        return Answer::None;
    }
    w.a.hi = a.hi.min(b.hi);
    w.b.lo = b.lo.max(a.lo);
    Answer::Closed
}

// ---- the half drive, in units of 2^-24

const TOP: u32 = 31743;
const OVER: u32 = 31744;

/// The size of a code. Sizes are 11 bits from 2048 on, and the code itself below.
#[inline(always)]
fn size(code: u32) -> f64 {
    if code < 2048 {
        code as f64
    } else {
        // exponent e, so (1024 + f) * 2^(e - 1) has the exponent e + 9
        f64::from_bits(((code as u64) << 42) + ((1023 + 9) << 52))
    }
}

/// The greatest code whose size is not above v, for v of 0 and more; a number past all codes for great ones.
#[inline(always)]
fn below(v: f64) -> u32 {
    if v < 2048.0 {
        v as u32
    } else {
        ((v.to_bits() - ((1023 + 9) << 52)) >> 42) as u32
    }
}

/// The least code whose size is not below v.
#[inline(always)]
fn above(v: f64) -> u32 {
    let code = below(v);
    if code < OVER && size(code) < v { code + 1 } else { code }
}

/// The exact results that round to the code z or one above it begin here; `open` is what lies strictly past a bound.
#[inline(always)]
fn begins(mode: u8, z: u32, past: impl Fn(f64) -> f64) -> f64 {
    match mode {
        0 => size(z),
        1 if z == 0 => 0.0,
        1 => {
            let middle = (size(z - 1) + size(z)) * 0.5;
            if z & 1 == 0 { middle } else { past(middle) }
        }
        _ if z == 0 => 0.0,
        _ => past(size(z - 1)),
    }
}

/// Those that round to z or one below it end here; `before` is what lies strictly before a bound.
#[inline(always)]
fn ends(mode: u8, z: u32, before: impl Fn(f64) -> f64) -> f64 {
    match mode {
        0 if z == TOP => f64::INFINITY,
        0 => before(size(z + 1)),
        1 => {
            let middle = (size(z) + size(z + 1)) * 0.5;
            if z & 1 == 0 { middle } else { before(middle) }
        }
        _ => size(z),
    }
}

#[inline(always)]
fn rounded(mode: u8, v: f64) -> u32 {
    match mode {
        0 => below(v).min(TOP),
        1 => {
            let code = below(v).min(TOP);
            let middle = (size(code) + size(code + 1)) * 0.5;
            code + (v > middle || (v == middle && code & 1 == 1)) as u32
        }
        _ => above(v).min(OVER),
    }
}

/// Products have 22 bits and bounds at most 12, so nothing lies within a bound and one part of 2^40 off it, nor does a quotient.
const PART: f64 = 1.0 / (1u64 << 40) as f64;

#[derive(Clone, Copy)]
struct HalfProduct<const MODE: u8>;

impl<const MODE: u8> Steps for HalfProduct<MODE> {
    type Exact = f64;
    #[inline(always)]
    fn exact(self, x: u32, y: u32) -> f64 {
        size(x) * size(y) * (1.0 / 16777216.0)
    }
    #[inline(always)]
    fn up(self, y: u32, low: f64) -> u32 {
        above(low * 16777216.0 / size(y))
    }
    #[inline(always)]
    fn down(self, x: u32, high: f64) -> u32 {
        below(high * 16777216.0 / size(x))
    }
    #[inline(always)]
    fn code(self, exact: f64) -> u32 {
        rounded(MODE, exact)
    }
    #[inline(always)]
    fn low(self, z: u32) -> f64 {
        begins(MODE, z, |v| if v == 0.0 { PART } else { v * (1.0 + PART) })
    }
    #[inline(always)]
    fn high(self, z: u32) -> f64 {
        ends(MODE, z, |v| v * (1.0 - PART))
    }
}

#[derive(Clone, Copy)]
struct HalfSum<const MODE: u8>;

impl<const MODE: u8> Steps for HalfSum<MODE> {
    type Exact = f64;
    #[inline(always)]
    fn exact(self, x: u32, y: u32) -> f64 {
        size(x) + size(y)
    }
    #[inline(always)]
    fn up(self, y: u32, low: f64) -> u32 {
        above(low - size(y))
    }
    #[inline(always)]
    fn down(self, x: u32, high: f64) -> u32 {
        below(high - size(x))
    }
    #[inline(always)]
    fn code(self, exact: f64) -> u32 {
        rounded(MODE, exact)
    }
    #[inline(always)]
    fn low(self, z: u32) -> f64 {
        begins(MODE, z, |v| v + 0.25)
    }
    #[inline(always)]
    fn high(self, z: u32) -> f64 {
        ends(MODE, z, |v| v - 0.25)
    }
}

// ---- narrowing

/// A drive: what a rule of a known kind does to windows up to the top.
pub trait Drive: Copy {
    const TOP: u32;
    fn close(self, kind: u8, w: &mut Three) -> Answer;
}

#[derive(Clone, Copy)]
pub struct Counter;

impl Drive for Counter {
    const TOP: u32 = 65535;
    #[inline(always)]
    fn close(self, kind: u8, w: &mut Three) -> Answer {
        match kind {
            2 => smallest(CounterProduct, w),
            3 => sum_box(w),
            4 => later_box(w),
            _ => not_after(w),
        }
    }
}

#[derive(Clone, Copy)]
pub struct Half<const MODE: u8>;

impl<const MODE: u8> Drive for Half<MODE> {
    const TOP: u32 = TOP;
    #[inline(always)]
    fn close(self, kind: u8, w: &mut Three) -> Answer {
        match kind {
            2 => smallest(HalfProduct::<MODE>, w),
            3 => smallest(HalfSum::<MODE>, w),
            4 => later_box(w),
            _ => not_after(w),
        }
    }
}

/// One narrowing: unfit, none or the smallest box.
#[inline(never)]
pub fn narrow<D: Drive>(drive: D, kind: u32, w: &mut Three) -> Answer {
    if !(2..=5).contains(&kind) || w.a.hi > D::TOP || w.b.hi > D::TOP || (kind != 5 && w.c.hi > D::TOP) {
        return Answer::Unfit;
    }
    drive.close(kind as u8, w)
}

// ---- the sheet

#[derive(Clone, Copy, Default)]
struct Rule {
    kind: u8,
    a: u8,
    b: u8,
    c: u8,
}

struct Sheet {
    lines: usize,
    rules: usize,
    windows: [Pair; 64],
    rule: [Rule; 128],
    /// The rules that read each line.
    readers: [[u64; 2]; 64],
}

enum Ending {
    Standing(u32),
    Spent(u32),
    Barren(u32),
}

fn settle<D: Drive>(drive: D, sheet: &mut Sheet, allowance: u32) -> Ending {
    let before = sheet.windows;
    let first = |n: usize| if n >= 64 { u64::MAX } else { (1 << n) - 1 };
    let mut awake = [first(sheet.rules), first(sheet.rules.saturating_sub(64))];
    let mut count = 0;
    while awake != [0, 0] {
        for half in 0..2 {
            let mut ahead = awake[half];
            while ahead != 0 {
                let bit = ahead.trailing_zeros();
                awake[half] &= !(1 << bit);
                let r = sheet.rule[64 * half + bit as usize];
                let (ia, ib, ic) = (r.a as usize & 63, r.b as usize & 63, r.c as usize & 63);
                let was = Three { a: sheet.windows[ia], b: sheet.windows[ib], c: sheet.windows[ic] };
                let mut w = was;
                if drive.close(r.kind, &mut w) == Answer::None {
                    sheet.windows = before;
                    return Ending::Barren(64 * half as u32 + bit + 1);
                }
                if w != was {
                    if count == allowance {
                        return Ending::Spent(allowance);
                    }
                    count += 1;
                    let mut wake = |line: usize, window: Pair, old: Pair| {
                        if window != old {
                            sheet.windows[line] = window;
                            awake[0] |= sheet.readers[line][0];
                            awake[1] |= sheet.readers[line][1];
                        }
                    };
                    wake(ia, w.a, was.a);
                    wake(ib, w.b, was.b);
                    // the third window of a two-line kind is not read, and stays
                    wake(ic, w.c, was.c);
                    // a box that is smallest already stays: the rule itself has nothing more to do
                    awake[half] &= !(1 << bit);
                }
                ahead = awake[half] & (u64::MAX << bit << 1);
            }
        }
    }
    Ending::Standing(count)
}

// ---- stored sheets and reports

fn load(top: u32, input: &[u8]) -> Result<Sheet, (u32, u32)> {
    if input[0] != 1 || input[4..8] != [0; 4] {
        return Err((11, 0));
    }
    let records = input.len() / 8;
    let mut sheet =
        Sheet { lines: 0, rules: 0, windows: [Pair::default(); 64], rule: [Rule::default(); 128], readers: [[0; 2]; 64] };
    let mut at = input[1] as usize;
    let mut taken = 0;
    while at != 0 {
        let fault = |n: u32| Err((n, at as u32));
        if at >= records || taken == records - 1 {
            return fault(12);
        }
        let r: &[u8; 8] = input[8 * at..8 * at + 8].try_into().unwrap();
        match r[0] {
            1 => {
                if r[6] != 0 || r[7] != 0 {
                    return fault(13);
                }
                let lo = r[2] as u32 | (r[3] as u32) << 8;
                let hi = r[4] as u32 | (r[5] as u32) << 8;
                if lo > hi || hi > top {
                    return fault(1);
                }
                if sheet.lines == 64 {
                    return fault(5);
                }
                sheet.windows[sheet.lines] = Pair { lo, hi };
                sheet.lines += 1;
            }
            kind @ 2..=5 => {
                if r[5] != 0 || r[6] != 0 || r[7] != 0 {
                    return fault(13);
                }
                let (a, b, c) = (r[2], r[3], r[4]);
                let two = kind == 5;
                let known = |n: u8| n != 0 && n as usize <= sheet.lines;
                if !known(a) || !known(b) || (if two { c != 0 } else { !known(c) }) {
                    return fault(2);
                }
                if a == b || (!two && (a == c || b == c)) {
                    return fault(3);
                }
                if sheet.rules == 128 {
                    return fault(5);
                }
                let c = if two { a } else { c };
                let i = sheet.rules;
                sheet.rule[i] = Rule { kind, a: a - 1, b: b - 1, c: c - 1 };
                for line in [a, b, c] {
                    sheet.readers[line as usize - 1][i / 64] |= 1 << (i % 64);
                }
                sheet.rules += 1;
            }
            _ => return fault(13),
        }
        taken += 1;
        at = r[1] as usize;
    }
    Ok(sheet)
}

struct Printer<'a> {
    out: &'a mut [u8],
    at: usize,
}

impl Printer<'_> {
    #[inline(always)]
    fn text(&mut self, text: &[u8]) {
        self.out[self.at..self.at + text.len()].copy_from_slice(text);
        self.at += text.len();
    }
    #[inline(always)]
    fn number(&mut self, mut n: u32, end: u8) {
        let digits = 1 + (n > 9) as usize + (n > 99) as usize + (n > 999) as usize + (n > 9999) as usize + (n > 99999) as usize;
        let place = &mut self.out[self.at..self.at + digits + 1];
        for i in (0..digits).rev() {
            place[i] = b'0' + (n % 10) as u8;
            n /= 10;
        }
        place[digits] = end;
        self.at += digits + 1;
    }
}

fn trace_by<D: Drive>(drive: D, input: &[u8], output: &mut [u8]) -> usize {
    let mut sheet = match load(D::TOP, input) {
        Ok(sheet) => sheet,
        Err((number, at)) => return refused(number, at, output),
    };
    let ending = settle(drive, &mut sheet, 100_000);
    let mut p = Printer { out: output, at: 0 };
    match ending {
        Ending::Standing(n) => {
            p.text(b"standing ");
            p.number(n, b'\n');
        }
        Ending::Spent(n) => {
            p.text(b"spent ");
            p.number(n, b'\n');
        }
        Ending::Barren(n) => {
            p.text(b"barren ");
            p.number(n, b'\n');
        }
    }
    for (i, w) in sheet.windows[..sheet.lines].iter().enumerate() {
        p.number(i as u32 + 1, b' ');
        p.number(w.lo, b' ');
        p.number(w.hi, b'\n');
    }
    p.at
}

fn refused(number: u32, at: u32, output: &mut [u8]) -> usize {
    let mut p = Printer { out: output, at: 0 };
    p.text(b"refused ");
    p.number(number, b' ');
    p.text(b"at ");
    p.number(at, b'\n');
    p.at
}

/// From a stored sheet to its report.
#[inline(never)]
pub fn trace(input: &[u8], output: &mut [u8]) -> usize {
    if output.len() < 1024 {
        return 0;
    }
    if input.is_empty() || input.len() > 2048 || input.len() % 8 != 0 {
        return refused(10, 0, output);
    }
    match (input[2], input[3]) {
        (0, 0) => trace_by(Half::<0>, input, output),
        (0, 1) => trace_by(Half::<1>, input, output),
        (0, 2) => trace_by(Half::<2>, input, output),
        (1, 0) => trace_by(Counter, input, output),
        _ => refused(11, 0, output),
    }
}
