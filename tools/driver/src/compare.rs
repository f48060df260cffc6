//! One chunk on both sides, what is counted, and the differences.
use crate::account::{self, Class};
use crate::{
    barred, exact, first_difference, has_half, has_typed, ieee, is_nan, known, lengths_differ, names_position, ours, ours_preview,
    ours_typed, pattern, put, reference, slices, width, Answer, Reference, Settings,
};
use polskrea::Counts;
use std::collections::BTreeMap;
use std::ops::Range;

/// A difference, with the element that shows it.
#[derive(Clone, Debug, PartialEq, Eq, PartialOrd, Ord)]
pub struct Difference {
    /// the element's pattern without its sign, so that the smallest input comes first
    size: u64,
    pub element: u64,
    pub settings: Settings,
    pub text: String,
}

/// Counts, and the smallest difference of each settings. A refused element counts once, however many routes refuse it.
#[derive(Default)]
pub struct Tally {
    pub elements: u64,
    /// of the chunk call
    pub calls: u64,
    /// of its preview, one beside each
    pub previews: u64,
    /// of the typed calls
    pub typed: u64,
    /// of the original's slice functions
    pub slices: u64,
    pub refusals: u64,
    /// elements on which the original is known to differ from IEEE 754, and does as it is known to
    pub known: u64,
    /// elements that the processor's f16 conversion was asked for too
    pub by_f16c: u64,
    pub differences: u64,
    pub smallest: BTreeMap<Settings, Difference>,
}

impl Tally {
    pub fn add(&mut self, other: Tally) {
        self.elements += other.elements;
        self.calls += other.calls;
        self.previews += other.previews;
        self.typed += other.typed;
        self.slices += other.slices;
        self.refusals += other.refusals;
        self.known += other.known;
        self.by_f16c += other.by_f16c;
        self.differences += other.differences;
        for d in other.smallest.into_values() {
            self.keep(d);
        }
    }

    /// The counts in words.
    pub fn text(&self) -> String {
        let some = |n: u64, what: &str| if n == 0 { String::new() } else { format!("{n} {what}, ") };
        format!(
            "{} elements, {} calls, {} previews, {} typed calls, {} slice calls, {} refusals, {}{}{} differences",
            self.elements,
            self.calls,
            self.previews,
            self.typed,
            self.slices,
            self.refusals,
            some(self.by_f16c, "elements by the processor's f16 conversion too"),
            some(self.known, "on which the original is known to differ from IEEE 754"),
            self.differences
        )
    }

    fn keep(&mut self, d: Difference) {
        match self.smallest.get(&d.settings) {
            Some(old) if *old <= d => {}
            _ => {
                self.smallest.insert(d.settings, d);
            }
        }
    }

    pub fn differs(&mut self, settings: Settings, element: u64, text: String) {
        self.differences += 1;
        let size = match settings.from {
            8 => element & 0x7fff_ffff,
            9 => element & 0x7fff_ffff_ffff_ffff,
            10 => element & 0x7fff,
            _ => element,
        };
        self.keep(Difference {
            size,
            element,
            settings,
            text,
        });
    }
}

/// A call of the library: the chunk call, or the typed call of the two kinds.
#[derive(Clone, Copy, PartialEq, Eq)]
enum Route {
    Bytes,
    Typed,
}

impl Route {
    fn name(self) -> &'static str {
        match self {
            Route::Bytes => "chunk call",
            Route::Typed => "typed call",
        }
    }

    fn call(self, s: Settings, src: &[u8], dst: &mut [u8], keys: &[u8], targets: &[u8]) -> (Answer, Counts) {
        match self {
            Route::Bytes => ours(s, src, dst, keys, targets),
            Route::Typed => ours_typed(s, src, dst, keys, targets),
        }
    }
}

/// What a chunk's elements come to by the original, or by exact arithmetic, and by the account, and what they are.
struct Chunk<'a> {
    s: Settings,
    src: &'a [u8],
    keys: &'a [u8],
    targets: &'a [u8],
    expected: &'a Reference,
    classes: &'a [Class],
}

impl Chunk<'_> {
    fn count(&self) -> usize {
        self.src.len() / width(self.s.from)
    }

    /// The pattern of the element at a position.
    fn element(&self, at: usize) -> u64 {
        let w = width(self.s.from);
        self.src.get(at * w..at * w + w).map_or(0, pattern)
    }

    /// Whose answers are expected.
    fn whose(&self) -> &'static str {
        if has_half(self.s) {
            "exact arithmetic"
        } else {
            "the original"
        }
    }
}

/// What is due of a call.
struct Due<'a> {
    answer: Answer,
    counts: Counts,
    after: &'a [u8],
}

/// Scratch space of a worker, with its tally.
#[derive(Default)]
pub struct Check {
    pub tally: Tally,
    reference: Reference,
    /// the original's answers, where those of exact arithmetic are expected
    original: Reference,
    /// what is due of the original, and what the processor makes of the elements
    rows: [Vec<u8>; 2],
    /// of the account, one for each element
    classes: Vec<Class>,
    dst: Vec<u8>,
    /// what a destination holds before a call
    marks: Vec<u8>,
    /// what a destination holds before the chunk call
    before: Vec<u8>,
    /// the kind whose elements the marks are
    marked: Option<u8>,
    /// accepted elements, what ours made of them, and what the slice function does
    accepted: [Vec<u8>; 3],
}

/// The pattern that an untouched place of a kind holds: in a float kind a signalling NaN.
fn mark(kind: u8) -> u64 {
    match kind {
        8 => 0x7fa0_0001,
        9 => 0x7ff4_0000_0000_0001,
        10 => 0x7d01,
        _ => 0xa5a5_a5a5_a5a5_a5a5,
    }
}

/// The position of the first elements of w bytes that differ in a bit.
fn first_unlike(w: usize, a: &[u8], b: &[u8]) -> Option<usize> {
    if a == b {
        return None;
    }
    a.chunks_exact(w).zip(b.chunks_exact(w)).position(|(x, y)| x != y)
}

/// At how many places two rows of bytes differ. A run of 255 is counted in a byte, for speed.
fn differing(a: &[u8], b: &[u8]) -> u64 {
    let run = |(a, b): (&[u8], &[u8])| a.iter().zip(b).map(|(x, y)| u8::from(x != y)).sum::<u8>();
    a.chunks(255).zip(b.chunks(255)).map(|p| u64::from(run(p))).sum()
}

/// The elements that are not refused, one after the other.
fn gather(out: &mut Vec<u8>, bytes: &[u8], w: usize, refused: &[Answer]) {
    out.clear();
    let mut start = 0;
    for r in refused {
        let at = r.position as usize;
        out.extend_from_slice(&bytes[start * w..at * w]);
        start = at + 1;
    }
    out.extend_from_slice(&bytes[start * w..]);
}

/// The first of these elements that, converted alone, is counted otherwise than the account has it; else the first of all.
fn miscounted(c: &Chunk, route: Route, mut places: Range<usize>) -> usize {
    let (w, first) = (width(c.s.from), places.start);
    let mut dst = vec![0; width(c.s.to)];
    let found = places.find(|i| {
        let (_, alone) = route.call(c.s, &c.src[i * w..i * w + w], &mut dst, c.keys, c.targets);
        alone != account::counts(&c.classes[*i..=*i])
    });
    found.unwrap_or(first)
}

impl Check {
    /// One call of the library, counted. The chunk call is previewed first.
    fn run(&mut self, route: Route, s: Settings, src: &[u8], dst: &mut [u8], keys: &[u8], targets: &[u8]) -> (Answer, Counts) {
        if route == Route::Typed {
            self.tally.typed += 1;
            return route.call(s, src, dst, keys, targets);
        }
        self.before.clear();
        self.before.extend_from_slice(dst);
        let told = ours_preview(s, src, dst, keys, targets);
        let written = *dst != self.before[..];
        let (answer, counts) = route.call(s, src, dst, keys, targets);
        let due = (answer, counts, differing(&self.before, dst));
        self.tally.calls += 1;
        self.tally.previews += 1;
        if told != due || written {
            let element = if s.from < 11 {
                src.get(..width(s.from)).map_or(0, pattern)
            } else {
                0
            };
            let wrote = if written { ", and writes," } else { "" };
            let text = format!("the preview tells{wrote} {told:?} where the call answers and changes {due:?}");
            self.tally.differs(s, element, text);
        }
        (answer, counts)
    }

    /// Fills the destination with so many marks of a kind.
    fn clear(&mut self, kind: u8, count: usize) {
        let w = width(kind);
        if self.marked != Some(kind) {
            self.marks.clear();
            self.marked = Some(kind);
        }
        while self.marks.len() < count * w {
            put(&mut self.marks, kind, mark(kind));
        }
        self.dst.clear();
        self.dst.extend_from_slice(&self.marks[..count * w]);
    }

    /// Compares a chunk of whole elements with a whole map, by the chunk call, by the typed call where there is one, and by the original's slice
    /// function; and the counts with the account. Where a kind is f16, exact arithmetic has the answers, and the original and the processor are
    /// held to it too. The first call is handed the whole chunk, and each later one what stands behind a refused element, to `look` elements from
    /// the next refused one on. So each element is compared, and the whole rest of every destination after every refusal.
    pub fn chunk(&mut self, s: Settings, src: &[u8], keys: &[u8], targets: &[u8], look: usize) {
        let mut expected = std::mem::take(&mut self.reference);
        let mut classes = std::mem::take(&mut self.classes);
        due(s, src, keys, targets, &mut expected, &mut classes);
        let c = Chunk {
            s,
            src,
            keys,
            targets,
            expected: &expected,
            classes: &classes,
        };
        self.accounted(&c);
        if has_typed(s.from, s.to) {
            self.walk(&c, Route::Typed, look);
        }
        self.walk(&c, Route::Bytes, look);
        if has_half(s) {
            self.by_original(&c);
            self.by_processor(&c);
        } else {
            let dst = std::mem::take(&mut self.dst);
            self.slice(&c, &dst);
            self.dst = dst;
        }
        self.tally.elements += c.count() as u64;
        self.tally.refusals += expected.refused.len() as u64;
        self.reference = expected;
        self.classes = classes;
    }

    /// The account refuses what the original refuses. That it refuses nothing else shows in the sums of its counts.
    fn accounted(&mut self, c: &Chunk) {
        for at in c.expected.refused.iter().map(|r| r.position as usize) {
            if c.classes[at] != Class::Refused {
                let text = format!("the account has {:?} where the original refuses", c.classes[at]);
                self.tally.differs(c.s, c.element(at), text);
            }
        }
    }

    /// The original's element and slice functions on elements of which exact arithmetic says what is due.
    fn by_original(&mut self, c: &Chunk) {
        let (mut got, [mut want, other]) = (std::mem::take(&mut self.original), std::mem::take(&mut self.rows));
        reference(c.s, c.src, c.keys, c.targets, &mut got);
        want.clear();
        want.extend_from_slice(&c.expected.stored);
        self.tally.known += replace_known(c, &mut want);
        if let Some(at) = first_difference(c.s.to, &got.stored, &want) {
            let dw = width(c.s.to);
            let [theirs, due] = [&got.stored, &want].map(|row| pattern(&row[at * dw..at * dw + dw]));
            let text = format!("the original stores {theirs:#x} where {due:#x} is due of it");
            self.tally.differs(c.s, c.element(at), text);
        }
        let (theirs, due) = (&got.refused, &c.expected.refused);
        let unlike = theirs.iter().zip(due).position(|(a, b)| !a.same(b));
        if let Some(i) = unlike.or((theirs.len() != due.len()).then(|| theirs.len().min(due.len()))) {
            let show = |row: &[Answer]| row.get(i).map_or("nothing".into(), Answer::text);
            let text = format!("the original refuses by {} where exact arithmetic has {}", show(theirs), show(due));
            let at = theirs.get(i).or(due.get(i)).map_or(0, |a| a.position);
            self.tally.differs(c.s, c.element(at as usize), text);
        }
        self.slice(c, &want);
        self.original = got;
        self.rows = [want, other];
    }

    /// The processor's conversion from f32 to f16 under clamp, in the rules that it has, with the bits of NaNs.
    fn by_processor(&mut self, c: &Chunk) {
        if (c.s.from, c.s.to, c.s.range) != (8, 10, 1) || 4 <= c.s.rounding || !c.keys.is_empty() || !ieee::has_f16c() {
            return;
        }
        let mut row = std::mem::take(&mut self.rows[1]);
        ieee::by_f16c(c.s.rounding, c.src, &mut row);
        self.tally.by_f16c += c.count() as u64;
        if let Some(at) = first_unlike(2, &row, &c.expected.stored) {
            let [theirs, due] = [&row, &c.expected.stored].map(|row| pattern(&row[at * 2..at * 2 + 2]));
            let text = format!("the processor has {theirs:#x} where exact arithmetic has {due:#x}");
            self.tally.differs(c.s, c.element(at), text);
        }
        self.rows[1] = row;
    }

    /// The calls of one route on a chunk. Leaves what they stored in the destination.
    fn walk(&mut self, c: &Chunk, route: Route, look: usize) {
        let (n, sw, dw) = (c.count(), width(c.s.from), width(c.s.to));
        self.clear(c.s.to, n);
        let mut dst = std::mem::take(&mut self.dst);
        let mut start = 0;
        for next in 0..=c.expected.refused.len() {
            let refused = c.expected.refused.get(next);
            let end = refused.map_or(n, |r| r.position as usize);
            let until = if next == 0 || refused.is_none() { n } else { n.min(end + look) };
            let (from, to) = (&c.src[start * sw..until * sw], &mut dst[start * dw..until * dw]);
            let (got, counts) = self.run(route, c.s, from, to, c.keys, c.targets);
            self.answered(c, route, start, refused, got);
            self.counted(c, route, start..end, counts);
            self.stored(c, route, start..end, &dst);
            self.untouched(c, route, end..until, &mut dst);
            start = end + 1;
        }
        self.dst = dst;
    }

    /// The answer of a call on the elements from `start` on.
    fn answered(&mut self, c: &Chunk, route: Route, start: usize, refused: Option<&Answer>, got: Answer) {
        let want = refused.map_or(Answer::default(), |r| Answer {
            position: r.position - start as u64,
            ..*r
        });
        // exact arithmetic has the bits of a NaN too
        if got == want || !has_half(c.s) && got.same(&want) {
            return;
        }
        let end = refused.map_or(c.count(), |r| r.position as usize);
        let at = if names_position(got.number) {
            end.min(start + got.position as usize)
        } else {
            end
        };
        let text = format!("{}: answer {} where {} has {}", route.name(), got.text(), c.whose(), want.text());
        self.tally.differs(c.s, c.element(at), text);
    }

    /// The counts of a call that converts these elements: those of the account, and in sum as many as the elements.
    fn counted(&mut self, c: &Chunk, route: Route, places: Range<usize>, got: Counts) {
        let want = account::counts(&c.classes[places.clone()]);
        if got == want && want.converted() == places.len() as u64 {
            return;
        }
        let text = format!(
            "{}: counts {got} where the account has {want}, in a call that converts {}",
            route.name(),
            places.len()
        );
        self.tally.differs(c.s, c.element(miscounted(c, route, places)), text);
    }

    /// What a call stored at the places of accepted elements.
    fn stored(&mut self, c: &Chunk, route: Route, places: Range<usize>, dst: &[u8]) {
        let dw = width(c.s.to);
        let bytes = places.start * dw..places.end * dw;
        let (ours, due) = (&dst[bytes.clone()], &c.expected.stored[bytes]);
        let unlike = if has_half(c.s) {
            first_unlike(dw, ours, due)
        } else {
            first_difference(c.s.to, ours, due)
        };
        let Some(i) = unlike else {
            return;
        };
        let at = places.start + i;
        let show = |b: &[u8]| pattern(&b[at * dw..at * dw + dw]);
        let (got, want) = (show(dst), show(&c.expected.stored));
        let text = format!("{}: stored {got:#x} where {} has {want:#x}", route.name(), c.whose());
        self.tally.differs(c.s, c.element(at), text);
    }

    /// The whole rest of a call's destination, from the refused element on.
    fn untouched(&mut self, c: &Chunk, route: Route, places: Range<usize>, dst: &mut [u8]) {
        let dw = width(c.s.to);
        let bytes = places.start * dw..places.end * dw;
        if dst[bytes.clone()] == self.marks[bytes.clone()] {
            return;
        }
        let text = format!(
            "{}: the destination is changed behind a refusal, {} elements before its end",
            route.name(),
            places.len()
        );
        self.tally.differs(c.s, c.element(places.start), text);
        dst[bytes.clone()].copy_from_slice(&self.marks[bytes]);
    }

    /// The original's slice function on the accepted elements, gathered into one slice, against what is due of it: what the chunk call stored for
    /// them, or exact arithmetic's.
    fn slice(&mut self, c: &Chunk, row: &[u8]) {
        let [mut src, mut stored, mut dst] = std::mem::take(&mut self.accepted);
        let refused = &c.expected.refused;
        gather(&mut src, c.src, width(c.s.from), refused);
        gather(&mut stored, row, width(c.s.to), refused);
        dst.clear();
        dst.resize(stored.len(), 0);
        if !src.is_empty() {
            self.tally.slices += 1;
            let got = slices(c.s, &src, c.keys, c.targets, &mut dst);
            let at = match first_difference(c.s.to, &stored, &dst) {
                None if got.number == 0 => None,
                other => Some(other.unwrap_or(0)),
            };
            if let Some(at) = at {
                let w = width(c.s.from);
                let text = format!("the original's slice function answers {}, or has another destination", got.text());
                self.tally.differs(c.s, pattern(&src[at * w..at * w + w]), text);
            }
        }
        self.accepted = [src, stored, dst];
    }

    /// One call, whatever is handed in, by the chunk call and, where it can be made, by the typed call: against `whole_call` and the account.
    pub fn call(&mut self, s: Settings, src: &[u8], dst: &[u8], keys: &[u8], targets: &[u8]) {
        let (answer, after) = whole_call(s, src, dst, keys, targets);
        let counts = self.counts_due(s, src, keys, &answer);
        let due = Due {
            answer,
            counts,
            after: &after,
        };
        self.one_call(Route::Bytes, s, [src, dst, keys, targets], &due);
        if 0 < answer.number {
            self.tally.refusals += 1;
        }
        if has_typed(s.from, s.to) && whole_map(s, keys.len(), targets.len()) && whole_elements(s, src.len(), dst.len()) {
            self.one_call(Route::Typed, s, [src, dst, keys, targets], &due);
        }
        if answer.number == 4 {
            self.tally.slices += 1;
            let got = slices(s, src, keys, targets, &mut dst.to_vec());
            if got != answer {
                let text = format!(
                    "the original's slice function answers {} where {} is due",
                    got.text(),
                    answer.text()
                );
                self.tally.differs(s, src.len() as u64, text);
            }
        }
    }

    /// The account's counts of a call: of the elements before the first that it refuses, which are as many as the call converts.
    fn counts_due(&mut self, s: Settings, src: &[u8], keys: &[u8], answer: &Answer) -> Counts {
        let converted = match answer.number {
            0 => (src.len() / width(s.from)) as u64,
            n if names_position(n) => answer.position,
            _ => return Counts::default(),
        };
        account::classes(s, src, keys, &mut self.classes);
        let before = self.classes.split(|c| *c == Class::Refused).next().unwrap_or_default();
        let counts = account::counts(before);
        if counts.converted() != converted {
            let text = format!("the account has {counts} where the original converts {converted}");
            self.tally.differs(s, src.len() as u64, text);
        }
        counts
    }

    fn one_call(&mut self, route: Route, s: Settings, [src, dst, keys, targets]: [&[u8]; 4], due: &Due) {
        let mut got_dst = std::mem::take(&mut self.dst);
        got_dst.clear();
        got_dst.extend_from_slice(dst);
        let (got, counts) = self.run(route, s, src, &mut got_dst, keys, targets);
        let lengths = [src, dst, keys, targets].map(<[u8]>::len);
        let mut differs = |text: String| {
            let text = format!("{}, {lengths:?} bytes: {text}", route.name());
            self.tally.differs(s, src.len() as u64, text);
        };
        if got != due.answer && (has_half(s) || !got.same(&due.answer)) {
            differs(format!("answer {} where {} is due", got.text(), due.answer.text()));
        }
        if counts != due.counts {
            differs(format!("counts {counts} where {} are due", due.counts));
        }
        let same = if s.to < 10 && s.from != 10 && due.after.len() % width(s.to) == 0 {
            first_difference(s.to, &got_dst, due.after).is_none()
        } else {
            got_dst == due.after
        };
        if !same {
            differs(format!("destination {got_dst:02x?} where {:02x?} is due", due.after));
        }
        self.dst = got_dst;
    }

    /// Our results under clamp against the second opinion, and the counts against the account.
    pub fn opinion(&mut self, s: Settings, patterns: &[u64]) {
        let mut src = Vec::with_capacity(patterns.len() * width(s.from));
        for p in patterns {
            crate::put(&mut src, s.from, *p);
        }
        let (sw, dw) = (width(s.from), width(s.to));
        let want = crate::ieee::opinion(s, patterns);
        let mut classes = std::mem::take(&mut self.classes);
        account::classes(s, &src, &[], &mut classes);
        let c = Chunk {
            s,
            src: &src,
            keys: &[],
            targets: &[],
            expected: &Reference::default(),
            classes: &classes,
        };
        let mut dst = std::mem::take(&mut self.dst);
        dst.clear();
        dst.resize(patterns.len() * dw, 0xa5);
        let mut start = 0;
        while start < patterns.len() {
            let (got, counts) = self.run(Route::Bytes, s, &src[start * sw..], &mut dst[start * dw..], &[], &[]);
            let end = if got.number == 0 {
                patterns.len()
            } else {
                start + got.position as usize
            };
            self.counted(&c, Route::Bytes, start..end, counts);
            for i in start..end {
                let y = pattern(&dst[i * dw..i * dw + dw]);
                let same = want[i].is_some_and(|w| w == y || is_nan(s.to, w) && is_nan(s.to, y));
                if !same {
                    self.tally
                        .differs(s, patterns[i], format!("stored {y:#x} where IEEE 754 has {:#x?}", want[i]));
                }
            }
            if end < patterns.len() {
                self.tally.refusals += 1;
                if got.number != 5 || want[end].is_some() {
                    self.tally.differs(
                        s,
                        patterns[end],
                        format!("answer {} where IEEE 754 has {:#x?}", got.text(), want[end]),
                    );
                }
            }
            start = end + 1;
        }
        self.tally.elements += patterns.len() as u64;
        self.dst = dst;
        self.classes = classes;
    }
}

/// Whether key and target bytes of listed kinds are whole elements, as many of the one as of the other.
fn whole_map(s: Settings, keys: usize, targets: usize) -> bool {
    let (sw, dw) = (width(s.from), width(s.to));
    keys % sw == 0 && targets % dw == 0 && keys / sw == targets / dw
}

/// Whether source and destination bytes of listed kinds are whole elements.
fn whole_elements(s: Settings, src: usize, dst: usize) -> bool {
    src % width(s.from) == 0 && dst % width(s.to) == 0
}

/// The papers' table for the refusals 1 to 4 and 8; `None` where the call reaches the elements.
pub fn checks(s: Settings, src: usize, dst: usize, keys: usize, targets: usize) -> Option<Answer> {
    let plain = |number| {
        Some(Answer {
            number,
            ..Answer::default()
        })
    };
    if 11 <= s.from || 11 <= s.to || 5 <= s.rounding || 3 <= s.range {
        return plain(1);
    }
    if barred(s) {
        return plain(8);
    }
    let (sw, dw) = (width(s.from), width(s.to));
    if !whole_map(s, keys, targets) {
        return plain(2);
    }
    if !whole_elements(s, src, dst) {
        return plain(3);
    }
    if src / sw != dst / dw {
        return Some(lengths_differ(src / sw, dst / dw));
    }
    None
}

/// Fills in what is due of each element, and its class: by the original, or by exact arithmetic where a kind is f16.
pub fn due(s: Settings, src: &[u8], keys: &[u8], targets: &[u8], out: &mut Reference, classes: &mut Vec<Class>) {
    if has_half(s) {
        exact::reference(s, src, keys, targets, out, classes);
    } else {
        reference(s, src, keys, targets, out);
        account::classes(s, src, keys, classes);
    }
}

/// Puts what the original is known to store in the place of what IEEE 754 has. Returns at how many places.
fn replace_known(c: &Chunk, row: &mut [u8]) -> u64 {
    if (c.s.from, c.s.to) != (9, 10) {
        return 0;
    }
    let mut places = 0;
    for (i, place) in row.chunks_exact_mut(2).enumerate() {
        if c.classes[i] == Class::Mapped {
            continue;
        }
        if let Some(theirs) = known(c.s, c.element(i)) {
            place.copy_from_slice(&(theirs as u16).to_le_bytes());
            places += 1;
        }
    }
    places
}

/// The answer and the destination of a call by the reference: the table, and then the elements in order up to a refusal.
pub fn whole_call(s: Settings, src: &[u8], dst: &[u8], keys: &[u8], targets: &[u8]) -> (Answer, Vec<u8>) {
    let mut after = dst.to_vec();
    if let Some(a) = checks(s, src.len(), dst.len(), keys.len(), targets.len()) {
        return (a, after);
    }
    let mut r = Reference::default();
    due(s, src, keys, targets, &mut r, &mut Vec::new());
    let answer = r.refused.first().copied().unwrap_or_default();
    let end = if answer.number == 0 {
        after.len()
    } else {
        answer.position as usize * width(s.to)
    };
    after[..end].copy_from_slice(&r.stored[..end]);
    (answer, after)
}
