//! Compares the proved libraries with the original, and with f16 by exact integers, section by section. `--quick` takes fewer elements;
//! `--only A,B` takes some sections; `--step N` takes one run of patterns in N in the sweeps over 32-bit kinds; `--list FILE` writes the
//! fixed list and compares nothing.
use driver::compare::{due, Check, Tally};
use driver::samples::{biased, edges, near_halves, Random};
use driver::{all_settings, barred, ieee, permitted_settings, put, width, Reference, Settings, KINDS, RANGES, RULES};
use std::sync::atomic::{AtomicUsize, Ordering};
use std::sync::Mutex;
use std::time::Instant;

#[path = "../list.rs"]
mod list;

/// Runs `work` for each number below `n` on every processor, and adds up what they count.
fn spread(n: usize, work: impl Fn(&mut Check, usize) + Sync, each: impl Fn(usize) + Sync) -> Tally {
    let next = AtomicUsize::new(0);
    let total = Mutex::new(Tally::default());
    let workers = std::thread::available_parallelism().map_or(1, |n| n.get());
    std::thread::scope(|scope| {
        for _ in 0..workers {
            scope.spawn(|| {
                let mut check = Check::default();
                loop {
                    let i = next.fetch_add(1, Ordering::Relaxed);
                    if n <= i {
                        break;
                    }
                    work(&mut check, i);
                    each(i);
                }
                total.lock().unwrap().add(check.tally);
            });
        }
    });
    total.into_inner().unwrap()
}

const SECTIONS: [&str; 15] = [
    "settings",
    "barred",
    "small",
    "maps",
    "malformed",
    "random",
    "ieee",
    "f32-u8",
    "f32-i32",
    "f32-i64",
    "f32-f64",
    "i32-f32",
    "u32-f32",
    "f64-f16",
    "f32-f16",
];

struct Report {
    total: Tally,
    start: Instant,
}

impl Report {
    fn section(&mut self, name: &str, since: Instant, t: Tally) {
        println!("{name}: {} ({:.0} s)", t.text(), since.elapsed().as_secs_f64());
        for d in t.smallest.values().take(20) {
            println!("  difference: {}: element {:#x}: {}", d.settings.name(), d.element, d.text);
        }
        if 20 < t.smallest.len() {
            println!("  and in {} more settings", t.smallest.len() - 20);
        }
        self.total.add(t);
    }
}

fn bytes_of(kind: u8, patterns: &[u64]) -> Vec<u8> {
    let mut out = Vec::with_capacity(patterns.len() * width(kind));
    for p in patterns {
        put(&mut out, kind, *p);
    }
    out
}

/// The elements of a kind that a settings accepts, and those that it refuses.
fn sorted(s: Settings, patterns: &[u64]) -> (Vec<u64>, Vec<u64>) {
    let mut r = Reference::default();
    due(s, &bytes_of(s.from, patterns), &[], &[], &mut r, &mut Vec::new());
    let mut refused = r.refused.iter().map(|a| a.position as usize).peekable();
    let (mut yes, mut no) = (Vec::new(), Vec::new());
    for (i, p) in patterns.iter().enumerate() {
        if refused.next_if_eq(&i).is_some() {
            no.push(*p);
        } else {
            yes.push(*p);
        }
    }
    (yes, no)
}

/// Every setting that the original is consulted for: every edge of the source kind, and chunks with a refusal early, in the middle, late and not at all.
fn settings(report: &mut Report) {
    let since = Instant::now();
    let all = permitted_settings();
    let edge: Vec<Vec<u64>> = (0..11).map(edges).collect();
    let t = spread(
        all.len(),
        |check, i| {
            let s = all[i];
            let patterns = &edge[s.from as usize];
            check.chunk(s, &bytes_of(s.from, patterns), &[], &[], 4);
            let (yes, no) = sorted(s, patterns);
            let mut r = Random(i as u64);
            for length in [1, 2, 3, 7, 16, 65, 300] {
                let mut chunk: Vec<u64> = (0..length).map(|_| yes[r.below(yes.len() as u64) as usize]).collect();
                let plain = bytes_of(s.from, &chunk);
                for mark in [0x00, 0x5a, 0xff] {
                    let dst = vec![mark; length * width(s.to)];
                    check.call(s, &plain, &dst, &[], &[]);
                    if no.is_empty() {
                        continue;
                    }
                    for place in [0, length / 2, length - 1] {
                        let kept = chunk[place];
                        chunk[place] = no[r.below(no.len() as u64) as usize];
                        check.call(s, &bytes_of(s.from, &chunk), &dst, &[], &[]);
                        chunk[place] = kept;
                    }
                }
            }
        },
        |_| {},
    );
    report.section(
        "1,650 settings on every edge of the source kind, refusals early, late and none",
        since,
        t,
    );
}

/// Wrap with a float target, by the papers' table: chunks of edges of eight lengths, the empty one among them, with a map and without; broken lengths.
fn barred_wrap(report: &mut Report) {
    let since = Instant::now();
    let all: Vec<Settings> = all_settings().into_iter().filter(|s| barred(*s)).collect();
    let edge: Vec<Vec<u64>> = (0..11).map(edges).collect();
    let t = spread(
        all.len(),
        |check, i| {
            let s = all[i];
            let (sw, dw) = (width(s.from), width(s.to));
            let own = &edge[s.from as usize];
            let mut r = Random(0x5000 + i as u64);
            for length in [0, 1, 2, 3, 7, 16, 65, 300] {
                let m = list::a_map(s, &edge, length, &mut r);
                let (keys, targets) = (bytes_of(s.from, &m.keys), bytes_of(s.to, &m.targets));
                let patterns: Vec<u64> = (0..length).map(|_| own[r.below(own.len() as u64) as usize]).collect();
                let src = bytes_of(s.from, &patterns);
                for mark in [0x00, 0x5a, 0xff] {
                    let dst = vec![mark; length * dw + 1];
                    let whole = &dst[..length * dw];
                    check.call(s, &src, whole, &[], &[]);
                    check.call(s, &src, whole, &keys, &targets);
                    check.call(s, &src, whole, &keys, &dst[..length % 2]);
                    check.call(s, &src, &dst, &keys, &targets);
                    check.call(s, &src[..src.len().saturating_sub(sw)], whole, &keys, &targets);
                }
            }
        },
        |_| {},
    );
    report.section("the 165 settings with wrap and a float target, by the papers' table", since, t);
}

/// Every pattern of the 8- and 16-bit kinds, f16 among them, in every setting that the original is consulted for.
fn small_kinds(report: &mut Report) {
    let since = Instant::now();
    let all: Vec<Settings> = permitted_settings().into_iter().filter(|s| width(s.from) < 4).collect();
    let t = spread(
        all.len(),
        |check, i| {
            let s = all[i];
            let patterns: Vec<u64> = (0..1 << (width(s.from) * 8)).collect();
            check.chunk(s, &bytes_of(s.from, &patterns), &[], &[], 16);
        },
        |_| {},
    );
    report.section(
        "every pattern of i8, i16, u8, u16 and f16 to every target, in every rule and range but wrap to a float",
        since,
        t,
    );
}

/// Random elements of the 32- and 64-bit kinds in every such setting, biased to halfway points and ends.
fn random(report: &mut Report, wide: usize, narrow: usize) {
    let since = Instant::now();
    let all: Vec<Settings> = permitted_settings().into_iter().filter(|s| 4 <= width(s.from)).collect();
    let t = spread(
        all.len(),
        |check, i| {
            let s = all[i];
            let mut r = Random(0x1000 + i as u64);
            let count = if width(s.from) == 8 { wide } else { narrow };
            for _ in 0..count / 4096 {
                let patterns: Vec<u64> = (0..4096).map(|_| biased(s.from, &mut r)).collect();
                check.chunk(s, &bytes_of(s.from, &patterns), &[], &[], 16);
            }
        },
        |_| {},
    );
    report.section(
        "random elements of i32, i64, u32, u64, f32 and f64 to every target, in every rule and range but wrap to a float",
        since,
        t,
    );
}

/// Maps with NaNs, zeros of both signs, infinities and duplicates, in every such setting.
fn maps(report: &mut Report, rounds: usize) {
    let since = Instant::now();
    let all = permitted_settings();
    let edge: Vec<Vec<u64>> = (0..11).map(edges).collect();
    let t = spread(
        all.len(),
        |check, i| {
            let s = all[i];
            let mut r = Random(0x2000 + i as u64);
            for round in 0..rounds {
                let m = list::a_map(s, &edge, round, &mut r);
                check.chunk(
                    s,
                    &bytes_of(s.from, &m.elements),
                    &bytes_of(s.from, &m.keys),
                    &bytes_of(s.to, &m.targets),
                    80,
                );
            }
        },
        |_| {},
    );
    report.section("maps: NaN keys, zeros of both signs, infinities, duplicates", since, t);
}

/// Bytes at the alignment of every element, as a typed call asks.
#[repr(align(8))]
struct Aligned([u8; 64]);

/// Broken lengths and bad codes, against the papers' table; counts that differ, against the original's slice functions too.
fn malformed(report: &mut Report, deep: bool) {
    let since = Instant::now();
    let t = spread(
        KINDS.len() * KINDS.len(),
        |check, i| {
            let mut r = Random(0x3000 + i as u64);
            let (from, to) = ((i / KINDS.len()) as u8, (i % KINDS.len()) as u8);
            let (Aligned(zeros), mark) = (Aligned([0; 64]), [0x77u8; 64]);
            let top = if deep { 18 } else { 9 };
            for src in 0..top {
                for dst in 0..top {
                    for keys in 0..10 {
                        for targets in 0..10 {
                            let s = Settings {
                                from,
                                to,
                                rounding: r.below(5) as u8,
                                range: r.below(3) as u8,
                            };
                            let (a, b, c, d) = (&zeros[..src], &mark[..dst], &zeros[..keys], &mark[..targets]);
                            check.call(s, a, b, c, d);
                        }
                    }
                }
            }
            // a code that is not listed comes before every other fault
            for code in 0..=255u8 {
                for place in 0..4 {
                    for lengths in [(16, 16, 8, 8), (5, 3, 1, 2), (0, 0, 0, 0), (8, 3, 0, 0)] {
                        let mut s = Settings {
                            from,
                            to,
                            rounding: r.below(5) as u8,
                            range: r.below(3) as u8,
                        };
                        *[&mut s.from, &mut s.to, &mut s.rounding, &mut s.range][place] = code;
                        let (a, b, c, d) = (&zeros[..lengths.0], &mark[..lengths.1], &zeros[..lengths.2], &mark[..lengths.3]);
                        check.call(s, a, b, c, d);
                    }
                }
            }
        },
        |_| {},
    );
    report.section("broken lengths and bad codes, by the papers' table", since, t);
}

/// The patterns of a 32-bit kind, each of them or every so many chunks, for one conversion in each of the five rules.
fn sweep(report: &mut Report, from: u8, to: u8, range: u8, step: u64) {
    const BLOCK: u64 = 1 << 24;
    const CHUNK: u64 = 1 << 12;
    let blocks = ((1u64 << 32) / BLOCK) as usize;
    let since = Instant::now();
    let said = Mutex::new(Instant::now());
    let mut total = Tally::default();
    for rounding in 0..5 {
        let s = Settings { from, to, rounding, range };
        let done = AtomicUsize::new(0);
        let t = spread(
            blocks,
            |check, i| {
                let mut src = Vec::with_capacity(CHUNK as usize * 4);
                let mut at = i as u64 * BLOCK;
                while at < (i as u64 + 1) * BLOCK {
                    src.clear();
                    src.extend((at..at + CHUNK).flat_map(|p| (p as u32).to_le_bytes()));
                    check.chunk(s, &src, &[], &[], 16);
                    at += CHUNK * step;
                }
            },
            |_| {
                let k = done.fetch_add(1, Ordering::Relaxed) + 1;
                let mut last = said.lock().unwrap();
                if 20 <= last.elapsed().as_secs() {
                    *last = Instant::now();
                    println!(
                        "  {}: {}% ({:.0} s)",
                        s.name(),
                        k * 100 / blocks,
                        report.start.elapsed().as_secs_f64()
                    );
                }
            },
        );
        total.add(t);
    }
    let what = if step == 1 {
        "each of the 2^32 patterns".into()
    } else {
        format!("one run of 2^12 patterns in {step}")
    };
    let by = match (to, ieee::has_f16c()) {
        (10, true) => ", by exact integers, in four of them the processor's conversion too",
        (10, false) => ", by exact integers; this processor has no conversion",
        _ => "",
    };
    report.section(
        &format!(
            "{} to {}, {}: {what} in the five rules{by}",
            KINDS[from as usize], KINDS[to as usize], RANGES[range as usize]
        ),
        since,
        total,
    );
}

/// The machine's rounding modes and exact integer arithmetic as a second opinion, on the same samples.
fn second_opinion(report: &mut Report, count: usize) {
    let since = Instant::now();
    let mut all = Vec::new();
    for from in [2, 3, 6, 7, 8, 9, 10] {
        for to in 0..11 {
            for rounding in 0..5 {
                if ieee::has_opinion(from, to) {
                    all.push(Settings {
                        from,
                        to,
                        rounding,
                        range: 1,
                    });
                }
            }
        }
    }
    let edge: Vec<Vec<u64>> = (0..11).map(edges).collect();
    let t = spread(
        all.len(),
        |check, i| {
            let s = all[i];
            check.opinion(s, &edge[s.from as usize]);
            let mut r = Random(0x1000 + i as u64);
            for _ in 0..count / 4096 {
                let patterns: Vec<u64> = (0..4096).map(|_| biased(s.from, &mut r)).collect();
                check.opinion(s, &patterns);
            }
        },
        |_| {},
    );
    let halves = if ieee::has_f16() {
        "f16 by the C compiler's _Float16"
    } else {
        "without f16, which the C compiler has not"
    };
    report.section(
        &format!(
            "IEEE 754, a second opinion: fesetround for {}, {}, {}, {}; exact integers for {}; {halves}",
            RULES[0], RULES[1], RULES[2], RULES[3], RULES[4]
        ),
        since,
        t,
    );
}

/// f64 to f16 in the five rules, refused and clamped: at, just above and just below halfway points, in the subnormal range and at the end.
fn halfway_to_f16(report: &mut Report, count: usize) {
    const CHUNK: usize = 4096;
    let since = Instant::now();
    let t = spread(
        count.div_ceil(CHUNK) * 10,
        |check, i| {
            let (from, to, rounding, range) = (9, 10, (i % 5) as u8, (i / 5 % 2) as u8);
            let s = Settings { from, to, rounding, range };
            let mut r = Random(0x6000 + i as u64);
            let patterns: Vec<u64> = (0..CHUNK).map(|_| near_halves(&mut r)).collect();
            check.chunk(s, &bytes_of(from, &patterns), &[], &[], 16);
            if range == 1 && ieee::has_opinion(from, to) {
                check.opinion(s, &patterns);
            }
        },
        |_| {},
    );
    let too = if ieee::has_f16() {
        "; clamped by the second opinion too"
    } else {
        ""
    };
    report.section(
        &format!("f64 to f16, none and clamp, in the five rules: at, just above and just below halfway points, by exact integers{too}"),
        since,
        t,
    );
}

fn main() {
    let args: Vec<String> = std::env::args().skip(1).collect();
    if args.first().is_some_and(|a| a == "--list") {
        return list::write(&args[1]);
    }
    let quick = args.iter().any(|a| a == "--quick");
    let only = args
        .iter()
        .position(|a| a == "--only")
        .map(|i| args[i + 1].split(',').map(String::from).collect::<Vec<_>>());
    if let Some(unknown) = only.iter().flatten().find(|name| !SECTIONS.contains(&name.as_str())) {
        eprintln!("no section {unknown}; there are {}", SECTIONS.join(", "));
        std::process::exit(2);
    }
    let mut report = Report {
        total: Tally::default(),
        start: Instant::now(),
    };
    let step = args.iter().position(|a| a == "--step").map_or(if quick { 1024 } else { 1 }, |i| {
        let step = args[i + 1].parse().ok();
        step.filter(|n| (1..=4096).contains(n)).expect("a step from 1 to 4096")
    });
    for name in SECTIONS {
        if only.as_ref().is_some_and(|o| !o.iter().any(|n| n == name)) {
            continue;
        }
        match name {
            "settings" => settings(&mut report),
            "barred" => barred_wrap(&mut report),
            "small" => small_kinds(&mut report),
            "maps" => maps(&mut report, if quick { 20 } else { 200 }),
            "malformed" => malformed(&mut report, !quick),
            "random" => random(
                &mut report,
                if quick { 1 << 13 } else { 1 << 18 },
                if quick { 1 << 13 } else { 1 << 17 },
            ),
            "ieee" => second_opinion(&mut report, if quick { 1 << 13 } else { 1 << 18 }),
            "f32-u8" => sweep(&mut report, 8, 4, 1, step),
            "f32-i32" => sweep(&mut report, 8, 2, 1, step),
            "f32-i64" => sweep(&mut report, 8, 3, 0, step),
            "f32-f64" => sweep(&mut report, 8, 9, 0, step),
            "i32-f32" => sweep(&mut report, 2, 8, 0, step),
            "u32-f32" => sweep(&mut report, 6, 8, 0, step),
            "f64-f16" => halfway_to_f16(&mut report, if quick { 1 << 16 } else { 1 << 22 }),
            _ => sweep(&mut report, 8, 10, 1, step),
        }
    }
    let t = &report.total;
    println!(
        "total: {} in {} settings, {:.0} s{}",
        t.text(),
        t.smallest.len(),
        report.start.elapsed().as_secs_f64(),
        if quick { " (quick)" } else { "" }
    );
    std::process::exit(i32::from(t.differences != 0));
}
