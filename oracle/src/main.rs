//! Comparing by running: oracle compare FIRST SEEDS | oracle faults SEEDS | oracle differences | oracle write SEED FILE
mod cases;
mod differences;
mod model;
#[cfg(linked)]
mod ours;
mod replay;
mod side;
use cases::{Family, Rng, Stream, FAMILIES};
use model::{Fault, Model, FAULTS};
use replay::{replay, Report};

const SIZES: [usize; 35] = [
    0, 1, 2, 3, 4, 5, 6, 7, 8, 9, 15, 16, 17, 31, 32, 33, 63, 64, 65, 127, 128, 129, 255, 256, 257, 511, 512, 513,
    1000, 1023, 1024, 1025, 2047, 2048, 3000,
];
const MATCHED: [Family; 13] = [
    Family::Random,
    Family::Far,
    Family::Random,
    Family::Grid,
    Family::Sorted,
    Family::Reversed,
    Family::Equal,
    Family::Special,
    Family::Tiny,
    Family::Huge,
    Family::Duplicates,
    Family::Bits,
    Family::Latin,
];

const MATCHES: [(usize, usize); 9] = [
    (1, 1),
    (5, 3),
    (64, 33),
    (511, 100),
    (512, 64),
    (513, 200),
    (1023, 90),
    (1024, 300),
    (1025, 50),
];
/// Points, shift and span of whole coordinates.
const SCALES: [(usize, f32, u32); 10] = [
    (0, 0.0, 5),
    (1, 0.0, 0),
    (1, 7.0, 0),
    (2, 100.0, 1),
    (10, 0.0, 3),
    (100, 30000.0, 2),
    (1000, 30000.0, 2700),
    (1024, -32000.0, 768),
    (1000, 500.0, 4),
    (512, 0.0, 32768),
];

/// Every family at every size, and one family, another for each seed, past the Rust's threshold for parallel building.
fn stream(seed: u64) -> Stream {
    let (mut r, mut out) = (Rng(seed), Stream::new());
    for family in FAMILIES {
        for n in SIZES {
            let rounds = 4 + if n < 100 { 0 } else { r.below(4) as usize };
            out.tree_case(&mut r, family, n, rounds);
        }
    }
    let n = 4097 + r.below(4000) as usize;
    out.tree_case(&mut r, FAMILIES[seed as usize % FAMILIES.len()], n, 6);
    for family in MATCHED {
        for (s, t) in MATCHES {
            out.match_case(&mut r, family, s, t);
        }
    }
    finish(r, out, 120, &SCALES)
}

/// The list that `crates/replay` replays: small clouds of every family, a few large enough for two runs of sums.
fn short_stream(seed: u64) -> Stream {
    let (mut r, mut out) = (Rng(seed), Stream::new());
    for family in FAMILIES {
        for n in [0, 1, 2, 3, 4, 5, 7, 8, 9, 16, 33] {
            out.tree_case(&mut r, family, n, 3);
        }
        out.match_case(&mut r, family, 1, 1);
        out.match_case(&mut r, family, 33, 16);
    }
    for (family, n) in [(Family::Random, 513), (Family::Random, 1025), (Family::Latin, 512)] {
        out.tree_case(&mut r, family, n, 4);
    }
    for (family, s, t) in [(Family::Random, 513, 100), (Family::Far, 1024, 64)] {
        out.match_case(&mut r, family, s, t);
    }
    finish(r, out, 30, &SCALES[..6])
}

/// What both have: matching of single terms, an MSE that tells a quotient from a product, scales, limits.
fn finish(mut r: Rng, mut out: Stream, terms: usize, scales: &[(usize, f32, u32)]) -> Stream {
    // Single terms: in a long sum the last bit of a term is lost.
    for i in 0..terms {
        let family = if i % 2 == 0 { Family::Random } else { Family::Far };
        out.match_case(&mut r, family, 1 + i % 3, 2 + i % 5);
    }
    out.quotient_case();
    for (n, shift, span) in scales {
        for _ in 0..3 {
            out.scale_case(&mut r, *n, *shift, *span);
        }
    }
    out.limit_case(&mut r);
    out.finish()
}

fn show(name: &str, r: &Report) {
    let c = &r.counts;
    println!(
        "{name}: cases {} queries {} values {} indices {} differ {}",
        c.cases,
        c.queries(),
        c.values,
        c.indices,
        r.differ
    );
    if let Some(f) = &r.first {
        println!("  first: {f}");
    }
}

fn asked(s: Stream) -> Stream {
    assert_eq!(s.wrong, 0, "the Rust differs from a plain sort of all distances");
    s
}

/// The report of a side that had every answer of a stream put to it.
fn replayed(s: &Stream, side: &dyn side::Side) -> Report {
    let r = replay(&s.words, side);
    assert_eq!(r.counts, s.counts, "what was compared is what was written");
    r
}

fn compare_with(name: &str, side: &dyn side::Side, first: u64, seeds: u64) -> bool {
    let mut all = Report::default();
    for seed in first..first + seeds {
        all.add(replayed(&asked(stream(seed)), side));
    }
    let (mut r, mut big) = (Rng(first), Stream::new());
    big.tree_case(&mut r, Family::Random, 1_048_576, 2);
    all.add(replayed(&asked(big.finish()), side));
    show(name, &all);
    for (entry, n) in all.counts.lines() {
        println!("  {entry} {n}");
    }
    all.differ == 0
}

#[cfg(linked)]
fn compare(first: u64, seeds: u64) -> bool {
    compare_with("proved code against the Rust", &ours::Ours, first, seeds)
}

#[cfg(not(linked))]
fn compare(first: u64, seeds: u64) -> bool {
    compare_with("rules against the Rust", &Model(Fault::None), first, seeds)
}

/// Each fault must be noticed on some seed, and the rules without a fault on none.
fn faults(seeds: u64) -> bool {
    let streams: Vec<Stream> = (1..=seeds).map(|s| asked(stream(s))).collect();
    let differ = |f: Fault| -> u64 { streams.iter().map(|s| replay(&s.words, &Model(f)).differ).sum() };
    let clean = differ(Fault::None);
    let mut caught = 0;
    for f in FAULTS {
        let d = differ(f);
        caught += (d > 0) as usize;
        println!("  {f:?}: {d} differences");
    }
    println!(
        "faults caught {caught} of {}; differences without a fault: {clean}",
        FAULTS.len()
    );
    clean == 0 && caught == FAULTS.len()
}

fn main() {
    let args: Vec<String> = std::env::args().skip(1).collect();
    let number = |i: usize| -> u64 { args[i].parse().expect("a number") };
    let good = match args.first().map(String::as_str) {
        Some("compare") => compare(number(1), number(2)),
        Some("faults") => faults(number(1)),
        Some("differences") => {
            #[cfg(linked)]
            differences::show(&ours::Ours);
            #[cfg(not(linked))]
            differences::show(&Model(Fault::None));
            true
        }
        Some("write") => {
            let s = asked(short_stream(number(1)));
            let bytes: Vec<u8> = s.words.iter().flat_map(|w| w.to_le_bytes()).collect();
            std::fs::write(&args[2], &bytes).expect("the file is written");
            for (entry, n) in s.counts.lines() {
                println!("{entry} {n}");
            }
            println!("differ 0");
            eprintln!(
                "bytes {}, indices left open {}, layouts fixed {}",
                bytes.len(),
                s.any,
                s.layouts
            );
            true
        }
        _ => panic!("oracle compare FIRST SEEDS | oracle faults SEEDS | oracle differences | oracle write SEED FILE"),
    };
    std::process::exit(!good as i32);
}
