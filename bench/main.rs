//! Measures the proved library, the given Rust and nanoflann on the same inputs, in one process (docs/BENCHMARKS.md).
//!   bench time                        a line for each row: its name, its size, and the best processor time of each side in nanoseconds
//!   bench count                       under callgrind, at a tenth of the size: a dump of instructions for each row and side
//!   bench report TIMES COUNTS HEAD    the tables, into docs/BENCHMARKS.md, and docs/benchmarks.svg
mod report;
mod sides;

use sides::{Cloud, Given, Nanoflann, Proved, Side};
use std::ffi::{c_char, CString};

extern "C" {
    fn processor_time() -> u64;
    fn count_from();
    fn count_to(label: *const c_char);
}

/// Random numbers from a seed (splitmix64).
struct Random(u64);

impl Random {
    /// From 0 up to 1, a multiple of 2^-24.
    fn unit(&mut self) -> f32 {
        self.0 = self.0.wrapping_add(0x9e37_79b9_7f4a_7c15);
        let mut z = self.0;
        z = (z ^ (z >> 30)).wrapping_mul(0xbf58_476d_1ce4_e5b9);
        z = (z ^ (z >> 27)).wrapping_mul(0x94d0_49bb_1331_11eb);
        ((z ^ (z >> 31)) >> 40) as f32 / 16_777_216.0
    }
}

/// Points in the unit cube, in no order.
fn mixed(n: usize, seed: u64) -> Vec<[f32; 3]> {
    let mut random = Random(seed);
    (0..n).map(|_| [random.unit(), random.unit(), random.unit()]).collect()
}

fn sorted(n: usize) -> Vec<[f32; 3]> {
    let mut points = mixed(n, 1);
    points.sort_by(|a, b| a.partial_cmp(b).expect("no NaN"));
    points
}

/// Row after row of a depth image of a wavy surface with a little noise.
fn depth_image(n: usize) -> Vec<[f32; 3]> {
    let (mut random, width) = (Random(2), (n as f32 * 1.6).sqrt() as usize);
    let height = n / width + 1;
    let point = |i: usize| {
        let (u, v) = ((i % width) as f32 / width as f32, (i / width) as f32 / height as f32);
        let z = 1.0 + 0.3 * (6.0 * u).sin() * (5.0 * v).cos() + 0.001 * random.unit();
        [(u - 0.5) * z, (v - 0.5) * z, z]
    };
    (0..n).map(point).collect()
}

#[derive(Clone, Copy)]
enum Work {
    Build,
    Nearest,
    TenNearest,
    Radius(f32),
    Matching,
}

struct Row {
    name: &'static str,
    size: String,
    cloud: Cloud,
    /// Of a build: what shows that the tree serves.
    queries: Cloud,
    work: Work,
    rounds: usize,
}

/// The tree has n points; `scale` divides every count.
fn builds(n: usize, scale: usize) -> Vec<Row> {
    let n = n / scale;
    let row = |name, cloud| Row {
        name,
        size: format!("{n}"),
        cloud: Cloud::new(cloud),
        queries: Cloud::new(mixed(1_000, 3)),
        work: Work::Build,
        rounds: 5,
    };
    vec![
        row("build, mixed order", mixed(n, 1)),
        row("build, sorted", sorted(n)),
        row("build, reversed", sorted(n).into_iter().rev().collect()),
        row("build, all equal", vec![[0.5; 3]; n]),
        row("build, depth image", depth_image(n)),
    ]
}

fn searches(scale: usize) -> Vec<Row> {
    let n = 100_000 / scale;
    // tens of points in the ball: 4.19 r^3 n = 40
    let small = (40.0 / 4.19 / n as f32).cbrt();
    let row = |name, queries, work| Row {
        name,
        size: format!("{n}, {queries} queries"),
        cloud: Cloud::new(mixed(n, 1)),
        queries: Cloud::new(mixed(queries, 3)),
        work,
        rounds: 5,
    };
    vec![
        row("nearest", n, Work::Nearest),
        row("10 nearest", n, Work::TenNearest),
        row("radius, some 40 inside", n / 5, Work::Radius(small)),
        row("radius, all inside", 5, Work::Radius(2.0)),
        row("matching with sums", n, Work::Matching),
    ]
}

fn do_work(side: &mut dyn Side, row: &Row) -> f64 {
    match row.work {
        Work::Build => {
            side.build(&row.cloud);
            0.0
        }
        Work::Nearest => side.nearest(&row.queries),
        Work::TenNearest => side.k_nearest(&row.queries, 10),
        Work::Radius(r) => side.radius(&row.queries, r),
        Work::Matching => side.matching(&row.queries, &row.cloud),
    }
}

fn ready(side: &mut dyn Side, row: &Row) {
    side.ready(&row.cloud, &row.queries, matches!(row.work, Work::Build));
}

/// Builds the trees and does the work once; stops unless all three give the same sum, bit for bit.
fn agree(all: &mut [Box<dyn Side>; 3], row: &Row) {
    let sums = all.each_mut().map(|side| {
        side.ready(&row.cloud, &row.queries, true);
        side.build(&row.cloud);
        match row.work {
            Work::Build => side.nearest(&row.queries),
            _ => do_work(side.as_mut(), row),
        }
    });
    if sums.iter().any(|s| s.to_bits() != sums[0].to_bits()) || sums[0].is_nan() {
        eprintln!("{}, {}: the sums of distances differ: {sums:?}", row.name, row.size);
        std::process::exit(1);
    }
}

fn time(row: &Row, all: &mut [Box<dyn Side>; 3]) {
    let mut best = [u64::MAX; 3];
    for _ in 0..row.rounds {
        for (side, best) in all.iter_mut().zip(&mut best) {
            ready(side.as_mut(), row);
            let start = unsafe { processor_time() };
            std::hint::black_box(do_work(side.as_mut(), row));
            *best = (*best).min(unsafe { processor_time() } - start);
        }
    }
    println!("{}\t{}\t{}\t{}\t{}", row.name, row.size, best[0], best[1], best[2]);
}

fn count(i: usize, row: &Row, all: &mut [Box<dyn Side>; 3]) {
    for (j, side) in all.iter_mut().enumerate() {
        ready(side.as_mut(), row);
        let label = CString::new(format!("row {i} side {j}")).expect("no zero byte");
        unsafe { count_from() };
        std::hint::black_box(do_work(side.as_mut(), row));
        unsafe { count_to(label.as_ptr()) };
    }
}

fn measure(scale: usize, mut each: impl FnMut(usize, &Row, &mut [Box<dyn Side>; 3])) {
    let groups: [Box<dyn Fn() -> Vec<Row>>; 3] = [
        Box::new(move || builds(100_000, scale)),
        Box::new(move || builds(1_000_000, scale)),
        Box::new(move || searches(scale)),
    ];
    let mut i = 0;
    for group in groups {
        for row in group() {
            let mut all: [Box<dyn Side>; 3] = [
                Box::<Proved>::default(),
                Box::<Given>::default(),
                Box::<Nanoflann>::default(),
            ];
            agree(&mut all, &row);
            each(i, &row, &mut all);
            i += 1;
        }
    }
}

fn main() {
    let words: Vec<String> = std::env::args().skip(1).collect();
    match words.iter().map(String::as_str).collect::<Vec<_>>()[..] {
        ["time"] => measure(1, |_, row, all| time(row, all)),
        ["count"] => measure(10, count),
        ["report", times, counts, head] => report::write(times, counts, head),
        _ => {
            eprintln!("bench time | bench count | bench report TIMES COUNTS HEAD");
            std::process::exit(2);
        }
    }
}
