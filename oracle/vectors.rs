// Makes the records that crates/bits_run reads: what Rust's own operations on f32 and f64 give at chosen and at random numbers.
// From the repository's root:
//   rustc -O -o target/vectors oracle/vectors.rs && target/vectors > crates/bits_run/stdin
// A record is three u64, lowest byte first: the function's number, its argument, its result. Every NaN that is a result is written as one pattern.
//   1 f32::next_up   2 f64 as f32   3 f32::sqrt   4 f64::sqrt   5 f32::is_finite   6 f32 as f64
//   7 f32::total_cmp, of the argument's lower and upper half: 1 where the lower comes first
// How many records of each it made goes to standard error.
use std::cmp::Ordering;
use std::io::Write;

const SEED: u64 = 0x6f6e_6764_6875_7365;

// splitmix64
struct Random(u64);

impl Random {
    fn next(&mut self) -> u64 {
        self.0 = self.0.wrapping_add(0x9e37_79b9_7f4a_7c15);
        let mut z = self.0;
        z = (z ^ (z >> 30)).wrapping_mul(0xbf58_476d_1ce4_e5b9);
        z = (z ^ (z >> 27)).wrapping_mul(0x94d0_49bb_1331_11eb);
        z ^ (z >> 31)
    }

    // from a to b, b left out
    fn within(&mut self, a: u64, b: u64) -> u64 {
        a + self.next() % (b - a)
    }
}

struct Records {
    bytes: Vec<u8>,
    counts: [usize; 8],
}

impl Records {
    fn put(&mut self, kind: u64, argument: u64, result: u64) {
        for word in [kind, argument, result] {
            self.bytes.extend_from_slice(&word.to_le_bytes());
        }
        self.counts[kind as usize] += 1;
    }

    fn next_up(&mut self, b: u32) {
        self.put(1, b as u64, of_f32(f32::from_bits(b).next_up()));
    }

    fn narrow(&mut self, b: u64) {
        self.put(2, b, of_f32(f64::from_bits(b) as f32));
    }

    fn narrow_both(&mut self, b: u64) {
        self.narrow(b & !(1 << 63));
        self.narrow(b | 1 << 63);
    }

    // a number, and those beside it
    fn narrow_around(&mut self, b: u64) {
        self.narrow_both(b.wrapping_sub(1));
        self.narrow_both(b);
        self.narrow_both(b + 1);
    }

    fn root_f32(&mut self, b: u32) {
        self.put(3, b as u64, of_f32(f32::from_bits(b).sqrt()));
    }

    fn root_f64(&mut self, b: u64) {
        self.put(4, b, of_f64(f64::from_bits(b).sqrt()));
    }

    fn finite(&mut self, b: u32) {
        self.put(5, b as u64, f32::from_bits(b).is_finite() as u64);
    }

    fn widen(&mut self, b: u32) {
        self.put(6, b as u64, of_f64(f32::from_bits(b) as f64));
    }

    fn order(&mut self, a: u32, b: u32) {
        let (x, y) = (f32::from_bits(a), f32::from_bits(b));
        if !x.is_nan() && !y.is_nan() {
            self.put(7, a as u64 | (b as u64) << 32, (x.total_cmp(&y) == Ordering::Less) as u64);
        }
    }
}

fn of_f32(x: f32) -> u64 {
    if x.is_nan() { 0x7fc0_0000 } else { x.to_bits() as u64 }
}

fn of_f64(x: f64) -> u64 {
    if x.is_nan() { 0x7ff8_0000_0000_0000 } else { x.to_bits() }
}

// zero, the least, both sides of the boundary of subnormal and normal, one, the greatest, infinity, NaNs; with either sign
fn edges_f32() -> Vec<u32> {
    let mut v = vec![0, 1, 2, 3, 0x007f_fffe, 0x007f_ffff, 0x0080_0000, 0x0080_0001, 0x00ff_ffff, 0x0100_0000];
    v.extend([0x3f7f_ffff, 0x3f80_0000, 0x3f80_0001, 0x7f7f_fffe, 0x7f7f_ffff, 0x7f80_0000, 0x7f80_0001, 0x7fc0_0000, 0x7fff_ffff]);
    let signed: Vec<u32> = v.iter().map(|b| b | 1 << 31).collect();
    v.extend(signed);
    v
}

fn edges_f64() -> Vec<u64> {
    let e = 1u64 << 52;
    let mut v = vec![0, 1, 2, 3, e - 2, e - 1, e, e + 1, 2 * e - 1, 2 * e, 1023 * e - 1, 1023 * e, 1023 * e + 1];
    v.extend([2047 * e - 2, 2047 * e - 1, 2047 * e, 2047 * e + 1, 2047 * e + e / 2, (1 << 63) - 1]);
    let signed: Vec<u64> = v.iter().map(|b| b | 1 << 63).collect();
    v.extend(signed);
    v
}

// Half way from one f32 to the next, which an f64 holds, and its two neighbours. The bits of a magnitude below infinity's are given.
fn ties(r: &mut Records, b: u32) {
    let a = f32::from_bits(b) as f64;
    let next = if b == 0x7f7f_ffff { f64::from_bits((1023 + 128) << 52) } else { f32::from_bits(b + 1) as f64 };
    r.narrow_around(((a + next) / 2.0).to_bits());
}

fn main() {
    let mut random = Random(SEED);
    let mut r = Records { bytes: Vec::new(), counts: [0; 8] };

    // next up: at every exponent
    for b in edges_f32() {
        r.next_up(b);
    }
    for e in 1..255u32 {
        for b in [e << 23, (e << 23) - 1] {
            r.next_up(b);
            r.next_up(b | 1 << 31);
        }
    }
    for _ in 0..400 {
        r.next_up(random.next() as u32);
    }

    // narrowing: edges, ties, every exponent from below the half of the least f32 to above the greatest
    for b in edges_f64() {
        r.narrow(b);
    }
    for e in 1023 - 152..1023 + 131u64 {
        r.narrow_both(e << 52);
        r.narrow_both((e << 52) + (random.next() >> 12));
    }
    for b in [0, 1, 2, 0x007f_fffe, 0x007f_ffff, 0x0080_0000, 0x0080_0001, 0x3f7f_ffff, 0x3f80_0000, 0x7f7f_fffe, 0x7f7f_ffff] {
        r.narrow_around((f32::from_bits(b) as f64).to_bits().max(1));
        ties(&mut r, b);
    }
    for _ in 0..40 {
        ties(&mut r, random.within(0, 0x0080_0000) as u32);
        ties(&mut r, random.within(0x0080_0000, 0x7f80_0000) as u32);
    }
    for _ in 0..200 {
        r.narrow(random.next());
        let sign = random.next() & 1 << 63;
        r.narrow(sign | random.within(870, 1152) << 52 | random.next() >> 12);
    }

    // roots: edges, powers of two, squares with their neighbours, random bits
    for b in edges_f32() {
        r.root_f32(b);
    }
    for b in edges_f64() {
        r.root_f64(b);
    }
    r.root_f32(2.25f32.to_bits());
    r.root_f64(2.25f64.to_bits());
    r.root_f32(2); // 2 ^ -148
    r.root_f64((1023 - 148) << 52);
    for b in (0..23).map(|i| 1 << i).chain((1..255).map(|e| e << 23)) {
        r.root_f32(b);
    }
    for b in (0..52).map(|i| 1 << i).chain((1..2047).step_by(7).map(|e| e << 52)) {
        r.root_f64(b);
    }
    for _ in 0..100 {
        let a = f32::from_bits(random.within(0x3400_0000, 0x4b00_0000) as u32 & 0xffff_f000);
        let b = (a * a).to_bits();
        r.root_f32(b - 1);
        r.root_f32(b);
        r.root_f32(b + 1);
        let a = f64::from_bits(random.within(800 << 52, 1200 << 52) & !0x7ff_ffff);
        let b = (a * a).to_bits();
        r.root_f64(b - 1);
        r.root_f64(b);
        r.root_f64(b + 1);
    }
    for _ in 0..400 {
        r.root_f32(random.next() as u32 >> 1);
        r.root_f64(random.next() >> 1);
    }
    for _ in 0..100 {
        r.root_f32(random.within(1, 0x0080_0000) as u32);
        r.root_f64(random.within(1, 1 << 52));
        r.root_f32(random.next() as u32);
        r.root_f64(random.next());
    }

    // finite, widening, order
    for b in edges_f32() {
        r.finite(b);
        r.widen(b);
        for c in edges_f32() {
            r.order(b, c);
        }
    }
    for _ in 0..300 {
        let b = random.next() as u32;
        r.finite(b);
        r.widen(b);
        r.order(b, random.next() as u32);
    }

    std::io::stdout().write_all(&r.bytes).unwrap();
    eprintln!("next_up, narrow, root f32, root f64, finite, widen, order: {:?}", &r.counts[1..]);
}
