//! Cases made from a seed, with the answers of the given Rust, as a stream of u32 words.
//!
//! Stream: [MAGIC, number of cases], then the cases.
//! Tree    [1, layout, nq, n], 3n cloud words; m; m slot indices when layout = 1; then nq queries:
//!         [op, qx, qy, qz, arg, seed index, seed distance, c] and c times [index, distance];
//!         op 1 bounded (arg: bound), 2 k nearest with squares (arg: k), 3 k nearest with roots,
//!         4 radius with roots (arg: radius), 5 unbounded
//! Match   [2, limited, limit, bound, ns, nt], 3ns, 3nt, ns seeds; ns entries; the number of pairs and
//!         so many [source, target]; [comparable, count]; when comparable = 1: 16 f64 (p, q, pq by rows, error), mse
//! Scale   [3, n], 3n; centroid 3, radius; origin of the centred frame 3 f64; whether there is a frame if far;
//!         when there is: origin 3 f64, locals 3n
//! Limit   [4, n], n times [limited, limit, bound]
//! An f64 is its low and its high word. 0xffffffff is none; an index 0xfffffffe is any: the Rust fixes none there
//! (equal distances).
use std::collections::HashMap;
use threecrate_algorithms::{
    nearest_neighbor::KdTree,
    registration::{oracle as given, CloudScale, LocalFrame},
};
use threecrate_core::{NearestNeighborSearch, Point3f};

pub const MAGIC: u32 = 0x3254_444b;
pub const NONE: u32 = u32::MAX;
pub const ANY: u32 = u32::MAX - 1;

/// splitmix64
pub struct Rng(pub u64);

impl Rng {
    pub fn next(&mut self) -> u64 {
        self.0 = self.0.wrapping_add(0x9e37_79b9_7f4a_7c15);
        let mut z = self.0;
        z = (z ^ (z >> 30)).wrapping_mul(0xbf58_476d_1ce4_e5b9);
        z = (z ^ (z >> 27)).wrapping_mul(0x94d0_49bb_1331_11eb);
        z ^ (z >> 31)
    }

    pub fn below(&mut self, n: u32) -> u32 {
        ((self.next() >> 32) * n as u64 >> 32) as u32
    }

    pub fn unit(&mut self) -> f32 {
        (self.next() >> 40) as f32 / 16_777_216.0
    }

    fn special(&mut self) -> f32 {
        f32::from_bits(SPECIAL[self.below(SPECIAL.len() as u32) as usize])
    }
}

/// Zeros, subnormals, the ends of the normal range, infinities, NaNs, values whose squares overflow or vanish.
const SPECIAL: [u32; 22] = [
    0, 0x80000000, 1, 0x80000001, 0x007fffff, 0x00800000, 0x80800000, 0x7f7fffff, 0xff7fffff, 0x7f800000, 0xff800000,
    0x7fc00000, 0xffc00001, 0x7f800001, 0x3f800000, 0xbf800000, 0x5f000000, 0xdf000000, 0x20000000, 0x1f800000,
    0x34000000, 0x3f7fffff,
];

#[derive(Clone, Copy, PartialEq, Debug)]
pub enum Family {
    /// Exponents vary: multiples of one power of two would add exactly in f64 and hide every order of sums.
    Random,
    /// A small grid: ties everywhere.
    Grid,
    Sorted,
    Reversed,
    Equal,
    Special,
    /// Far from the origin.
    Far,
    /// Subnormal and tiny.
    Tiny,
    Huge,
    Duplicates,
    /// Arbitrary bits.
    Bits,
    /// No axis has two equal coordinates (odd steps modulo a power of two), yet distances often tie.
    Latin,
}

pub const FAMILIES: [Family; 12] = [
    Family::Random,
    Family::Grid,
    Family::Sorted,
    Family::Reversed,
    Family::Equal,
    Family::Special,
    Family::Far,
    Family::Tiny,
    Family::Huge,
    Family::Duplicates,
    Family::Bits,
    Family::Latin,
];

fn coordinate(r: &mut Rng, family: Family, i: usize, n: usize, axis: usize) -> f32 {
    match family {
        Family::Random => (r.unit() * 2.0 - 1.0) * r.unit() * r.unit(),
        Family::Grid => r.below(5) as f32 - 2.0,
        Family::Sorted if axis == 0 => i as f32,
        Family::Sorted => r.unit(),
        Family::Reversed if axis == 0 => (n - i) as f32 * 0.25,
        Family::Reversed => (i / 8) as f32,
        Family::Equal => 1.5,
        Family::Special => r.special(),
        Family::Far => 1.0e3 / (1.0 + r.unit() * 7.0) + axis as f32 * 700.0,
        Family::Tiny => f32::from_bits(r.below(0x0100_0000) | (r.below(2) << 31)),
        Family::Huge => (r.unit() * 2.0 - 1.0) * 3.0e38,
        Family::Duplicates => ((r.below(7) * 37) % 11) as f32 * 0.125,
        Family::Bits => f32::from_bits(r.next() as u32),
        Family::Latin => {
            let p = n.next_power_of_two().max(2);
            ((i * [1, 5, 11][axis] + axis) % p) as f32
        }
    }
}

fn point(r: &mut Rng, family: Family, i: usize, n: usize) -> Point3f {
    let x = coordinate(r, family, i, n, 0);
    let y = coordinate(r, family, i, n, 1);
    Point3f::new(x, y, coordinate(r, family, i, n, 2))
}

fn cloud(r: &mut Rng, family: Family, n: usize) -> Vec<Point3f> {
    let mut c: Vec<Point3f> = (0..n).map(|i| point(r, family, i, n)).collect();
    // Now and then a point that is not finite, so that indices and slots part.
    if n > 2 && r.below(3) == 0 {
        let at = r.below(n as u32) as usize;
        c[at] = Point3f::new(f32::NAN, 0.0, f32::INFINITY);
    }
    c
}

fn finite(p: &Point3f) -> bool {
    p.x.is_finite() && p.y.is_finite() && p.z.is_finite()
}

fn distance_squared(a: &Point3f, b: &Point3f) -> f32 {
    let (x, y, z) = (a.x - b.x, a.y - b.y, a.z - b.z);
    (x * x + y * y) + z * z
}

/// Sorted distances of all indexed points: what the lists must hold, without a tree.
fn all_distances(c: &[Point3f], q: &Point3f) -> Vec<f32> {
    let mut v: Vec<f32> = c
        .iter()
        .filter(|p| finite(p))
        .map(|p| distance_squared(p, q))
        .filter(|d| !d.is_nan())
        .collect();
    v.sort_by(f32::total_cmp);
    v
}

/// How many indexed points have each distance. Where the layout is fixed, points at the same
/// square count as one, since near-first order then decides among them.
fn seen(c: &[Point3f], q: &Point3f, root: bool, layout: bool) -> HashMap<u32, u32> {
    let mut all: Vec<f32> = c.iter().filter(|p| finite(p)).map(|p| distance_squared(p, q)).collect();
    if layout {
        all.sort_by(f32::total_cmp);
        all.dedup_by_key(|d| d.to_bits());
    }
    let mut m = HashMap::new();
    for d in all {
        *m.entry(if root { d.sqrt() } else { d }.to_bits()).or_insert(0) += 1;
    }
    m
}

/// What was written, by entry: how many calls of each, and how many values and indices of their answers are fixed.
/// The program that replays a list counts for itself; the two must agree.
#[derive(Clone, Copy, Default, PartialEq, Debug)]
pub struct Counts {
    pub cases: u64,
    pub build: u64,
    pub is_tree_of: u64,
    pub nearest: u64,
    pub bounded: u64,
    pub k_squares: u64,
    pub k_roots: u64,
    pub radius: u64,
    pub limit: u64,
    pub matching: u64,
    pub pairs: u64,
    pub sums: u64,
    pub mse: u64,
    pub scale: u64,
    pub centred: u64,
    pub frame: u64,
    pub local: u64,
    pub values: u64,
    pub indices: u64,
}

impl Counts {
    pub fn lines(&self) -> [(&'static str, u64); 19] {
        [
            ("cases", self.cases),
            ("build", self.build),
            ("is_tree_of", self.is_tree_of),
            ("nearest", self.nearest),
            ("bounded", self.bounded),
            ("k_squares", self.k_squares),
            ("k_roots", self.k_roots),
            ("radius", self.radius),
            ("limit", self.limit),
            ("matching", self.matching),
            ("pairs", self.pairs),
            ("sums", self.sums),
            ("mse", self.mse),
            ("scale", self.scale),
            ("centred", self.centred),
            ("frame", self.frame),
            ("local", self.local),
            ("values", self.values),
            ("indices", self.indices),
        ]
    }

    pub fn queries(&self) -> u64 {
        self.nearest + self.bounded + self.k_squares + self.k_roots + self.radius
    }

    pub fn add(&mut self, o: &Counts) {
        self.cases += o.cases;
        self.build += o.build;
        self.is_tree_of += o.is_tree_of;
        self.nearest += o.nearest;
        self.bounded += o.bounded;
        self.k_squares += o.k_squares;
        self.k_roots += o.k_roots;
        self.radius += o.radius;
        self.limit += o.limit;
        self.matching += o.matching;
        self.pairs += o.pairs;
        self.sums += o.sums;
        self.mse += o.mse;
        self.scale += o.scale;
        self.centred += o.centred;
        self.frame += o.frame;
        self.local += o.local;
        self.values += o.values;
        self.indices += o.indices;
    }
}

pub struct Stream {
    pub words: Vec<u32>,
    pub counts: Counts,
    /// Indices that the Rust does not fix.
    pub any: u64,
    pub layouts: u64,
    /// Answers of the Rust that are not those of a plain sort of all distances: must stay 0.
    pub wrong: u64,
}

impl Stream {
    pub fn new() -> Self {
        Stream {
            words: vec![MAGIC, 0],
            counts: Counts::default(),
            any: 0,
            layouts: 0,
            wrong: 0,
        }
    }

    /// A word, a float or a double of an answer.
    fn value(&mut self, w: u32) {
        self.counts.values += 1;
        self.words.push(w);
    }

    fn values(&mut self, p: &Point3f) {
        for c in [p.x, p.y, p.z] {
            self.value(c.to_bits());
        }
    }

    fn doubles(&mut self, list: &[f64]) {
        for v in list {
            let b = v.to_bits();
            self.value(b as u32);
            self.words.push((b >> 32) as u32);
        }
    }

    fn index(&mut self, fixed: bool, i: u32) {
        self.counts.indices += fixed as u64;
        self.any += !fixed as u64;
        self.words.push(if fixed { i } else { ANY });
    }

    fn point(&mut self, p: &Point3f) {
        self.words.extend([p.x.to_bits(), p.y.to_bits(), p.z.to_bits()]);
    }

    fn query(&mut self, op: u32, q: &Point3f, arg: u32, seed: Option<(usize, f32)>) {
        let c = &mut self.counts;
        *match op {
            1 => &mut c.bounded,
            2 => &mut c.k_squares,
            3 => &mut c.k_roots,
            4 => &mut c.radius,
            _ => &mut c.nearest,
        } += 1;
        self.words.push(op);
        self.point(q);
        let (i, d) = seed.map_or((NONE, 0), |(i, d)| (i as u32, d.to_bits()));
        self.words.extend([arg, i, d]);
    }

    /// An entry's index is fixed if it is the only indexed point at that distance, or the seed kept.
    fn answer(&mut self, list: &[(usize, f32)], count: &HashMap<u32, u32>, seed: Option<(usize, f32)>) {
        self.value(list.len() as u32);
        for &(i, d) in list {
            let fixed = count.get(&d.to_bits()) == Some(&1) || seed == Some((i, d));
            self.index(fixed, i as u32);
            self.value(d.to_bits());
        }
    }

    fn expect<A: Iterator<Item = u32>, B: Iterator<Item = u32>>(&mut self, have: A, want: B) {
        self.wrong += !have.eq(want) as u64;
    }

    pub fn finish(mut self) -> Self {
        self.words[1] = self.counts.cases as u32;
        self
    }

    pub fn tree_case(&mut self, r: &mut Rng, family: Family, n: usize, rounds: usize) {
        let c = cloud(r, family, n);
        let tree = KdTree::new(&c).unwrap();
        let slots: Vec<u32> = tree.flat_nodes().map(|s| s.index as u32).collect();
        // The Rust's selection fixes the slots when no axis has two equal coordinates.
        let layout = (0..3).all(|axis| {
            let mut b: Vec<u32> = c
                .iter()
                .filter(|p| finite(p))
                .map(|p| p.coords[axis].to_bits())
                .collect();
            b.sort();
            b.windows(2).all(|w| w[0] != w[1])
        });
        self.counts.cases += 1;
        self.counts.build += 1;
        self.counts.is_tree_of += 1;
        self.layouts += layout as u64;
        self.words.extend([1, layout as u32, 0, n as u32]);
        let at = self.words.len() - 2;
        for p in &c {
            self.point(p);
        }
        self.value(slots.len() as u32);
        if layout {
            for s in slots {
                self.index(true, s);
            }
        }
        let before = self.counts.queries();
        for round in 0..rounds {
            self.queries_of(r, family, &c, &tree, layout, round);
        }
        self.words[at] = (self.counts.queries() - before) as u32;
    }

    /// On a point, non-finite and other special numbers, between two points, outside the cloud, or of the cloud's family.
    fn query_point(r: &mut Rng, family: Family, c: &[Point3f]) -> Point3f {
        let n = c.len();
        let one = |r: &mut Rng| c[r.below(n as u32) as usize];
        match r.below(6) {
            0 if n > 0 => one(r),
            1 => point(r, Family::Special, 0, n),
            2 if n > 0 => {
                let (a, b) = (one(r), one(r));
                let half = |x: f32, y: f32| x * 0.5 + y * 0.5;
                Point3f::new(half(a.x, b.x), half(a.y, b.y), half(a.z, b.z))
            }
            3 if n > 0 => {
                let a = one(r);
                Point3f::new(a.x * 3.0 + 5.0, a.y * 3.0 - 5.0, a.z * 3.0)
            }
            _ => {
                let i = r.next() as usize % (n + 1);
                point(r, family, i, n + 1)
            }
        }
    }

    fn queries_of(&mut self, r: &mut Rng, family: Family, c: &[Point3f], tree: &KdTree, layout: bool, round: usize) {
        let n = c.len();
        let q = Self::query_point(r, family, c);
        let all = all_distances(c, &q);
        let squares = seen(c, &q, false, layout);
        let roots = seen(c, &q, true, layout);
        let some = all.get(r.below(8).min(n as u32) as usize).copied().unwrap_or(1.0);

        let bound = match r.below(6) {
            1 => some,
            2 => some.next_up(),
            3 => r.special(),
            4 => r.unit(),
            _ => f32::INFINITY,
        };
        self.query(1, &q, bound.to_bits(), None);
        let a = tree.find_nearest_bounded(&q, bound, None);
        let least = all.first().copied().filter(|d| *d < bound);
        self.expect(a.iter().map(|a| a.1.to_bits()), least.iter().map(|d| d.to_bits()));
        self.answer(a.as_slice(), &squares, None);
        self.query(5, &q, 0, None);
        let a = tree.find_nearest_bounded(&q, f32::INFINITY, None);
        self.answer(a.as_slice(), &squares, None);
        // A seed with its own distance, or with any; on an empty tree too.
        let (s, d) = if n == 0 || round % 4 == 3 {
            (r.below(n.max(1) as u32) as usize, r.special())
        } else {
            let s = r.below(n as u32) as usize;
            (s, distance_squared(&c[s], &q))
        };
        self.query(1, &q, bound.to_bits(), Some((s, d)));
        let a = tree.find_nearest_bounded(&q, bound, Some((s, d)));
        self.answer(a.as_slice(), &squares, Some((s, d)).filter(|s| s.1 < bound));

        let k = match r.below(6) {
            0 => 0,
            1 => 1,
            2 => n.min(40),
            3 => n.min(40) + 1,
            _ => 1 + r.below(12) as usize,
        };
        let mut list = Vec::new();
        tree.find_k_nearest_into(&q, k, &mut list);
        let below = all.iter().filter(|d| **d < f32::INFINITY).take(k);
        self.expect(list.iter().map(|e| e.1.to_bits()), below.map(|d| d.to_bits()));
        self.query(2, &q, k as u32, None);
        self.answer(&list, &squares, None);
        self.query(3, &q, k as u32, None);
        self.answer(&tree.find_k_nearest(&q, k), &roots, None);

        let mut radius = match r.below(6) {
            0 => some.sqrt(),
            1 => some.sqrt().next_up(),
            2 => r.special(),
            3 => f32::INFINITY,
            _ => r.unit() * 0.5,
        };
        if n > 100 && all.iter().filter(|d| **d <= radius * radius).count() > 60 {
            radius = all[r.below(20) as usize].sqrt();
        }
        let list = tree.find_radius_neighbors(&q, radius);
        let within = all.iter().filter(|d| radius > 0.0 && **d <= radius * radius);
        self.expect(list.iter().map(|e| e.1.to_bits()), within.map(|d| d.sqrt().to_bits()));
        self.query(4, &q, radius.to_bits(), None);
        self.answer(&list, &roots, None);
    }

    pub fn match_case(&mut self, r: &mut Rng, family: Family, ns: usize, nt: usize) {
        let (s, t) = (cloud(r, family, ns), cloud(r, family, nt));
        let tree = KdTree::new(&t).unwrap();
        let limit = match r.below(6) {
            0 => None,
            1 => Some(r.unit()),
            2 => Some(r.special()),
            // Exactly as far as two of the points are apart.
            3 => Some(distance_squared(&t[0], &s[0]).sqrt()),
            _ => Some(4.0),
        };
        let bound = given::limit(limit);
        let seeds: given::Matches = (0..ns)
            .map(|_| (r.below(2) == 1).then(|| (r.below(nt as u32) as usize, 0.0)))
            .collect();
        let mut m = seeds.clone();
        let first = given::seeded(&s, &t, &tree, &seeds, bound);
        let sums = given::matched(&s, &t, &tree, &mut m, bound);
        let bits = |l: &[Option<(usize, f32)>]| -> Vec<u64> {
            l.iter()
                .map(|e| e.map_or(u64::MAX, |e| (e.0 as u64) << 32 | e.1.to_bits() as u64))
                .collect()
        };
        self.wrong += (bits(&first) != bits(&m)) as u64;
        let own: Vec<bool> = (0..ns)
            .map(|i| {
                m[i].map_or(true, |(j, d)| {
                    seen(&t, &s[i], false, false).get(&d.to_bits()) == Some(&1) || seeds[i].map(|x| x.0) == Some(j)
                })
            })
            .collect();
        let seeds: Vec<u32> = seeds.iter().map(|e| e.map_or(NONE, |e| e.0 as u32)).collect();
        self.matched(limit, &s, &t, &seeds, &m, &own, &sums);
    }

    /// A case of matching: the clouds, the limit and the seeds, the Rust's entries (those that are its `own` are fixed) and sums.
    #[allow(clippy::too_many_arguments)]
    fn matched(
        &mut self,
        limit: Option<f32>,
        s: &[Point3f],
        t: &[Point3f],
        seeds: &[u32],
        m: &[Option<(usize, f32)>],
        own: &[bool],
        sums: &given::Sums,
    ) {
        self.counts.cases += 1;
        self.counts.build += 1;
        self.counts.matching += 1;
        self.words.push(2);
        self.limit(limit);
        self.words.extend([s.len() as u32, t.len() as u32]);
        for p in s.iter().chain(t) {
            self.point(p);
        }
        self.words.extend(seeds);
        for (e, own) in m.iter().zip(own) {
            self.index(*own, e.map_or(NONE, |e| e.0 as u32));
        }
        let pairs = given::pairs(m);
        self.counts.pairs += 1;
        self.value(pairs.len() as u32);
        for (i, j) in pairs {
            self.index(true, i as u32);
            self.index(own[i], j as u32);
        }
        // 01: sums are equal up to 1,024 source points without ties.
        let comparable = s.len() <= 1024 && own.iter().all(|o| *o);
        self.counts.sums += 1;
        self.words.push(comparable as u32);
        self.value(sums.count as u32);
        if comparable {
            self.doubles(&sums.p);
            self.doubles(&sums.q);
            self.doubles(sums.pq.as_flattened());
            self.doubles(&[sums.err]);
            self.counts.mse += 1;
            self.value(sums.mse.to_bits());
        }
    }

    /// Whole coordinates of magnitude at most 32,768, where 01 says that scale and frame equal the Rust's.
    pub fn scale_case(&mut self, r: &mut Rng, n: usize, shift: f32, span: u32) {
        let mut whole = || shift + r.below(2 * span + 1) as f32 - span as f32;
        let mut c: Vec<Point3f> = (0..n)
            .map(|_| {
                let x = whole();
                let y = whole();
                Point3f::new(x, y, whole())
            })
            .collect();
        if n > 3 && r.below(2) == 0 {
            c[1] = Point3f::new(f32::NAN, 1.0, 2.0);
            c[2] = Point3f::new(0.0, f32::INFINITY, 2.0);
        }
        let (s, f) = (CloudScale::of(&c), LocalFrame::if_far_from_origin(&c));
        let centred = LocalFrame::centred_on(&c).origin;
        self.counts.cases += 1;
        self.counts.scale += 1;
        self.counts.centred += 1;
        self.counts.frame += 1;
        self.words.extend([3, n as u32]);
        for p in &c {
            self.point(p);
        }
        self.values(&s.centroid);
        self.value(s.radius.to_bits());
        self.doubles(&[centred.x, centred.y, centred.z]);
        self.value(f.is_some() as u32);
        if let Some(f) = f {
            self.doubles(&[f.origin.x, f.origin.y, f.origin.z]);
            for p in &c {
                self.counts.local += 1;
                self.values(&f.point_to_local(p));
            }
        }
    }

    /// The MSE that a division gives and a product with the reciprocal does not: 49 pairs, error sum 1,644,167,119.
    pub fn quotient_case(&mut self) {
        let errors = [40548.0f32, 163.0, 15.0, 4.0, 2.0, 1.0];
        let t: Vec<Point3f> = (0..49).map(|i| Point3f::new(0.0, 100_000.0 * i as f32, 0.0)).collect();
        let mut s = t.clone();
        for (i, e) in errors.iter().enumerate() {
            s[i].coords.x = *e;
        }
        let total: f64 = errors.iter().map(|e| (*e as f64) * (*e as f64)).sum();
        assert_eq!(total, 1_644_167_119.0);
        let tree = KdTree::new(&t).unwrap();
        let mut m: given::Matches = vec![None; 49];
        let sums = given::matched(&s, &t, &tree, &mut m, f32::INFINITY);
        self.matched(None, &s, &t, &[NONE; 49], &m, &[true; 49], &sums);
    }

    fn limit(&mut self, l: Option<f32>) {
        self.counts.limit += 1;
        self.words.extend([l.is_some() as u32, l.unwrap_or(0.0).to_bits()]);
        self.value(given::limit(l).to_bits());
    }

    pub fn limit_case(&mut self, r: &mut Rng) {
        let drawn: Vec<Option<f32>> = (0..200).map(|_| Some(f32::from_bits(r.next() as u32))).collect();
        let fixed = SPECIAL.iter().map(|b| Some(f32::from_bits(*b)));
        let limits: Vec<Option<f32>> = fixed.chain(drawn).chain([None]).collect();
        self.counts.cases += 1;
        self.words.extend([4, limits.len() as u32]);
        for l in limits {
            self.limit(l);
        }
    }
}
