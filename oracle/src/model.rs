//! The rules written out plainly, with faults that can be switched on: what the comparison must notice.
use crate::cases::NONE;
use crate::side::{Op, Scale, Side, Sums, Tree};

#[derive(Clone, Copy, PartialEq, Debug)]
pub enum Fault {
    None,
    /// A far part is never entered.
    FarNever,
    /// A far part is judged by |a| instead of a·a.
    PlaneUnsquared,
    /// A node at the same distance replaces the best.
    NotStrict,
    /// A seed at the bound is kept.
    SeedAtBound,
    /// The near side is left only for a < 0.
    NearByLess,
    /// A new entry goes before those at the same distance.
    TiesReversed,
    /// The (k - 1)-th distance bounds the k nearest.
    OneFewerHeld,
    /// A point at exactly the radius is left out.
    RadiusStrict,
    /// Squares handed out where roots are due.
    NoRoots,
    /// The median is one rank up.
    MedianUp,
    /// The bound is d·d.
    NoNextUp,
    /// Runs of 511.
    ShortRuns,
    /// One long sum.
    OneRun,
    /// x·x + (y·y + z·z)
    OtherAssociation,
    /// Products fused into the sum.
    Fused,
    /// MSE by the reciprocal of the count.
    Reciprocal,
    /// Non-finite points are counted.
    CountsAll,
    /// A frame exists unless the norm < 100·radius.
    FrameStrict,
    /// origin - p
    LocalReversed,
}

pub const FAULTS: [Fault; 19] = [
    Fault::FarNever,
    Fault::PlaneUnsquared,
    Fault::NotStrict,
    Fault::SeedAtBound,
    Fault::NearByLess,
    Fault::TiesReversed,
    Fault::OneFewerHeld,
    Fault::RadiusStrict,
    Fault::NoRoots,
    Fault::MedianUp,
    Fault::NoNextUp,
    Fault::ShortRuns,
    Fault::OneRun,
    Fault::OtherAssociation,
    Fault::Fused,
    Fault::Reciprocal,
    Fault::CountsAll,
    Fault::FrameStrict,
    Fault::LocalReversed,
];

pub struct Model(pub Fault);

fn finite(p: &[f32]) -> bool {
    p.iter().all(|c| c.is_finite())
}

/// What a search holds: the best alone, or the entries so far.
struct Held {
    k: usize,
    bound: f32,
    entries: Vec<(u32, f32)>,
    limit: f32,
}

impl Model {
    fn is(&self, f: Fault) -> bool {
        self.0 == f
    }

    fn distance(&self, p: &[f32], q: [f32; 3]) -> f32 {
        let (x, y, z) = (p[0] - q[0], p[1] - q[1], p[2] - q[2]);
        if self.is(Fault::OtherAssociation) {
            x * x + (y * y + z * z)
        } else if self.is(Fault::Fused) {
            z.mul_add(z, y.mul_add(y, x * x))
        } else {
            (x * x + y * y) + z * z
        }
    }

    fn grow(&self, cloud: &[f32], group: &mut [u32], axis: usize, out: &mut Vec<u32>) {
        if group.is_empty() {
            return;
        }
        group.sort_by(|a, b| {
            let (x, y) = (cloud[3 * *a as usize + axis], cloud[3 * *b as usize + axis]);
            x.total_cmp(&y).then(a.cmp(b))
        });
        let mut k = (group.len() - 1) / 2;
        if self.is(Fault::MedianUp) {
            k = group.len() / 2;
        }
        out.push(group[k]);
        let (left, right) = group.split_at_mut(k);
        self.grow(cloud, left, (axis + 1) % 3, out);
        self.grow(cloud, &mut right[1..], (axis + 1) % 3, out);
    }

    fn enters(&self, a: f32, h: &Held) -> bool {
        let plane = if self.is(Fault::PlaneUnsquared) { a.abs() } else { a * a };
        if self.is(Fault::FarNever) {
            false
        } else if h.k == 0 {
            plane <= h.limit
        } else {
            plane < self.bound(h)
        }
    }

    fn bound(&self, h: &Held) -> f32 {
        let held = h.k - (self.is(Fault::OneFewerHeld) && h.k > 1) as usize;
        h.entries.get(held - 1).map_or(h.bound, |e| e.1)
    }

    fn visit(&self, i: u32, d: f32, h: &mut Held) {
        let taken = if h.k == 0 {
            d < h.limit || d == h.limit && !self.is(Fault::RadiusStrict)
        } else {
            d < self.bound(h) || self.is(Fault::NotStrict) && d == self.bound(h) && !h.entries.is_empty()
        };
        if taken {
            let before = |e: &(u32, f32)| {
                if self.is(Fault::TiesReversed) {
                    e.1 < d
                } else {
                    e.1 <= d
                }
            };
            let at = h.entries.partition_point(before);
            h.entries
                .insert(if self.is(Fault::NotStrict) && h.k == 1 { 0 } else { at }, (i, d));
            if h.k > 0 {
                h.entries.truncate(h.k);
            }
        }
    }

    fn walk(&self, t: &Tree, q: [f32; 3], at: usize, len: usize, axis: usize, h: &mut Held) {
        if len == 0 {
            return;
        }
        let p = &t.coords[3 * at..3 * at + 3];
        self.visit(t.indices[at], self.distance(p, q), h);
        let k = (len - 1) / 2;
        let (left, right) = ((at + 1, k), (at + 1 + k, len - 1 - k));
        let a = q[axis] - p[axis];
        let near_left = if self.is(Fault::NearByLess) { a < 0.0 } else { a <= 0.0 };
        let (near, far) = if near_left { (left, right) } else { (right, left) };
        self.walk(t, q, near.0, near.1, (axis + 1) % 3, h);
        if self.enters(a, h) {
            self.walk(t, q, far.0, far.1, (axis + 1) % 3, h);
        }
    }
}

impl Side for Model {
    fn build(&self, cloud: &[f32]) -> Tree {
        let n = cloud.len() / 3;
        let mut group: Vec<u32> = (0..n as u32)
            .filter(|i| finite(&cloud[3 * *i as usize..][..3]))
            .collect();
        let mut indices = Vec::new();
        self.grow(cloud, &mut group, 0, &mut indices);
        let coords = indices
            .iter()
            .flat_map(|i| cloud[3 * *i as usize..][..3].to_vec())
            .collect();
        Tree { coords, indices }
    }

    fn bounded(&self, t: &Tree, q: [f32; 3], bound: f32, seed: Option<(u32, f32)>) -> Option<(u32, f32)> {
        let kept = seed.filter(|s| s.1 < bound || self.is(Fault::SeedAtBound) && s.1 == bound);
        let mut h = Held {
            k: 1,
            bound,
            entries: kept.into_iter().collect(),
            limit: 0.0,
        };
        self.walk(t, q, 0, t.indices.len(), 0, &mut h);
        h.entries.first().copied()
    }

    fn nearest(&self, t: &Tree, q: [f32; 3]) -> Option<(u32, f32)> {
        self.bounded(t, q, f32::INFINITY, None)
    }

    fn list(&self, t: &Tree, q: [f32; 3], op: Op) -> Vec<(u32, f32)> {
        let (k, limit) = match op {
            Op::Squares(k) | Op::Roots(k) => (k as usize, 0.0),
            Op::Radius(r) => (0, r * r),
        };
        let mut h = Held {
            k,
            bound: f32::INFINITY,
            entries: Vec::new(),
            limit,
        };
        match op {
            Op::Squares(0) | Op::Roots(0) => return Vec::new(),
            Op::Radius(r) if !(r > 0.0) => return Vec::new(),
            _ => self.walk(t, q, 0, t.indices.len(), 0, &mut h),
        }
        if !matches!(op, Op::Squares(_)) && !self.is(Fault::NoRoots) {
            h.entries.iter_mut().for_each(|e| e.1 = e.1.sqrt());
        }
        h.entries
    }

    fn limit(&self, d: Option<f32>) -> f32 {
        match d {
            Some(d) if d < 0.0 => 0.0,
            Some(d) if d >= 0.0 && self.is(Fault::NoNextUp) => d * d,
            Some(d) if d >= 0.0 => (d * d).next_up(),
            _ => f32::INFINITY,
        }
    }

    fn matched(&self, source: &[f32], target: &[f32], t: &Tree, limit: Option<f32>, matches: &mut [u32]) {
        let bound = self.limit(limit);
        for (p, m) in source.chunks(3).zip(matches) {
            let q = [p[0], p[1], p[2]];
            let seed = (*m != NONE).then(|| (*m, self.distance(&target[3 * *m as usize..][..3], q)));
            *m = self.bounded(t, q, bound, seed).map_or(NONE, |a| a.0);
        }
    }

    fn pairs(&self, matches: &[u32]) -> Vec<(u32, u32)> {
        let all = matches.iter().enumerate().map(|(i, m)| (i as u32, *m));
        all.filter(|p| p.1 != NONE).collect()
    }

    fn sums(&self, source: &[f32], target: &[f32], matches: &[u32]) -> Sums {
        let run_length = match self.0 {
            Fault::ShortRuns => 511,
            Fault::OneRun => usize::MAX,
            _ => 512,
        };
        let (mut total, mut run, mut count) = ([0.0f64; 16], [0.0f64; 16], 0u32);
        for (i, m) in matches.iter().enumerate() {
            if *m != NONE {
                count += 1;
                let p: Vec<f64> = source[3 * i..][..3].iter().map(|c| *c as f64).collect();
                let q: Vec<f64> = target[3 * *m as usize..][..3].iter().map(|c| *c as f64).collect();
                for a in 0..3 {
                    run[a] += p[a];
                    run[3 + a] += q[a];
                    for b in 0..3 {
                        run[6 + 3 * a + b] += p[a] * q[b];
                    }
                }
                let (x, y, z) = (p[0] - q[0], p[1] - q[1], p[2] - q[2]);
                run[15] += if self.is(Fault::Fused) {
                    z.mul_add(z, y.mul_add(y, x * x))
                } else if self.is(Fault::OtherAssociation) {
                    x * x + (y * y + z * z)
                } else {
                    (x * x + y * y) + z * z
                };
            }
            if (i + 1) % run_length == 0 || i + 1 == matches.len() {
                total.iter_mut().zip(&mut run).for_each(|(t, r)| {
                    *t += *r;
                    *r = 0.0;
                });
            }
        }
        let n = count as f64;
        let mse = if count == 0 {
            0.0
        } else if self.is(Fault::Reciprocal) {
            (total[15] * (1.0 / n)) as f32
        } else {
            (total[15] / n) as f32
        };
        Sums {
            count,
            values: total,
            mse,
        }
    }

    fn scale(&self, cloud: &[f32]) -> Scale {
        let (mut s, mut sq, mut n) = ([0.0f64; 3], 0.0f64, 0u32);
        for p in cloud.chunks(3) {
            n += self.is(Fault::CountsAll) as u32;
            if finite(p) {
                let v: Vec<f64> = p.iter().map(|c| *c as f64).collect();
                (0..3).for_each(|a| s[a] += v[a]);
                sq += (v[0] * v[0] + v[1] * v[1]) + v[2] * v[2];
                n += !self.is(Fault::CountsAll) as u32;
            }
        }
        let n = n.max(1) as f64;
        let c = s.map(|v| v / n);
        let spread = sq / n - ((c[0] * c[0] + c[1] * c[1]) + c[2] * c[2]);
        let radius = if spread > 0.0 { spread } else { 0.0 }.sqrt() as f32;
        let centroid = c.map(|v| v as f32);
        let [x, y, z] = centroid;
        let norm = ((x * x + y * y) + z * z).sqrt();
        let near = if self.is(Fault::FrameStrict) {
            norm < 100.0 * radius
        } else {
            norm <= 100.0 * radius
        };
        Scale {
            centroid,
            radius,
            centred: c,
            origin: (!near).then_some(c),
        }
    }

    fn local(&self, origin: [f64; 3], p: [f32; 3]) -> [f32; 3] {
        std::array::from_fn(|a| {
            if self.is(Fault::LocalReversed) {
                (origin[a] - p[a] as f64) as f32
            } else {
                (p[a] as f64 - origin[a]) as f32
            }
        })
    }
}
