//! Replays a stream of cases through a side and compares by bits, NaN as a class.
use crate::cases::{Counts, ANY, MAGIC, NONE};
use crate::side::{Op, Side, Tree};

#[derive(Default)]
pub struct Report {
    /// What was read and compared, counted here and not taken from the stream.
    pub counts: Counts,
    pub differ: u64,
    pub first: Option<String>,
}

impl Report {
    pub fn add(&mut self, o: Report) {
        self.counts.add(&o.counts);
        self.differ += o.differ;
        if self.first.is_none() {
            self.first = o.first;
        }
    }
}

struct Reader<'a> {
    words: &'a [u32],
    at: usize,
    report: Report,
    place: String,
}

impl Reader<'_> {
    fn word(&mut self) -> u32 {
        self.at += 1;
        self.words[self.at - 1]
    }

    fn float(&mut self) -> f32 {
        f32::from_bits(self.word())
    }

    fn floats(&mut self, n: u32) -> Vec<f32> {
        (0..n).map(|_| self.float()).collect()
    }

    fn fault(&mut self, what: &str, have: u64, want: u64) {
        self.report.differ += 1;
        if self.report.first.is_none() {
            self.report.first = Some(format!("{}: {what}: {have:x}, the Rust has {want:x}", self.place));
        }
    }

    fn same_word(&mut self, what: &str, have: u32) {
        let want = self.word();
        self.report.counts.values += 1;
        if want != have {
            self.fault(what, have as u64, want as u64);
        }
    }

    fn same_index(&mut self, what: &str, have: u32) {
        let want = self.word();
        if want != ANY {
            self.report.counts.indices += 1;
            if want != have {
                self.fault(what, have as u64, want as u64);
            }
        }
    }

    fn same_float(&mut self, what: &str, have: f32) {
        let want = self.float();
        self.report.counts.values += 1;
        if have.to_bits() != want.to_bits() && !(have.is_nan() && want.is_nan()) {
            self.fault(what, have.to_bits() as u64, want.to_bits() as u64);
        }
    }

    fn same_double(&mut self, what: &str, have: f64) {
        let want = f64::from_bits(self.word() as u64 | (self.word() as u64) << 32);
        self.report.counts.values += 1;
        if have.to_bits() != want.to_bits() && !(have.is_nan() && want.is_nan()) {
            self.fault(what, have.to_bits(), want.to_bits());
        }
    }

    fn tree(&mut self, side: &dyn Side) {
        let (layout, queries, n) = (self.word(), self.word(), self.word());
        let cloud = self.floats(3 * n);
        self.report.counts.build += 1;
        let tree = side.build(&cloud);
        self.report.counts.is_tree_of += 1;
        self.same_word("slots", tree.indices.len() as u32);
        if layout == 1 {
            for s in &tree.indices {
                self.same_index("slot", *s);
            }
        }
        for _ in 0..queries {
            self.query(side, &tree);
        }
    }

    fn query(&mut self, side: &dyn Side, tree: &Tree) {
        let op = self.word();
        let q = [self.float(), self.float(), self.float()];
        let (arg, seed, distance) = (self.word(), self.word(), self.float());
        let c = &mut self.report.counts;
        let (count, list) = match op {
            1 => {
                let seed = (seed != NONE).then_some((seed, distance));
                let a = side.bounded(tree, q, f32::from_bits(arg), seed);
                (&mut c.bounded, a.into_iter().collect())
            }
            2 => (&mut c.k_squares, side.list(tree, q, Op::Squares(arg))),
            3 => (&mut c.k_roots, side.list(tree, q, Op::Roots(arg))),
            4 => (&mut c.radius, side.list(tree, q, Op::Radius(f32::from_bits(arg)))),
            _ => (&mut c.nearest, side.nearest(tree, q).into_iter().collect()),
        };
        *count += 1;
        let entries = self.words[self.at];
        self.same_word("entries", list.len() as u32);
        for i in 0..entries as usize {
            let (index, d) = list.get(i).copied().unwrap_or((NONE, f32::NAN));
            self.same_index("index", index);
            self.same_float("distance", d);
        }
    }

    fn limit(&mut self, side: &dyn Side) -> Option<f32> {
        let limited = self.word();
        let d = self.float();
        let limit = (limited == 1).then_some(d);
        self.report.counts.limit += 1;
        self.same_float("bound", side.limit(limit));
        limit
    }

    fn matching(&mut self, side: &dyn Side) {
        let limit = self.limit(side);
        let (ns, nt) = (self.word(), self.word());
        let source = self.floats(3 * ns);
        let target = self.floats(3 * nt);
        let mut matches: Vec<u32> = (0..ns).map(|_| self.word()).collect();
        self.report.counts.build += 1;
        let tree = side.build(&target);
        self.report.counts.matching += 1;
        side.matched(&source, &target, &tree, limit, &mut matches);
        for m in &matches {
            self.same_index("match", *m);
        }
        self.report.counts.pairs += 1;
        let pairs = side.pairs(&matches);
        let listed = self.words[self.at];
        self.same_word("pairs", pairs.len() as u32);
        for i in 0..listed as usize {
            let (s, t) = pairs.get(i).copied().unwrap_or((NONE, NONE));
            self.same_index("pair's source", s);
            self.same_index("pair's target", t);
        }
        let comparable = self.word() == 1;
        self.report.counts.sums += 1;
        let sums = side.sums(&source, &target, &matches);
        self.same_word("count", sums.count);
        if comparable {
            for v in sums.values {
                self.same_double("sum", v);
            }
            self.report.counts.mse += 1;
            self.same_float("mse", sums.mse);
        }
    }

    fn scale(&mut self, side: &dyn Side) {
        let n = self.word();
        let cloud = self.floats(3 * n);
        let s = side.scale(&cloud);
        let c = &mut self.report.counts;
        c.scale += 1;
        c.centred += 1;
        c.frame += 1;
        for c in s.centroid {
            self.same_float("centroid", c);
        }
        self.same_float("radius", s.radius);
        for o in s.centred {
            self.same_double("centre", o);
        }
        let frame = self.words[self.at];
        self.same_word("frame", s.origin.is_some() as u32);
        if frame == 1 {
            let origin = s.origin.unwrap_or([f64::NAN; 3]);
            for o in origin {
                self.same_double("origin", o);
            }
            for p in cloud.chunks(3) {
                self.report.counts.local += 1;
                for c in side.local(origin, [p[0], p[1], p[2]]) {
                    self.same_float("local", c);
                }
            }
        }
    }

    fn limits(&mut self, side: &dyn Side) {
        for _ in 0..self.word() {
            self.limit(side);
        }
    }
}

pub fn replay(words: &[u32], side: &dyn Side) -> Report {
    let mut r = Reader {
        words,
        at: 0,
        report: Report::default(),
        place: String::new(),
    };
    assert_eq!(r.word(), MAGIC);
    let cases = r.word();
    for case in 0..cases {
        let kind = r.word();
        r.place = format!("case {case} of kind {kind}");
        match kind {
            1 => r.tree(side),
            2 => r.matching(side),
            3 => r.scale(side),
            _ => r.limits(side),
        }
        r.report.counts.cases += 1;
    }
    assert_eq!(r.at, words.len(), "the stream was read to its end");
    r.report
}
