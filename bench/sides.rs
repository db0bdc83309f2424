//! The three that are measured. Each answers with the sum of the distances that it found, in the order of queries and lists.
use ongdhuse::{CorrespondenceStats, Slots, NONE};
use std::ffi::c_void;
use threecrate_algorithms::nearest_neighbor::KdTree;
use threecrate_algorithms::registration::oracle;
use threecrate_core::{NearestNeighborSearch, Point3f};

/// A cloud in both forms: three numbers to a point, and the Rust's points.
pub struct Cloud {
    pub flat: Vec<f32>,
    pub points: Vec<Point3f>,
}

impl Cloud {
    pub fn new(points: Vec<[f32; 3]>) -> Cloud {
        Cloud {
            flat: points.concat(),
            points: points.iter().map(|p| Point3f::new(p[0], p[1], p[2])).collect(),
        }
    }
}

pub trait Side {
    /// Before the clock runs: lends what is written to, and drops the tree before it is built anew.
    fn ready(&mut self, cloud: &Cloud, queries: &Cloud, anew: bool);
    fn build(&mut self, cloud: &Cloud);
    /// Squared distances.
    fn nearest(&mut self, queries: &Cloud) -> f64;
    /// Squared distances.
    fn k_nearest(&mut self, queries: &Cloud, k: usize) -> f64;
    /// Distances.
    fn radius(&mut self, queries: &Cloud, radius: f32) -> f64;
    /// Squared errors. The other fifteen sums are computed too.
    fn matching(&mut self, source: &Cloud, target: &Cloud) -> f64;
}

fn queries(cloud: &Cloud) -> impl Iterator<Item = [f32; 3]> + '_ {
    cloud.flat.chunks_exact(3).map(|q| [q[0], q[1], q[2]])
}

/// The proved library. The caller lends every list.
#[derive(Default)]
pub struct Proved {
    coords: Vec<f32>,
    indices: Vec<u32>,
    slots: usize,
    out_indices: Vec<u32>,
    out_distances: Vec<f32>,
    matches: Vec<u32>,
}

impl Proved {
    fn tree(&self) -> Slots<'_> {
        Slots {
            coords: &self.coords[..3 * self.slots],
            indices: &self.indices[..self.slots],
        }
    }
}

impl Side for Proved {
    fn ready(&mut self, cloud: &Cloud, queries: &Cloud, anew: bool) {
        let n = cloud.points.len();
        if anew {
            (self.coords, self.indices) = (vec![1.0; 3 * n], vec![1; n]);
        }
        self.out_indices.resize(n, 0);
        self.out_distances.resize(n, 0.0);
        self.matches = vec![NONE; queries.points.len()];
    }

    fn build(&mut self, cloud: &Cloud) {
        self.slots = ongdhuse::build(&cloud.flat, &mut self.coords, &mut self.indices).unwrap();
    }

    fn nearest(&mut self, q: &Cloud) -> f64 {
        let tree = self.tree();
        let squares = queries(q).filter_map(|q| tree.find_nearest(q).unwrap());
        squares.map(|found| f64::from(found.distance_sq)).sum()
    }

    fn k_nearest(&mut self, q: &Cloud, k: usize) -> f64 {
        let (mut indices, mut squares) = (vec![0; k], vec![0.0; k]);
        let mut sum = 0.0;
        for q in queries(q) {
            let tree = self.tree();
            let count = tree
                .find_k_nearest_into(q, k as u32, &mut indices, &mut squares)
                .unwrap();
            squares[..count].iter().for_each(|d| sum += f64::from(*d));
        }
        sum
    }

    fn radius(&mut self, q: &Cloud, radius: f32) -> f64 {
        let mut sum = 0.0;
        let (mut indices, mut distances) = (
            std::mem::take(&mut self.out_indices),
            std::mem::take(&mut self.out_distances),
        );
        for q in queries(q) {
            let tree = self.tree();
            let count = tree
                .find_radius_neighbors_into(q, radius, &mut indices, &mut distances)
                .unwrap();
            distances[..count].iter().for_each(|d| sum += f64::from(*d));
        }
        (self.out_indices, self.out_distances) = (indices, distances);
        sum
    }

    fn matching(&mut self, source: &Cloud, target: &Cloud) -> f64 {
        let mut matches = std::mem::take(&mut self.matches);
        ongdhuse::matching(&source.flat, &target.flat, self.tree(), None, &mut matches).unwrap();
        let sums = CorrespondenceStats::collect(&source.flat, &target.flat, &matches).unwrap();
        self.matches = matches;
        sums.sum_sq_error
    }
}

/// The given Rust, as it stands, with a sequential stand-in for rayon.
#[derive(Default)]
pub struct Given {
    tree: Option<KdTree>,
    matches: oracle::Matches,
}

impl Given {
    fn tree(&self) -> &KdTree {
        self.tree.as_ref().expect("built")
    }
}

impl Side for Given {
    fn ready(&mut self, _: &Cloud, queries: &Cloud, anew: bool) {
        if anew {
            self.tree = None;
        }
        self.matches = vec![None; queries.points.len()];
    }

    fn build(&mut self, cloud: &Cloud) {
        self.tree = Some(KdTree::new(&cloud.points).unwrap());
    }

    fn nearest(&mut self, q: &Cloud) -> f64 {
        let squares = q
            .points
            .iter()
            .filter_map(|q| self.tree().find_nearest_bounded(q, f32::INFINITY, None));
        squares.map(|(_, d)| f64::from(d)).sum()
    }

    fn k_nearest(&mut self, q: &Cloud, k: usize) -> f64 {
        let (mut out, mut sum) = (Vec::with_capacity(k), 0.0);
        for q in &q.points {
            self.tree().find_k_nearest_into(q, k, &mut out);
            out.iter().for_each(|(_, d)| sum += f64::from(*d));
        }
        sum
    }

    fn radius(&mut self, q: &Cloud, radius: f32) -> f64 {
        let mut sum = 0.0;
        for q in &q.points {
            let out = self.tree().find_radius_neighbors(q, radius);
            out.iter().for_each(|(_, d)| sum += f64::from(*d));
        }
        sum
    }

    fn matching(&mut self, source: &Cloud, target: &Cloud) -> f64 {
        let mut matches = std::mem::take(&mut self.matches);
        let sums = oracle::matched(&source.points, &target.points, self.tree(), &mut matches, f32::INFINITY);
        self.matches = matches;
        sums.err
    }
}

extern "C" {
    fn nanoflann_build(cloud: *const f32, count: usize) -> *mut c_void;
    fn nanoflann_drop(tree: *mut c_void);
    fn nanoflann_k_nearest(tree: *const c_void, queries: *const f32, count: usize, k: usize) -> f64;
    fn nanoflann_radius(tree: *mut c_void, queries: *const f32, count: usize, radius: f32) -> f64;
    fn nanoflann_match(tree: *const c_void, source: *const f32, count: usize, matches: *mut u32, out: *mut f64) -> f64;
}

/// nanoflann, by its shim. Its tree refers to the cloud, which outlives it.
pub struct Nanoflann {
    tree: *mut c_void,
    matches: Vec<u32>,
}

impl Default for Nanoflann {
    fn default() -> Nanoflann {
        Nanoflann {
            tree: std::ptr::null_mut(),
            matches: Vec::new(),
        }
    }
}

impl Side for Nanoflann {
    fn ready(&mut self, _: &Cloud, queries: &Cloud, anew: bool) {
        if anew {
            unsafe { nanoflann_drop(self.tree) };
            self.tree = std::ptr::null_mut();
        }
        self.matches = vec![NONE; queries.points.len()];
    }

    fn build(&mut self, cloud: &Cloud) {
        self.tree = unsafe { nanoflann_build(cloud.flat.as_ptr(), cloud.points.len()) };
    }

    fn nearest(&mut self, q: &Cloud) -> f64 {
        self.k_nearest(q, 1)
    }

    fn k_nearest(&mut self, q: &Cloud, k: usize) -> f64 {
        unsafe { nanoflann_k_nearest(self.tree, q.flat.as_ptr(), q.points.len(), k) }
    }

    fn radius(&mut self, q: &Cloud, radius: f32) -> f64 {
        unsafe { nanoflann_radius(self.tree, q.flat.as_ptr(), q.points.len(), radius) }
    }

    fn matching(&mut self, source: &Cloud, _: &Cloud) -> f64 {
        let (mut matches, mut sums) = (std::mem::take(&mut self.matches), [0.0; 16]);
        let count = source.points.len();
        let error = unsafe {
            nanoflann_match(
                self.tree,
                source.flat.as_ptr(),
                count,
                matches.as_mut_ptr(),
                sums.as_mut_ptr(),
            )
        };
        self.matches = matches;
        error
    }
}
