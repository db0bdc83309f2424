// ---- appended by the oracle's build; everything above is the given text, byte for byte ----
pub mod oracle {
    use super::*;

    pub type Matches = Vec<Option<(usize, f32)>>;

    pub struct Sums {
        pub count: usize,
        pub p: [f64; 3],
        pub q: [f64; 3],
        pub pq: [[f64; 3]; 3],
        pub err: f64,
        pub mse: f32,
    }

    impl Sums {
        fn of(s: CorrespondenceStats) -> Self {
            let (a, b, o) = (s.sum_source, s.sum_target, s.sum_outer);
            let mut pq = [[0.0; 3]; 3];
            for i in 0..3 {
                for j in 0..3 {
                    pq[i][j] = o[(i, j)];
                }
            }
            Sums {
                count: s.count,
                p: [a.x, a.y, a.z],
                q: [b.x, b.y, b.z],
                pq,
                err: s.sum_sq_error,
                mse: s.mse(),
            }
        }
    }

    pub fn limit(d: Option<f32>) -> f32 {
        max_distance_sq(d)
    }

    pub fn seeded(s: &[Point3f], t: &[Point3f], tree: &KdTree, prev: &[Option<(usize, f32)>], b: f32) -> Matches {
        find_correspondences_seeded(s, &Isometry3::identity(), t, tree, prev, b)
    }

    pub fn matched(s: &[Point3f], t: &[Point3f], tree: &KdTree, m: &mut [Option<(usize, f32)>], b: f32) -> Sums {
        Sums::of(match_and_collect(s, &Isometry3::identity(), t, tree, m, b))
    }

    pub fn collected(s: &[Point3f], t: &[Point3f], m: &[Option<(usize, f32)>]) -> Sums {
        Sums::of(CorrespondenceStats::collect(s, &Isometry3::identity(), t, m))
    }

    pub fn pairs(m: &[Option<(usize, f32)>]) -> Vec<(usize, usize)> {
        correspondence_pairs(m)
    }
}
