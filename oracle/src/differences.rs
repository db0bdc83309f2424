//! The rows of docs/DIFFERENCES.md that can be run: the smallest input, the Rust's answer and ours.
//! Rows that hang on how rayon cuts the work show the Rust's answer only where the real crates are linked.
use crate::side::{Op, Side, Tree};
use std::panic::catch_unwind;
use threecrate_algorithms::{
    nearest_neighbor::KdTree,
    registration::{oracle as given, CloudScale, LocalFrame},
};
use threecrate_core::{NearestNeighborSearch, Point3f};

fn flat(c: &[Point3f]) -> Vec<f32> {
    c.iter().flat_map(|p| [p.x, p.y, p.z]).collect()
}

fn row(x: &[f32]) -> Vec<Point3f> {
    x.iter().map(|x| Point3f::new(*x, 0.0, 0.0)).collect()
}

fn layout(c: &[Point3f]) -> Vec<usize> {
    KdTree::new(c).unwrap().flat_nodes().map(|s| s.index).collect()
}

/// Every cloud of n points on the x axis at whole places below n.
fn rows(n: usize) -> impl Iterator<Item = Vec<f32>> {
    (0..n.pow(n as u32)).map(move |i| (0..n).map(|k| (i / n.pow(k as u32) % n) as f32).collect())
}

/// The least number of points at which the slots differ, and the least at which an index of bounded search does.
fn ties(side: &dyn Side) {
    let slots = |x: &Vec<f32>| {
        let c = row(x);
        let t = side.build(&flat(&c));
        let (have, want) = (t.indices.iter().map(|i| *i as usize).collect::<Vec<_>>(), layout(&c));
        (have != want).then(|| println!("slots, x = {x:?}: the Rust {want:?}, here {have:?}"))
    };
    (2..6).find_map(|n| rows(n).find_map(|x| slots(&x)));
    let queries = (-1..10).map(|h| h as f32 * 0.5);
    let nearest = |x: &Vec<f32>, q: f32| {
        let c = row(x);
        let want = KdTree::new(&c)
            .unwrap()
            .find_nearest_bounded(&Point3f::new(q, 0.0, 0.0), f32::INFINITY, None);
        let have = side.nearest(&side.build(&flat(&c)), [q, 0.0, 0.0]);
        let differ = want.map(|a| a.0 as u32) != have.map(|a| a.0);
        differ.then(|| println!("bounded, x = {x:?}, query ({q},0,0): the Rust {want:?}, here {have:?}"))
    };
    (2..6).find_map(|n| rows(n).find_map(|x| queries.clone().find_map(|q| nearest(&x, q))));
}

/// Squares 1 and 1 + 2^-23 have the root 1 both; the farther point is the root of the tree.
fn equal_roots(side: &dyn Side) {
    let c = [Point3f::new(-1.0, 0.000_345_267, 0.0), Point3f::new(1.0, 0.0, 0.0)];
    let q = Point3f::new(0.0, 0.0, 0.0);
    let (tree, ours) = (KdTree::new(&c).unwrap(), side.build(&flat(&c)));
    let mut squares = Vec::new();
    tree.find_k_nearest_into(&q, 2, &mut squares);
    println!("equal roots, squares {squares:?}");
    let (want, have) = (
        tree.find_radius_neighbors(&q, 2.0),
        side.list(&ours, [0.0; 3], Op::Radius(2.0)),
    );
    println!("equal roots, radius 2: the Rust {want:?}, here {have:?}");
    let (want, have) = (tree.find_k_nearest(&q, 2), side.list(&ours, [0.0; 3], Op::Roots(2)));
    println!("equal roots, k = 2: the Rust {want:?}, here {have:?}");
}

/// x = 2^53 first, and 1 at two later places, matched with one target point at the origin.
fn runs(side: &dyn Side, n: usize, ones: [usize; 2]) {
    let mut s = vec![Point3f::new(0.0, 0.0, 0.0); n];
    s[0].coords.x = 9_007_199_254_740_992.0;
    ones.iter().for_each(|i| s[*i].coords.x = 1.0);
    let t = [Point3f::new(0.0, 0.0, 0.0)];
    let tree = KdTree::new(&t).unwrap();
    let mut m: given::Matches = vec![None; n];
    let matched = given::matched(&s, &t, &tree, &mut m, f32::INFINITY).p[0];
    let collected = given::collected(&s, &t, &m).p[0];
    let here = side.sums(&flat(&s), &flat(&t), &vec![0; n]).values[0];
    println!("sums of {n}, 2^53 and 1 at {ones:?}: the Rust's match_and_collect {matched}, its collect {collected}, here {here}");
}

fn centre(side: &dyn Side, x: [f32; 3]) {
    let c = row(&x);
    let (want, have) = (LocalFrame::centred_on(&c).origin.x, side.scale(&flat(&c)).centred[0]);
    println!("centred frame of x = {x:?}: the Rust {want}, here {have}");
    let (want, have) = (CloudScale::of(&c), side.scale(&flat(&c)));
    println!(
        "scale of the same: the Rust {:?}, here {:?}",
        (want.centroid.x, want.radius),
        (have.centroid[0], have.radius)
    );
}

fn panics(what: &str, f: impl FnOnce() + std::panic::UnwindSafe) -> &str {
    if catch_unwind(f).is_err() {
        "panics"
    } else {
        what
    }
}

/// Where the Rust panics, or takes what is refused here.
fn refusals() {
    let one = row(&[0.0]);
    let none: &[Point3f] = &[];
    let tree = || KdTree::new(&row(&[0.0])).unwrap();
    println!(
        "an empty cloud: the Rust {} slots; two points: {}",
        layout(none).len(),
        layout(&row(&[0.0, 0.0])).len()
    );
    println!(
        "a seed 1 for one target point: the Rust {}",
        panics("answers", || {
            given::seeded(&row(&[0.0]), &row(&[0.0]), &tree(), &[Some((1, 0.0))], f32::INFINITY);
        })
    );
    println!(
        "a match entry 1 for one target point: the Rust {}",
        panics("answers", || {
            given::collected(&row(&[0.0]), &row(&[0.0]), &[Some((1, 0.0))]);
        })
    );
    println!(
        "no entry for one source point: the Rust {:?}",
        given::seeded(&one, &one, &tree(), &[], f32::INFINITY)
    );
    println!(
        "an empty source: the Rust {:?}",
        given::seeded(none, &one, &tree(), &[], f32::INFINITY)
    );
    let empty = KdTree::new(none).unwrap();
    println!(
        "an empty target: the Rust {:?}",
        given::seeded(&one, none, &empty, &[None], f32::INFINITY)
    );
    println!(
        "k nearest with k = 2^64 - 1: the Rust {}",
        panics("answers", || {
            tree().find_k_nearest(&Point3f::new(0.0, 0.0, 0.0), usize::MAX);
        })
    );
    let many = row(&vec![0.0; 1_048_577]);
    println!("1,048,577 points: the Rust {} slots", layout(&many).len());
    #[cfg(linked)]
    crate::ours::refusals(&flat(&many));
}

fn shapes(side: &dyn Side) {
    let k =
        [[1.0, 0.0, 0.0], [0.0, 0.0, 0.0], [2.0, 0.0, 0.0], [0.0, 5.0, 0.0]].map(|p| Point3f::new(p[0], p[1], p[2]));
    let s = [Point3f::new(1.0, 1.0, 0.0)];
    let tree = KdTree::new(&k).unwrap();
    let want = given::seeded(&s, &k, &tree, &[None], f32::INFINITY);
    let t: Tree = side.build(&flat(&k));
    let mut have = [u32::MAX];
    side.matched(&flat(&s), &flat(&k), &t, None, &mut have);
    println!("matching (1,1,0) with K: the Rust {want:?}, here {have:?}");
    let p = Point3f::new(f32::from_bits(0xffc0_0001), 0.0, 0.0);
    let want = LocalFrame::centred_on(&row(&[0.0])).point_to_local(&p).x.to_bits();
    let have = side.local([0.0; 3], [p.x, p.y, p.z])[0].to_bits();
    println!("the local point of (NaN,0,0), the NaN ffc00001: the Rust {want:08x}, here {have:08x}");
    let p = Point3f::new(-0.0, f32::INFINITY, 1.0);
    let moved = threecrate_core::Isometry3::identity() * p;
    println!(
        "the identity moves (-0, inf, 1) to ({:?}, {:?}, {:?})",
        moved.x, moved.y, moved.z
    );
}

pub fn show(side: &dyn Side) {
    std::panic::set_hook(Box::new(|_| ()));
    ties(side);
    equal_roots(side);
    runs(side, 1025, [512, 1024]);
    runs(side, 514, [512, 513]);
    centre(side, [9_007_199_254_740_992.0, 1.0, -9_007_199_254_740_992.0]);
    refusals();
    shapes(side);
}
