//! The library, called from Rust: the marked examples, each refusal, and that a refusal or an empty answer leaves what was lent as it was.
use ongdhuse::*;

/// Points 0 (1,0,0), 1 (0,0,0), 2 (2,0,0), 3 (0,5,0).
const K: [f32; 12] = [1.0, 0.0, 0.0, 0.0, 0.0, 0.0, 2.0, 0.0, 0.0, 0.0, 5.0, 0.0];

fn found(index: u32, distance_sq: f32) -> Result<Option<Nearest>, Refusal> {
    Ok(Some(Nearest { index, distance_sq }))
}

#[test]
fn marked_examples() {
    let tree = Tree::build(&K).unwrap();
    let t = tree.slots();
    assert_eq!(t.indices, [3, 1, 0, 2]);
    assert_eq!(t.is_tree_of(&K), Ok(true));
    let (q, half) = ([1.0, 1.0, 0.0], [0.5, 0.0, 0.0]);
    assert_eq!(t.find_nearest_bounded(q, f32::INFINITY, None), found(0, 1.0));
    assert_eq!(t.find_nearest_bounded(q, 1.0, None), Ok(None));
    assert_eq!(
        t.find_nearest_bounded(q, max_distance_sq(Some(1.0)), None),
        found(0, 1.0)
    );
    assert_eq!(t.find_nearest(half), found(0, 0.25));
    let seed = Nearest {
        index: 1,
        distance_sq: 0.25,
    };
    assert_eq!(t.find_nearest_bounded(half, f32::INFINITY, Some(seed)), found(1, 0.25));
    assert_eq!(t.find_nearest([f32::NAN, 0.0, 0.0]), Ok(None));
    let (mut indices, mut squares) = ([9; 5], [9.0; 5]);
    assert_eq!(t.find_k_nearest_into(q, 4, &mut indices, &mut squares), Ok(4));
    assert_eq!((indices, squares), ([0, 2, 1, 3, 9], [1.0, 2.0, 2.0, 17.0, 9.0]));
    assert_eq!(
        t.find_k_nearest(q, 2)
            .unwrap()
            .iter()
            .map(|n| (n.index, n.distance))
            .collect::<Vec<_>>(),
        [(0, 1.0), (2, 2f32.sqrt())]
    );
    assert_eq!(t.find_k_nearest(q, 0), Ok(vec![]));
    let within = |r| {
        t.find_radius_neighbors(q, r)
            .unwrap()
            .iter()
            .map(|n| n.index)
            .collect::<Vec<_>>()
    };
    assert_eq!(
        (within(1.5), within(1.0), within(0.0)),
        (vec![0, 2, 1], vec![0], vec![])
    );
    assert_eq!(max_distance_sq(Some(0.0)).to_bits(), 1);
    assert_eq!(max_distance_sq(Some(-1.0)), 0.0);
    assert_eq!(max_distance_sq(Some(f32::NAN)), f32::INFINITY);
    assert_eq!(
        LocalFrame::if_far_from_origin(&[99.0, 0.0, 0.0, 101.0, 0.0, 0.0]),
        Ok(None)
    );
    let frame = LocalFrame::if_far_from_origin(&[100.0, 0.0, 0.0, 102.0, 0.0, 0.0])
        .unwrap()
        .unwrap();
    assert_eq!(frame.origin, [101.0, 0.0, 0.0]);
    assert_eq!(
        [100.0, 102.0].map(|x| frame.point_to_local([x, 0.0, 0.0])[0]),
        [-1.0, 1.0]
    );
}

#[test]
fn matching_writes_every_entry() {
    let tree = Tree::build(&K).unwrap();
    let mut matches = [2, NONE, NONE];
    matching(
        &[1.0, 1.0, 0.0, f32::NAN, 0.0, 0.0, 0.0, 4.0, 0.0],
        &K,
        tree.slots(),
        None,
        &mut matches,
    )
    .unwrap();
    assert_eq!(matches, [0, NONE, 3]);
    assert_eq!(correspondence_pairs(&matches), Ok(vec![(0, 0), (2, 3)]));
    assert_eq!(target_point(&K, matches[2]), Some(&K[9..12]));
    assert_eq!(target_point(&K, matches[1]), None);
    assert_eq!(target_point(&K[..11], 0), None);
}

#[test]
fn sums_stand_in_their_places() {
    let s = CorrespondenceStats::collect(&[1.0, 2.0, 3.0, 9.0, 9.0, 9.0], &[4.0, 8.0, 16.0], &[0, NONE]).unwrap();
    assert_eq!(s.count, 1);
    assert_eq!((s.sum_source, s.sum_target), ([1.0, 2.0, 3.0], [4.0, 8.0, 16.0]));
    assert_eq!(s.sum_outer, [[4.0, 8.0, 16.0], [8.0, 16.0, 32.0], [12.0, 24.0, 48.0]]);
    assert_eq!((s.sum_sq_error, s.mse()), (9.0 + 36.0 + 169.0, 214.0));
    assert_eq!(
        CorrespondenceStats::collect(&[], &[], &[]),
        Ok(CorrespondenceStats::default())
    );
    let scale = CloudScale::of(&[1.0, 2.0, 3.0, 3.0, 2.0, 3.0, f32::INFINITY, 0.0, 0.0]).unwrap();
    assert_eq!((scale.centroid, scale.radius), ([2.0, 2.0, 3.0], 1.0));
    assert_eq!(
        LocalFrame::centred_on(&[1.0, 2.0, 3.0, 3.0, 2.0, 3.0]).unwrap().origin,
        [2.0, 2.0, 3.0]
    );
}

#[test]
fn each_refusal() {
    let tree = Tree::build(&K).unwrap();
    let t = tree.slots();
    let uneven = Slots {
        coords: &t.coords[1..],
        ..t
    };
    let many = vec![0.0; 3 * (MOST_POINTS + 1)];
    assert_eq!(Tree::build(&K[1..]), Err(Refusal::Lengths));
    assert_eq!(Tree::build(&many), Err(Refusal::TooMany));
    assert_eq!(t.is_tree_of(&many), Err(Refusal::TooMany));
    assert_eq!(uneven.find_nearest([0.0; 3]), Err(Refusal::Lengths));
    assert_eq!(uneven.find_nearest_bounded([0.0; 3], 1.0, None), Err(Refusal::Lengths));
    assert_eq!(
        correspondence_pairs(&vec![NONE; MOST_POINTS + 1]),
        Err(Refusal::TooMany)
    );
    assert_eq!(CloudScale::of(&many), Err(Refusal::TooMany));
    assert_eq!(LocalFrame::centred_on(&K[1..]), Err(Refusal::Lengths));
    assert_eq!(LocalFrame::if_far_from_origin(&K[1..]), Err(Refusal::Lengths));
    assert_eq!(CorrespondenceStats::collect(&K, &K, &[0]), Err(Refusal::Lengths));
    assert_eq!(
        CorrespondenceStats::collect(&K, &K, &[0, 1, 2, 4]),
        Err(Refusal::Outside)
    );
    assert_eq!(matching(&K, &[], t, None, &mut [NONE; 4]), Err(Refusal::Empty));
    let numbers = [
        Refusal::Lengths,
        Refusal::TooMany,
        Refusal::TooShort,
        Refusal::Empty,
        Refusal::Outside,
    ]
    .map(Refusal::number);
    assert_eq!(numbers, [1, 2, 3, 4, 5]);
}

#[test]
fn a_refusal_changes_nothing() {
    let tree = Tree::build(&K).unwrap();
    let mut matches = [0, 1, 2, 4];
    assert_eq!(
        matching(&K, &K, tree.slots(), None, &mut matches),
        Err(Refusal::Outside)
    );
    assert_eq!(matches, [0, 1, 2, 4]);
    let (mut coords, mut indices) = ([7.0; 12], [7; 3]);
    assert_eq!(build(&K, &mut coords, &mut indices), Err(Refusal::TooShort));
    assert_eq!((coords, indices), ([7.0; 12], [7; 3]));
    let (mut sources, mut targets) = ([7; 2], [7; 1]);
    assert_eq!(
        correspondence_pairs_into(&[0, 1], &mut sources, &mut targets),
        Err(Refusal::TooShort)
    );
    assert_eq!((sources, targets), ([7; 2], [7; 1]));
    assert_eq!(
        tree.slots()
            .find_k_nearest_into([0.0; 3], 2, &mut sources, &mut coords[..1]),
        Err(Refusal::TooShort)
    );
    let listed = tree
        .slots()
        .find_radius_neighbors_into([0.0; 3], 9.0, &mut indices, &mut coords);
    assert_eq!(listed, Err(Refusal::TooShort));
    assert_eq!((sources, coords, indices), ([7; 2], [7.0; 12], [7; 3]));
}

/// Refusal 2 of a cloud and of a tree, one past the most: each entry that takes one gives it, and changes nothing.
#[test]
fn one_point_too_many() {
    let n = MOST_POINTS + 1;
    let (cloud, slots, k) = (vec![0.5; 3 * n], vec![0; n], Tree::build(&K).unwrap());
    let tree = Slots {
        coords: &cloud,
        indices: &slots,
    };
    let many = Err(Refusal::TooMany);
    let (mut coords, mut indices, mut squares) = (vec![7.0; 3 * n], vec![7; n], vec![7.0; n]);
    assert_eq!(build(&cloud, &mut coords, &mut indices).map(|_| ()), many);
    assert_eq!(tree.is_tree_of(&K).map(|_| ()), many);
    assert_eq!(k.slots().is_tree_of(&cloud).map(|_| ()), many);
    assert_eq!(tree.find_nearest([0.0; 3]).map(|_| ()), many);
    assert_eq!(tree.find_nearest_bounded([0.0; 3], 1.0, None).map(|_| ()), many);
    let listed = tree.find_k_nearest_into([0.0; 3], 2, &mut indices, &mut squares);
    assert_eq!(listed.map(|_| ()), many);
    assert_eq!(tree.find_k_nearest([0.0; 3], 2).map(|_| ()), many);
    assert_eq!(tree.find_radius_neighbors([0.0; 3], 9.0).map(|_| ()), many);
    let mut four = [0, 1, 2, NONE];
    assert_eq!(matching(&cloud, &K, k.slots(), None, &mut indices), many);
    assert_eq!(matching(&K, &cloud, k.slots(), None, &mut four), many);
    assert_eq!(matching(&K, &K, tree, None, &mut four), many);
    assert_eq!(CorrespondenceStats::collect(&cloud, &K, &slots).map(|_| ()), many);
    assert_eq!(CorrespondenceStats::collect(&K, &cloud, &four).map(|_| ()), many);
    assert_eq!(CloudScale::of(&cloud).map(|_| ()), many);
    assert_eq!(LocalFrame::centred_on(&cloud).map(|_| ()), many);
    assert_eq!(LocalFrame::if_far_from_origin(&cloud).map(|_| ()), many);
    let kept = |l: &[f32]| l.iter().all(|x| *x == 7.0);
    assert!(kept(&coords) && kept(&squares) && indices.iter().all(|i| *i == 7));
    assert_eq!(four, [0, 1, 2, NONE]);
}

/// The most points are no refusal.
#[test]
fn the_most_points() {
    let cloud: Vec<f32> = (0..3 * MOST_POINTS).map(|i| (i % 1021) as f32).collect();
    let tree = Tree::build(&cloud).unwrap();
    assert_eq!(tree.slots().is_tree_of(&cloud), Ok(true));
    let nearest = tree.slots().find_nearest([0.0, 1.0, 2.0]).unwrap();
    assert_eq!(nearest.map(|n| n.distance_sq), Some(0.0));
    assert!(CloudScale::of(&cloud).is_ok());
}

fn one_number(x: f32) {
    assert_eq!(is_finite(x), x.is_finite());
    for y in [f32::NEG_INFINITY, -1.0, -0.0, 0.0, 1.0, f32::INFINITY] {
        assert!(x.is_nan() || key(x).cmp(&key(y)) == x.total_cmp(&y), "{x:e} {y:e}");
    }
    let (up, wide) = (next_up(x), widen(x));
    assert!(up.to_bits() == x.next_up().to_bits() || x.is_nan() && up.is_nan());
    assert!(wide.to_bits() == f64::from(x).to_bits() || x.is_nan() && wide.is_nan());
}

#[test]
fn read_off_one_number() {
    for bits in (0..=u32::MAX).step_by(65_537) {
        one_number(f32::from_bits(bits));
        let y = f64::from_bits(u64::from(bits) << 32 | u64::from(!bits));
        let (ours, std) = (narrow(y), y as f32);
        assert!(
            ours.to_bits() == std.to_bits() || ours.is_nan() && std.is_nan(),
            "{y:e}"
        );
    }
}

#[test]
fn roots_are_correctly_rounded() {
    for bits in (0..=u32::MAX).step_by(65_537) {
        let x = f32::from_bits(bits);
        let (ours, std) = (sqrt_f32(x), x.sqrt());
        assert!(
            ours.to_bits() == std.to_bits() || ours.is_nan() && std.is_nan(),
            "{x:e}"
        );
        let y = f64::from_bits(u64::from(bits) << 32 | u64::from(bits));
        let (ours, std) = (sqrt_f64(y), y.sqrt());
        assert!(
            ours.to_bits() == std.to_bits() || ours.is_nan() && std.is_nan(),
            "{y:e}"
        );
    }
}
