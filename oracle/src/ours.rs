//! The proved library, by its C interface (include/ongdhuse.h).
use crate::side::{Op, Scale, Side, Sums, Tree};

// the functions as the Rust wrapper declares them; bindings/run holds that file to the archive
#[allow(dead_code)]
#[path = "../../bindings/rust/src/ffi.rs"]
mod ffi;
use ffi::*;

pub struct Ours;

fn accepted(refusal: u32) {
    assert_eq!(refusal, 0, "the proved library refused");
}

/// The numbers of the refusals that docs/DIFFERENCES.md shows; `many` is a cloud of 1,048,577 points.
pub fn refusals(many: &[f32]) {
    let (zeros, slot, mut room, mut places, mut n) = ([0.0f32; 3], [0u32], [0.0f32; 3], [0u32; 1], 0u32);
    let mut build = |cloud: &[f32]| unsafe {
        let (c, i) = (room.as_mut_ptr(), places.as_mut_ptr());
        ongdhuse_build(cloud.as_ptr(), cloud.len(), c, 3, i, 1, &mut n)
    };
    println!(
        "here a cloud of 1 number: {}; 1,048,577 points: {}",
        build(&zeros[..1]),
        build(many)
    );
    println!("here a list too short for a cloud of 2 points: {}", build(&[0.0; 6]));
    let matching = |source: &[f32], target: &[f32], slots: usize, list: &mut [u32]| unsafe {
        let (c, i) = (zeros.as_ptr(), slot.as_ptr());
        let (s, t) = (source.as_ptr(), target.as_ptr());
        ongdhuse_find_correspondences_seeded(
            s,
            source.len(),
            t,
            target.len(),
            c,
            3 * slots,
            i,
            slots,
            0,
            0.0,
            list.as_mut_ptr(),
            list.len(),
        )
    };
    println!(
        "here a seed 1 for one target point: {}",
        matching(&zeros, &zeros, 1, &mut [1])
    );
    println!(
        "here no entry for one source point: {}",
        matching(&zeros, &zeros, 1, &mut [])
    );
    println!("here an empty source: {}", matching(&[], &zeros, 1, &mut []));
    println!("here an empty target: {}", matching(&zeros, &[], 0, &mut [u32::MAX]));
    let (mut sums, mut count) = ([0.0f64; 16], 0u32);
    let why = unsafe {
        let z = zeros.as_ptr();
        ongdhuse_collect(z, 3, z, 3, [1u32].as_ptr(), 1, sums.as_mut_ptr(), 16, &mut count)
    };
    println!("here a match entry 1 for one target point: {why}");
    let (mut index, mut far) = ([0u32], [0.0f32]);
    let (why, z) = (
        unsafe {
            let (c, i) = (zeros.as_ptr(), slot.as_ptr());
            ongdhuse_find_k_nearest(
                c,
                3,
                i,
                1,
                0.0,
                0.0,
                0.0,
                u32::MAX,
                index.as_mut_ptr(),
                1,
                far.as_mut_ptr(),
                1,
                &mut count,
            )
        },
        index[0],
    );
    println!("here k nearest with k = 2^32 - 1: {why}, {count} entry, index {z}");
}

impl Side for Ours {
    fn build(&self, cloud: &[f32]) -> Tree {
        let n = cloud.len() / 3;
        let (mut coords, mut indices, mut slots, mut yes) = (vec![0.0f32; 3 * n], vec![0u32; n], 0u32, 0u32);
        unsafe {
            accepted(ongdhuse_build(
                cloud.as_ptr(),
                cloud.len(),
                coords.as_mut_ptr(),
                coords.len(),
                indices.as_mut_ptr(),
                indices.len(),
                &mut slots,
            ));
            coords.truncate(3 * slots as usize);
            indices.truncate(slots as usize);
            accepted(ongdhuse_is_tree_of(
                cloud.as_ptr(),
                cloud.len(),
                coords.as_ptr(),
                coords.len(),
                indices.as_ptr(),
                indices.len(),
                &mut yes,
            ));
        }
        assert_eq!(yes, 1, "the checking entry says no to a tree just built");
        Tree { coords, indices }
    }

    fn bounded(&self, t: &Tree, q: [f32; 3], bound: f32, seed: Option<(u32, f32)>) -> Option<(u32, f32)> {
        let (mut found, mut index, mut distance) = (0u32, 0u32, 0.0f32);
        let (s, d) = seed.unwrap_or((0, 0.0));
        unsafe {
            accepted(ongdhuse_find_nearest_bounded(
                t.coords.as_ptr(),
                t.coords.len(),
                t.indices.as_ptr(),
                t.indices.len(),
                q[0],
                q[1],
                q[2],
                bound,
                seed.is_some() as u32,
                s,
                d,
                &mut found,
                &mut index,
                &mut distance,
            ));
        }
        (found == 1).then_some((index, distance))
    }

    fn nearest(&self, t: &Tree, q: [f32; 3]) -> Option<(u32, f32)> {
        let (mut found, mut index, mut distance) = (0u32, 0u32, 0.0f32);
        unsafe {
            accepted(ongdhuse_find_nearest(
                t.coords.as_ptr(),
                t.coords.len(),
                t.indices.as_ptr(),
                t.indices.len(),
                q[0],
                q[1],
                q[2],
                &mut found,
                &mut index,
                &mut distance,
            ));
        }
        (found == 1).then_some((index, distance))
    }

    fn list(&self, t: &Tree, q: [f32; 3], op: Op) -> Vec<(u32, f32)> {
        let m = t.indices.len();
        let room = match op {
            Op::Squares(k) | Op::Roots(k) => m.min(k as usize),
            Op::Radius(_) => m,
        };
        let (mut indices, mut distances, mut count) = (vec![0u32; room], vec![0.0f32; room], 0u32);
        let (c, i) = (&t.coords, &t.indices);
        let (oi, od) = (indices.as_mut_ptr(), distances.as_mut_ptr());
        let [x, y, z] = q;
        unsafe {
            accepted(match op {
                Op::Squares(k) => ongdhuse_find_k_nearest_into(
                    c.as_ptr(),
                    c.len(),
                    i.as_ptr(),
                    m,
                    x,
                    y,
                    z,
                    k,
                    oi,
                    room,
                    od,
                    room,
                    &mut count,
                ),
                Op::Roots(k) => ongdhuse_find_k_nearest(
                    c.as_ptr(),
                    c.len(),
                    i.as_ptr(),
                    m,
                    x,
                    y,
                    z,
                    k,
                    oi,
                    room,
                    od,
                    room,
                    &mut count,
                ),
                Op::Radius(r) => ongdhuse_find_radius_neighbors(
                    c.as_ptr(),
                    c.len(),
                    i.as_ptr(),
                    m,
                    x,
                    y,
                    z,
                    r,
                    oi,
                    room,
                    od,
                    room,
                    &mut count,
                ),
            });
        }
        indices.into_iter().zip(distances).take(count as usize).collect()
    }

    fn limit(&self, d: Option<f32>) -> f32 {
        unsafe { ongdhuse_max_distance_sq(d.is_some() as u32, d.unwrap_or(0.0)) }
    }

    fn matched(&self, source: &[f32], target: &[f32], t: &Tree, limit: Option<f32>, matches: &mut [u32]) {
        unsafe {
            accepted(ongdhuse_find_correspondences_seeded(
                source.as_ptr(),
                source.len(),
                target.as_ptr(),
                target.len(),
                t.coords.as_ptr(),
                t.coords.len(),
                t.indices.as_ptr(),
                t.indices.len(),
                limit.is_some() as u32,
                limit.unwrap_or(0.0),
                matches.as_mut_ptr(),
                matches.len(),
            ));
        }
    }

    fn pairs(&self, matches: &[u32]) -> Vec<(u32, u32)> {
        let n = matches.len();
        let (mut sources, mut targets, mut count) = (vec![0u32; n], vec![0u32; n], 0u32);
        unsafe {
            accepted(ongdhuse_correspondence_pairs(
                matches.as_ptr(),
                n,
                sources.as_mut_ptr(),
                n,
                targets.as_mut_ptr(),
                n,
                &mut count,
            ));
        }
        sources.into_iter().zip(targets).take(count as usize).collect()
    }

    fn sums(&self, source: &[f32], target: &[f32], matches: &[u32]) -> Sums {
        let (mut values, mut count) = ([0.0f64; 16], 0u32);
        let mse = unsafe {
            accepted(ongdhuse_collect(
                source.as_ptr(),
                source.len(),
                target.as_ptr(),
                target.len(),
                matches.as_ptr(),
                matches.len(),
                values.as_mut_ptr(),
                16,
                &mut count,
            ));
            ongdhuse_mse(count, values[15])
        };
        Sums { count, values, mse }
    }

    fn scale(&self, cloud: &[f32]) -> Scale {
        let (mut s, mut centred, mut origin, mut is_far) = ([0.0f32; 4], [0.0f64; 3], [0.0f64; 3], 0u32);
        unsafe {
            accepted(ongdhuse_cloud_scale(cloud.as_ptr(), cloud.len(), s.as_mut_ptr(), 4));
            accepted(ongdhuse_centred_on(
                cloud.as_ptr(),
                cloud.len(),
                centred.as_mut_ptr(),
                3,
            ));
            accepted(ongdhuse_if_far_from_origin(
                cloud.as_ptr(),
                cloud.len(),
                origin.as_mut_ptr(),
                3,
                &mut is_far,
            ));
        }
        Scale {
            centroid: [s[0], s[1], s[2]],
            radius: s[3],
            centred,
            origin: (is_far == 1).then_some(origin),
        }
    }

    fn local(&self, origin: [f64; 3], p: [f32; 3]) -> [f32; 3] {
        let mut local = [0.0f32; 3];
        unsafe {
            accepted(ongdhuse_point_to_local(
                origin[0],
                origin[1],
                origin[2],
                p[0],
                p[1],
                p[2],
                local.as_mut_ptr(),
                3,
            ));
        }
        local
    }
}
