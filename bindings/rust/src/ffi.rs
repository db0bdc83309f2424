//! The functions of include/ongdhuse.h.
extern "C" {
    pub fn ongdhuse_build(
        cloud: *const f32,
        cloud_len: usize,
        coords: *mut f32,
        coords_len: usize,
        indices: *mut u32,
        indices_len: usize,
        slots: *mut u32,
    ) -> u32;
    pub fn ongdhuse_is_tree_of(
        cloud: *const f32,
        cloud_len: usize,
        coords: *const f32,
        coords_len: usize,
        indices: *const u32,
        indices_len: usize,
        yes: *mut u32,
    ) -> u32;
    pub fn ongdhuse_find_nearest_bounded(
        coords: *const f32,
        coords_len: usize,
        indices: *const u32,
        indices_len: usize,
        x: f32,
        y: f32,
        z: f32,
        bound_sq: f32,
        seeded: u32,
        seed_index: u32,
        seed_distance_sq: f32,
        found: *mut u32,
        index: *mut u32,
        distance_sq: *mut f32,
    ) -> u32;
    pub fn ongdhuse_find_nearest(
        coords: *const f32,
        coords_len: usize,
        indices: *const u32,
        indices_len: usize,
        x: f32,
        y: f32,
        z: f32,
        found: *mut u32,
        index: *mut u32,
        distance_sq: *mut f32,
    ) -> u32;
    pub fn ongdhuse_find_k_nearest_into(
        coords: *const f32,
        coords_len: usize,
        indices: *const u32,
        indices_len: usize,
        x: f32,
        y: f32,
        z: f32,
        k: u32,
        out_indices: *mut u32,
        out_indices_len: usize,
        out_distances: *mut f32,
        out_distances_len: usize,
        count: *mut u32,
    ) -> u32;
    pub fn ongdhuse_find_k_nearest(
        coords: *const f32,
        coords_len: usize,
        indices: *const u32,
        indices_len: usize,
        x: f32,
        y: f32,
        z: f32,
        k: u32,
        out_indices: *mut u32,
        out_indices_len: usize,
        out_distances: *mut f32,
        out_distances_len: usize,
        count: *mut u32,
    ) -> u32;
    pub fn ongdhuse_find_radius_neighbors(
        coords: *const f32,
        coords_len: usize,
        indices: *const u32,
        indices_len: usize,
        x: f32,
        y: f32,
        z: f32,
        radius: f32,
        out_indices: *mut u32,
        out_indices_len: usize,
        out_distances: *mut f32,
        out_distances_len: usize,
        count: *mut u32,
    ) -> u32;
    pub fn ongdhuse_max_distance_sq(limited: u32, limit: f32) -> f32;
    pub fn ongdhuse_find_correspondences_seeded(
        source: *const f32,
        source_len: usize,
        target: *const f32,
        target_len: usize,
        coords: *const f32,
        coords_len: usize,
        indices: *const u32,
        indices_len: usize,
        limited: u32,
        limit: f32,
        matches: *mut u32,
        matches_len: usize,
    ) -> u32;
    pub fn ongdhuse_correspondence_pairs(
        matches: *const u32,
        matches_len: usize,
        sources: *mut u32,
        sources_len: usize,
        targets: *mut u32,
        targets_len: usize,
        count: *mut u32,
    ) -> u32;
    pub fn ongdhuse_target_point(cloud: *const f32, cloud_len: usize, index: u32) -> usize;
    pub fn ongdhuse_collect(
        source: *const f32,
        source_len: usize,
        target: *const f32,
        target_len: usize,
        matches: *const u32,
        matches_len: usize,
        sums: *mut f64,
        sums_len: usize,
        count: *mut u32,
    ) -> u32;
    pub fn ongdhuse_zero_sums(sums: *mut f64, sums_len: usize, count: *mut u32) -> u32;
    pub fn ongdhuse_mse(count: u32, sum_sq_error: f64) -> f32;
    pub fn ongdhuse_cloud_scale(cloud: *const f32, cloud_len: usize, scale: *mut f32, scale_len: usize) -> u32;
    pub fn ongdhuse_centred_on(cloud: *const f32, cloud_len: usize, origin: *mut f64, origin_len: usize) -> u32;
    pub fn ongdhuse_if_far_from_origin(
        cloud: *const f32,
        cloud_len: usize,
        origin: *mut f64,
        origin_len: usize,
        is_far: *mut u32,
    ) -> u32;
    pub fn ongdhuse_point_to_local(
        origin_x: f64,
        origin_y: f64,
        origin_z: f64,
        x: f32,
        y: f32,
        z: f32,
        local: *mut f32,
        local_len: usize,
    ) -> u32;
    pub fn ongdhuse_is_finite(x: f32) -> u32;
    pub fn ongdhuse_next_up(x: f32) -> f32;
    pub fn ongdhuse_widen(x: f32) -> f64;
    pub fn ongdhuse_narrow(x: f64) -> f32;
    pub fn ongdhuse_key(x: f32) -> u32;
    pub fn ongdhuse_sqrt_f32(x: f32) -> f32;
    pub fn ongdhuse_sqrt_f64(x: f64) -> f64;
}

#[cfg(test)]
mod tests {
    use super::*;

    fn collect(source: &[f32], matches: &[u32], sums: &mut [f64], count: &mut u32) -> u32 {
        let target = [0.0f32; 3];
        unsafe {
            ongdhuse_collect(
                source.as_ptr(),
                source.len(),
                target.as_ptr(),
                target.len(),
                matches.as_ptr(),
                matches.len(),
                sums.as_mut_ptr(),
                sums.len(),
                count,
            )
        }
    }

    /// "Tested in the order 1, 2, 4, 3, 5".
    #[test]
    fn room_is_tested_before_5() {
        let (mut sums, mut count) = ([7.0f64; 17], 7);
        assert_eq!(collect(&[0.0; 3], &[1], &mut sums[..16], &mut count), 5);
        assert_eq!(collect(&[0.0; 3], &[1], &mut sums[..15], &mut count), 3);
        assert_eq!(collect(&[0.0; 3], &[0], &mut sums[..15], &mut count), 3);
        assert_eq!(collect(&[0.0; 2], &[1], &mut sums[..15], &mut count), 1);
        assert_eq!((sums, count), ([7.0; 17], 7));
        assert_eq!(collect(&[0.0; 3], &[0], &mut sums, &mut count), 0);
        assert_eq!((&sums[..16], sums[16], count), (&[0.0; 16][..], 7.0, 1));
    }

    #[test]
    fn room_for_few_numbers() {
        let cloud = [100.0f32, 0.0, 0.0];
        let (mut scale, mut origin, mut far) = ([7.0f32; 4], [7.0f64; 3], 7);
        unsafe {
            assert_eq!(ongdhuse_cloud_scale(cloud.as_ptr(), 3, scale.as_mut_ptr(), 3), 3);
            assert_eq!(ongdhuse_cloud_scale(cloud.as_ptr(), 2, scale.as_mut_ptr(), 3), 1);
            assert_eq!(ongdhuse_centred_on(cloud.as_ptr(), 3, origin.as_mut_ptr(), 2), 3);
            assert_eq!(
                ongdhuse_if_far_from_origin(cloud.as_ptr(), 3, origin.as_mut_ptr(), 2, &mut far),
                3
            );
            assert_eq!(
                ongdhuse_point_to_local(0.0, 0.0, 0.0, 1.0, 2.0, 3.0, scale.as_mut_ptr(), 2),
                3
            );
        }
        assert_eq!((scale, origin, far), ([7.0; 4], [7.0; 3], 7));
        // a cloud that is near the origin leaves the origin as it was
        assert_eq!(
            unsafe { ongdhuse_if_far_from_origin(cloud.as_ptr(), 0, origin.as_mut_ptr(), 3, &mut far) },
            0
        );
        assert_eq!((origin, far), ([7.0; 3], 0));
    }

    #[test]
    fn nothing_found_writes_the_flag_alone() {
        let (mut found, mut index, mut distance_sq) = (7, 7, 7.0);
        let code = unsafe {
            let (coords, indices) = ([0.0f32; 3], [0u32; 1]);
            ongdhuse_find_nearest(
                coords.as_ptr(),
                3,
                indices.as_ptr(),
                1,
                f32::NAN,
                0.0,
                0.0,
                &mut found,
                &mut index,
                &mut distance_sq,
            )
        };
        assert_eq!((code, found, index, distance_sq), (0, 0, 7, 7.0));
    }
}
