//! Which reference point each scanned point belongs to: the proved library Ongdhuse, by its C interface.
//!
//! Every function is total: any numbers, NaN and infinities too, and slices of any length may be passed. What a function cannot serve it
//! refuses, with one of the five numbers of [`Refusal`], and then has changed nothing.
//!
//! A cloud is a slice of numbers, three to a point. Its tree is two lists, three coordinates and one index to a slot: [`Slots`] lends them,
//! [`Tree`] owns them.
//!
//! ```
//! use ongdhuse::{matching, CorrespondenceStats, Tree, NONE};
//!
//! let reference = [1.0, 0.0, 0.0, 0.0, 0.0, 0.0, 2.0, 0.0, 0.0, 0.0, 5.0, 0.0];
//! let scan = [1.0, 1.0, 0.0, 9.0, 9.0, 9.0];
//! let tree = Tree::build(&reference)?;
//! let mut matches = [NONE; 2];
//! matching(&scan, &reference, tree.slots(), Some(2.0), &mut matches)?;
//! assert_eq!(matches, [0, NONE]);
//! let sums = CorrespondenceStats::collect(&scan, &reference, &matches)?;
//! assert_eq!((sums.count, sums.mse()), (1, 1.0));
//! # Ok::<(), ongdhuse::Refusal>(())
//! ```
use std::fmt;

mod ffi;

/// A match entry of this value means no match, and as a seed no seed.
pub const NONE: u32 = u32::MAX;

/// The most points of a cloud, slots of a tree or entries of a match list.
pub const MOST_POINTS: usize = 1_048_576;

/// Why a call was refused.
#[derive(Clone, Copy, Debug, PartialEq, Eq, Hash)]
#[repr(u32)]
pub enum Refusal {
    /// A cloud's length is no multiple of 3, a tree's coordinates are not 3 times its indices, or the match list is not one entry per source
    /// point.
    Lengths = 1,
    /// A cloud, tree or match list has over [`MOST_POINTS`] points or entries.
    TooMany = 2,
    /// A lent output is too short.
    TooShort = 3,
    /// Matching with an empty source or target.
    Empty = 4,
    /// A seed or match entry that is not [`NONE`], or an index held in the tree, is not below the target count.
    Outside = 5,
}

impl Refusal {
    /// The refusal's number.
    ///
    /// ```
    /// assert_eq!(ongdhuse::Refusal::Outside.number(), 5);
    /// ```
    pub fn number(self) -> u32 {
        self as u32
    }

    fn told(code: u32) -> Result<(), Refusal> {
        match code {
            0 => Ok(()),
            1 => Err(Refusal::Lengths),
            2 => Err(Refusal::TooMany),
            3 => Err(Refusal::TooShort),
            4 => Err(Refusal::Empty),
            5 => Err(Refusal::Outside),
            _ => unreachable!("the library gives no other number"),
        }
    }
}

impl fmt::Display for Refusal {
    fn fmt(&self, f: &mut fmt::Formatter<'_>) -> fmt::Result {
        let why = match self {
            Refusal::Lengths => "lengths do not fit",
            Refusal::TooMany => "over 1,048,576 points or entries",
            Refusal::TooShort => "a lent output is too short",
            Refusal::Empty => "an empty source or target",
            Refusal::Outside => "an index is not below the target count",
        };
        write!(f, "refused {}: {why}", self.number())
    }
}

impl std::error::Error for Refusal {}

/// An index with its squared distance: what a search finds, and a seed.
#[derive(Clone, Copy, Debug, PartialEq)]
pub struct Nearest {
    pub index: u32,
    pub distance_sq: f32,
}

/// An index with its distance, of a list that is ordered by distance.
#[derive(Clone, Copy, Debug, PartialEq)]
pub struct Neighbor {
    pub index: u32,
    pub distance: f32,
}

fn neighbors(indices: Vec<u32>, distances: Vec<f32>, count: usize) -> Vec<Neighbor> {
    let pairs = indices.into_iter().zip(distances).take(count);
    pairs.map(|(index, distance)| Neighbor { index, distance }).collect()
}

/// Builds the tree of a cloud of n points into lent lists, which need room for 3n coordinates and n indices. Returns how many slots were written:
/// one for each point with three finite coordinates.
///
/// ```
/// let cloud = [1.0, 0.0, 0.0, f32::NAN, 0.0, 0.0];
/// let (mut coords, mut indices) = ([7.0; 6], [7; 2]);
/// assert_eq!(ongdhuse::build(&cloud, &mut coords, &mut indices), Ok(1));
/// assert_eq!((coords, indices), ([1.0, 0.0, 0.0, 7.0, 7.0, 7.0], [0, 7]));
/// assert_eq!(ongdhuse::build(&cloud, &mut coords, &mut []), Err(ongdhuse::Refusal::TooShort));
/// ```
pub fn build(cloud: &[f32], coords: &mut [f32], indices: &mut [u32]) -> Result<usize, Refusal> {
    let mut slots = 0;
    // SAFETY: here and below each pointer is valid for the length that goes with it, and what is written is lent by `&mut`, so that nothing
    // else of the call overlaps it.
    Refusal::told(unsafe {
        ffi::ongdhuse_build(
            cloud.as_ptr(),
            cloud.len(),
            coords.as_mut_ptr(),
            coords.len(),
            indices.as_mut_ptr(),
            indices.len(),
            &mut slots,
        )
    })?;
    Ok(slots as usize)
}

/// The tree of a cloud, owned.
#[derive(Clone, Debug, Default, PartialEq)]
pub struct Tree {
    coords: Vec<f32>,
    indices: Vec<u32>,
}

impl Tree {
    /// Builds the tree of a cloud.
    ///
    /// ```
    /// let tree = ongdhuse::Tree::build(&[1.0, 0.0, 0.0, 0.0, 0.0, 0.0, 2.0, 0.0, 0.0, 0.0, 5.0, 0.0])?;
    /// assert_eq!(tree.slots().indices, [3, 1, 0, 2]);
    /// # Ok::<(), ongdhuse::Refusal>(())
    /// ```
    pub fn build(cloud: &[f32]) -> Result<Tree, Refusal> {
        let points = cloud.len() / 3;
        let (mut coords, mut indices) = (vec![0.0; 3 * points], vec![0; points]);
        let slots = build(cloud, &mut coords, &mut indices)?;
        coords.truncate(3 * slots);
        indices.truncate(slots);
        Ok(Tree { coords, indices })
    }

    /// The slots, lent.
    pub fn slots(&self) -> Slots<'_> {
        Slots {
            coords: &self.coords,
            indices: &self.indices,
        }
    }
}

/// The slots of a tree, lent: three coordinates and one index to a slot. Any two lists will do; on slots that are no tree a search answers as its
/// pruned walk does.
#[derive(Clone, Copy, Debug, PartialEq)]
pub struct Slots<'a> {
    pub coords: &'a [f32],
    pub indices: &'a [u32],
}

impl Slots<'_> {
    /// Whether these are the slots of the tree of a cloud, float bits compared.
    ///
    /// ```
    /// use ongdhuse::Tree;
    /// let tree = Tree::build(&[0.0, 0.0, 0.0])?;
    /// assert_eq!(tree.slots().is_tree_of(&[0.0, 0.0, 0.0]), Ok(true));
    /// assert_eq!(tree.slots().is_tree_of(&[-0.0, 0.0, 0.0]), Ok(false));
    /// # Ok::<(), ongdhuse::Refusal>(())
    /// ```
    pub fn is_tree_of(self, cloud: &[f32]) -> Result<bool, Refusal> {
        let mut yes = 0;
        Refusal::told(unsafe {
            ffi::ongdhuse_is_tree_of(
                cloud.as_ptr(),
                cloud.len(),
                self.coords.as_ptr(),
                self.coords.len(),
                self.indices.as_ptr(),
                self.indices.len(),
                &mut yes,
            )
        })?;
        Ok(yes == 1)
    }

    /// The nearest point strictly below a squared bound, or the seed where that is below it and no point is nearer.
    ///
    /// ```
    /// use ongdhuse::{Nearest, Tree};
    /// let tree = Tree::build(&[1.0, 0.0, 0.0, 0.0, 0.0, 0.0])?;
    /// let found = |index| Ok(Some(Nearest { index, distance_sq: 0.25 }));
    /// let seed = Nearest { index: 1, distance_sq: 0.25 };
    /// assert_eq!(tree.slots().find_nearest_bounded([0.5, 0.0, 0.0], f32::INFINITY, Some(seed)), found(1));
    /// assert_eq!(tree.slots().find_nearest_bounded([0.5, 0.0, 0.0], 0.25, None), Ok(None));
    /// # Ok::<(), ongdhuse::Refusal>(())
    /// ```
    pub fn find_nearest_bounded(
        self,
        query: [f32; 3],
        bound_sq: f32,
        seed: Option<Nearest>,
    ) -> Result<Option<Nearest>, Refusal> {
        let [x, y, z] = query;
        let from = seed.unwrap_or(Nearest {
            index: NONE,
            distance_sq: 0.0,
        });
        let (mut found, mut index, mut distance_sq) = (0, 0, 0.0);
        Refusal::told(unsafe {
            ffi::ongdhuse_find_nearest_bounded(
                self.coords.as_ptr(),
                self.coords.len(),
                self.indices.as_ptr(),
                self.indices.len(),
                x,
                y,
                z,
                bound_sq,
                seed.is_some() as u32,
                from.index,
                from.distance_sq,
                &mut found,
                &mut index,
                &mut distance_sq,
            )
        })?;
        Ok((found == 1).then_some(Nearest { index, distance_sq }))
    }

    /// The nearest point, whatever its squared distance below infinity.
    ///
    /// ```
    /// use ongdhuse::{Nearest, Tree};
    /// let tree = Tree::build(&[1.0, 0.0, 0.0, 0.0, 0.0, 0.0])?;
    /// assert_eq!(tree.slots().find_nearest([1.0, 1.0, 0.0]), Ok(Some(Nearest { index: 0, distance_sq: 1.0 })));
    /// assert_eq!(tree.slots().find_nearest([f32::NAN, 1.0, 0.0]), Ok(None));
    /// # Ok::<(), ongdhuse::Refusal>(())
    /// ```
    pub fn find_nearest(self, query: [f32; 3]) -> Result<Option<Nearest>, Refusal> {
        let [x, y, z] = query;
        let (mut found, mut index, mut distance_sq) = (0, 0, 0.0);
        Refusal::told(unsafe {
            ffi::ongdhuse_find_nearest(
                self.coords.as_ptr(),
                self.coords.len(),
                self.indices.as_ptr(),
                self.indices.len(),
                x,
                y,
                z,
                &mut found,
                &mut index,
                &mut distance_sq,
            )
        })?;
        Ok((found == 1).then_some(Nearest { index, distance_sq }))
    }

    /// The k nearest points with their squared distances, nearest first, into lent lists, each of which needs room for min(k, slots) entries.
    /// Returns how many were written.
    ///
    /// ```
    /// use ongdhuse::{Refusal, Tree};
    /// let tree = Tree::build(&[1.0, 0.0, 0.0, 0.0, 0.0, 0.0, 2.0, 0.0, 0.0])?;
    /// let (mut indices, mut squares) = ([7; 3], [7.0; 3]);
    /// assert_eq!(tree.slots().find_k_nearest_into([2.0, 2.0, 0.0], 2, &mut indices, &mut squares), Ok(2));
    /// assert_eq!((indices, squares), ([2, 0, 7], [4.0, 5.0, 7.0]));
    /// # Ok::<(), Refusal>(())
    /// ```
    pub fn find_k_nearest_into(
        self,
        query: [f32; 3],
        k: u32,
        indices: &mut [u32],
        distances_sq: &mut [f32],
    ) -> Result<usize, Refusal> {
        let [x, y, z] = query;
        let mut count = 0;
        Refusal::told(unsafe {
            ffi::ongdhuse_find_k_nearest_into(
                self.coords.as_ptr(),
                self.coords.len(),
                self.indices.as_ptr(),
                self.indices.len(),
                x,
                y,
                z,
                k,
                indices.as_mut_ptr(),
                indices.len(),
                distances_sq.as_mut_ptr(),
                distances_sq.len(),
                &mut count,
            )
        })?;
        Ok(count as usize)
    }

    /// The k nearest points with their distances, nearest first.
    ///
    /// ```
    /// use ongdhuse::{Neighbor, Tree};
    /// let tree = Tree::build(&[1.0, 0.0, 0.0, 0.0, 0.0, 0.0, 5.0, 0.0, 0.0])?;
    /// let nearest = tree.slots().find_k_nearest([3.0, 0.0, 0.0], 2)?;
    /// assert_eq!(nearest, [Neighbor { index: 0, distance: 2.0 }, Neighbor { index: 2, distance: 2.0 }]);
    /// # Ok::<(), ongdhuse::Refusal>(())
    /// ```
    pub fn find_k_nearest(self, query: [f32; 3], k: u32) -> Result<Vec<Neighbor>, Refusal> {
        let [x, y, z] = query;
        let room = self.indices.len().min(k as usize);
        let (mut indices, mut distances, mut count) = (vec![0; room], vec![0.0; room], 0);
        Refusal::told(unsafe {
            ffi::ongdhuse_find_k_nearest(
                self.coords.as_ptr(),
                self.coords.len(),
                self.indices.as_ptr(),
                self.indices.len(),
                x,
                y,
                z,
                k,
                indices.as_mut_ptr(),
                room,
                distances.as_mut_ptr(),
                room,
                &mut count,
            )
        })?;
        Ok(neighbors(indices, distances, count as usize))
    }

    /// Every point within a radius with its distance, nearest first, into lent lists, each of which needs room for as many entries as there are
    /// slots. Returns how many were written.
    ///
    /// ```
    /// use ongdhuse::{Refusal, Tree};
    /// let tree = Tree::build(&[1.0, 0.0, 0.0, 0.0, 0.0, 0.0, 5.0, 0.0, 0.0])?;
    /// let (mut indices, mut distances) = ([7; 3], [7.0; 3]);
    /// assert_eq!(tree.slots().find_radius_neighbors_into([0.0, 0.0, 0.0], 1.0, &mut indices, &mut distances), Ok(2));
    /// assert_eq!((indices, distances), ([1, 0, 7], [0.0, 1.0, 7.0]));
    /// # Ok::<(), Refusal>(())
    /// ```
    pub fn find_radius_neighbors_into(
        self,
        query: [f32; 3],
        radius: f32,
        indices: &mut [u32],
        distances: &mut [f32],
    ) -> Result<usize, Refusal> {
        let [x, y, z] = query;
        let mut count = 0;
        Refusal::told(unsafe {
            ffi::ongdhuse_find_radius_neighbors(
                self.coords.as_ptr(),
                self.coords.len(),
                self.indices.as_ptr(),
                self.indices.len(),
                x,
                y,
                z,
                radius,
                indices.as_mut_ptr(),
                indices.len(),
                distances.as_mut_ptr(),
                distances.len(),
                &mut count,
            )
        })?;
        Ok(count as usize)
    }

    /// Every point within a radius with its distance, nearest first.
    ///
    /// ```
    /// use ongdhuse::{Neighbor, Tree};
    /// let tree = Tree::build(&[1.0, 0.0, 0.0, 0.0, 0.0, 0.0, 5.0, 0.0, 0.0])?;
    /// let near = tree.slots().find_radius_neighbors([0.0, 0.0, 0.0], 1.0)?;
    /// assert_eq!(near, [Neighbor { index: 1, distance: 0.0 }, Neighbor { index: 0, distance: 1.0 }]);
    /// # Ok::<(), ongdhuse::Refusal>(())
    /// ```
    pub fn find_radius_neighbors(self, query: [f32; 3], radius: f32) -> Result<Vec<Neighbor>, Refusal> {
        let room = self.indices.len();
        let (mut indices, mut distances) = (vec![0; room], vec![0.0; room]);
        let count = self.find_radius_neighbors_into(query, radius, &mut indices, &mut distances)?;
        Ok(neighbors(indices, distances, count))
    }
}

/// The squared bound of a limit on the distance: a point at exactly the limit is below it.
///
/// ```
/// assert!(ongdhuse::max_distance_sq(Some(1.0)) > 1.0);
/// assert_eq!(ongdhuse::max_distance_sq(None), f32::INFINITY);
/// ```
pub fn max_distance_sq(limit: Option<f32>) -> f32 {
    unsafe { ffi::ongdhuse_max_distance_sq(limit.is_some() as u32, limit.unwrap_or(0.0)) }
}

/// Matches every source point with a target point within the limit. The match list lends the seeds and holds the matches afterwards, [`NONE`]
/// for none.
///
/// ```
/// use ongdhuse::{matching, Refusal, Tree, NONE};
/// let target = [0.0, 0.0, 0.0];
/// let tree = Tree::build(&target)?;
/// let mut matches = [NONE];
/// matching(&[3.0, 0.0, 0.0], &target, tree.slots(), None, &mut matches)?;
/// assert_eq!(matches, [0]);
/// assert_eq!(matching(&[], &target, tree.slots(), None, &mut []), Err(Refusal::Empty));
/// # Ok::<(), Refusal>(())
/// ```
pub fn matching(
    source: &[f32],
    target: &[f32],
    tree: Slots<'_>,
    limit: Option<f32>,
    matches: &mut [u32],
) -> Result<(), Refusal> {
    Refusal::told(unsafe {
        ffi::ongdhuse_find_correspondences_seeded(
            source.as_ptr(),
            source.len(),
            target.as_ptr(),
            target.len(),
            tree.coords.as_ptr(),
            tree.coords.len(),
            tree.indices.as_ptr(),
            tree.indices.len(),
            limit.is_some() as u32,
            limit.unwrap_or(0.0),
            matches.as_mut_ptr(),
            matches.len(),
        )
    })
}

/// Source and target index of each matched entry, in source order, into lent lists. Returns their number.
///
/// ```
/// let (mut sources, mut targets) = ([0; 1], [0; 1]);
/// assert_eq!(ongdhuse::correspondence_pairs_into(&[ongdhuse::NONE, 7], &mut sources, &mut targets), Ok(1));
/// assert_eq!((sources, targets), ([1], [7]));
/// ```
pub fn correspondence_pairs_into(matches: &[u32], sources: &mut [u32], targets: &mut [u32]) -> Result<usize, Refusal> {
    let mut count = 0;
    Refusal::told(unsafe {
        ffi::ongdhuse_correspondence_pairs(
            matches.as_ptr(),
            matches.len(),
            sources.as_mut_ptr(),
            sources.len(),
            targets.as_mut_ptr(),
            targets.len(),
            &mut count,
        )
    })?;
    Ok(count as usize)
}

/// Source and target index of each matched entry, in source order.
///
/// ```
/// assert_eq!(ongdhuse::correspondence_pairs(&[ongdhuse::NONE, 7]), Ok(vec![(1, 7)]));
/// ```
pub fn correspondence_pairs(matches: &[u32]) -> Result<Vec<(u32, u32)>, Refusal> {
    let (mut sources, mut targets) = (vec![0; matches.len()], vec![0; matches.len()]);
    let count = correspondence_pairs_into(matches, &mut sources, &mut targets)?;
    Ok(sources.into_iter().zip(targets).take(count).collect())
}

/// The three numbers of a point, as a part of its cloud; none where there is no such point, or [`build`] would refuse the cloud.
///
/// ```
/// let cloud = [0.0, 1.0, 2.0, 3.0, 4.0, 5.0];
/// assert_eq!(ongdhuse::target_point(&cloud, 1), Some(&cloud[3..]));
/// assert_eq!(ongdhuse::target_point(&cloud, 2), None);
/// ```
pub fn target_point(cloud: &[f32], index: u32) -> Option<&[f32]> {
    let start = unsafe { ffi::ongdhuse_target_point(cloud.as_ptr(), cloud.len(), index) };
    cloud.get(start..)?.get(..3)
}

/// Sums over matched pairs p, q in f64.
#[derive(Clone, Copy, Debug, Default, PartialEq)]
pub struct CorrespondenceStats {
    /// The number of pairs.
    pub count: u32,
    /// The sum of p.
    pub sum_source: [f64; 3],
    /// The sum of q.
    pub sum_target: [f64; 3],
    /// The sums of p_i * q_j, a row for each i.
    pub sum_outer: [[f64; 3]; 3],
    /// The sum of the squared distances of p and q.
    pub sum_sq_error: f64,
}

impl CorrespondenceStats {
    fn of(count: u32, s: [f64; 16]) -> CorrespondenceStats {
        CorrespondenceStats {
            count,
            sum_source: [s[0], s[1], s[2]],
            sum_target: [s[3], s[4], s[5]],
            sum_outer: [[s[6], s[7], s[8]], [s[9], s[10], s[11]], [s[12], s[13], s[14]]],
            sum_sq_error: s[15],
        }
    }

    /// The sums of no pairs.
    ///
    /// ```
    /// use ongdhuse::CorrespondenceStats;
    /// assert_eq!(CorrespondenceStats::zero(), CorrespondenceStats::default());
    /// ```
    pub fn zero() -> CorrespondenceStats {
        let (mut s, mut count) = ([1.0; 16], 1);
        let code = unsafe { ffi::ongdhuse_zero_sums(s.as_mut_ptr(), s.len(), &mut count) };
        assert_eq!(code, 0, "there is room for sixteen numbers");
        CorrespondenceStats::of(count, s)
    }

    /// The sums of the matched pairs of a match list, one entry for each source point.
    ///
    /// ```
    /// use ongdhuse::{CorrespondenceStats, Refusal};
    /// let sums = CorrespondenceStats::collect(&[1.0, 1.0, 0.0], &[1.0, 0.0, 0.0], &[0])?;
    /// assert_eq!((sums.count, sums.sum_sq_error, sums.sum_outer[1]), (1, 1.0, [1.0, 0.0, 0.0]));
    /// assert_eq!(CorrespondenceStats::collect(&[1.0, 1.0, 0.0], &[], &[0]), Err(Refusal::Outside));
    /// # Ok::<(), Refusal>(())
    /// ```
    pub fn collect(source: &[f32], target: &[f32], matches: &[u32]) -> Result<CorrespondenceStats, Refusal> {
        let (mut s, mut count) = ([0.0; 16], 0);
        Refusal::told(unsafe {
            ffi::ongdhuse_collect(
                source.as_ptr(),
                source.len(),
                target.as_ptr(),
                target.len(),
                matches.as_ptr(),
                matches.len(),
                s.as_mut_ptr(),
                s.len(),
                &mut count,
            )
        })?;
        Ok(CorrespondenceStats::of(count, s))
    }

    /// The mean squared error: 0 for no pairs.
    ///
    /// ```
    /// assert_eq!(ongdhuse::CorrespondenceStats::default().mse(), 0.0);
    /// ```
    pub fn mse(&self) -> f32 {
        unsafe { ffi::ongdhuse_mse(self.count, self.sum_sq_error) }
    }
}

/// Where a cloud sits and how big it is: the mean of its finite points, and their root mean squared distance from it.
#[derive(Clone, Copy, Debug, PartialEq)]
pub struct CloudScale {
    pub centroid: [f32; 3],
    pub radius: f32,
}

impl CloudScale {
    /// The scale of a cloud.
    ///
    /// ```
    /// let scale = ongdhuse::CloudScale::of(&[100.0, 0.0, 0.0, 102.0, 0.0, 0.0])?;
    /// assert_eq!((scale.centroid, scale.radius), ([101.0, 0.0, 0.0], 1.0));
    /// # Ok::<(), ongdhuse::Refusal>(())
    /// ```
    pub fn of(cloud: &[f32]) -> Result<CloudScale, Refusal> {
        let mut s = [0.0; 4];
        Refusal::told(unsafe { ffi::ongdhuse_cloud_scale(cloud.as_ptr(), cloud.len(), s.as_mut_ptr(), s.len()) })?;
        Ok(CloudScale {
            centroid: [s[0], s[1], s[2]],
            radius: s[3],
        })
    }
}

/// A frame whose origin is a point of the world.
#[derive(Clone, Copy, Debug, PartialEq)]
pub struct LocalFrame {
    pub origin: [f64; 3],
}

impl LocalFrame {
    /// The frame at the mean of a cloud's finite points.
    ///
    /// ```
    /// assert_eq!(ongdhuse::LocalFrame::centred_on(&[1.0, 2.0, 3.0])?.origin, [1.0, 2.0, 3.0]);
    /// # Ok::<(), ongdhuse::Refusal>(())
    /// ```
    pub fn centred_on(cloud: &[f32]) -> Result<LocalFrame, Refusal> {
        let mut origin = [0.0; 3];
        Refusal::told(unsafe {
            ffi::ongdhuse_centred_on(cloud.as_ptr(), cloud.len(), origin.as_mut_ptr(), origin.len())
        })?;
        Ok(LocalFrame { origin })
    }

    /// That frame, or none for a cloud that is near the origin.
    ///
    /// ```
    /// use ongdhuse::LocalFrame;
    /// assert_eq!(LocalFrame::if_far_from_origin(&[99.0, 0.0, 0.0, 101.0, 0.0, 0.0]), Ok(None));
    /// let far = LocalFrame::if_far_from_origin(&[100.0, 0.0, 0.0, 102.0, 0.0, 0.0]);
    /// assert_eq!(far, Ok(Some(LocalFrame { origin: [101.0, 0.0, 0.0] })));
    /// ```
    pub fn if_far_from_origin(cloud: &[f32]) -> Result<Option<LocalFrame>, Refusal> {
        let (mut origin, mut is_far) = ([0.0; 3], 0);
        Refusal::told(unsafe {
            ffi::ongdhuse_if_far_from_origin(
                cloud.as_ptr(),
                cloud.len(),
                origin.as_mut_ptr(),
                origin.len(),
                &mut is_far,
            )
        })?;
        Ok((is_far == 1).then_some(LocalFrame { origin }))
    }

    /// A point of the world, in this frame.
    ///
    /// ```
    /// let frame = ongdhuse::LocalFrame { origin: [101.0, 0.0, 0.0] };
    /// assert_eq!(frame.point_to_local([100.0, 0.0, 0.0]), [-1.0, 0.0, 0.0]);
    /// ```
    pub fn point_to_local(&self, point: [f32; 3]) -> [f32; 3] {
        let ([a, b, c], [x, y, z]) = (self.origin, point);
        let mut local = [0.0; 3];
        let code = unsafe { ffi::ongdhuse_point_to_local(a, b, c, x, y, z, local.as_mut_ptr(), local.len()) };
        assert_eq!(code, 0, "there is room for three numbers");
        local
    }
}

/// Whether a number is neither a NaN nor an infinity.
///
/// ```
/// assert!(ongdhuse::is_finite(1.0) && !ongdhuse::is_finite(f32::NAN));
/// ```
pub fn is_finite(x: f32) -> bool {
    unsafe { ffi::ongdhuse_is_finite(x) == 1 }
}

/// The least number above x. A NaN and infinity stay.
///
/// ```
/// assert_eq!(ongdhuse::next_up(0.0).to_bits(), 1);
/// ```
pub fn next_up(x: f32) -> f32 {
    unsafe { ffi::ongdhuse_next_up(x) }
}

/// To f64.
///
/// ```
/// assert_eq!(ongdhuse::widen(0.5), 0.5);
/// ```
pub fn widen(x: f32) -> f64 {
    unsafe { ffi::ongdhuse_widen(x) }
}

/// To f32, rounded once to nearest even.
///
/// ```
/// assert_eq!(ongdhuse::narrow(1e39), f32::INFINITY);
/// ```
pub fn narrow(x: f64) -> f32 {
    unsafe { ffi::ongdhuse_narrow(x) }
}

/// A number by whose order points are ordered on an axis: that of `total_cmp`, every NaN counting as one.
///
/// ```
/// assert!(ongdhuse::key(-0.0) < ongdhuse::key(0.0));
/// ```
pub fn key(x: f32) -> u32 {
    unsafe { ffi::ongdhuse_key(x) }
}

/// The correctly rounded square root.
///
/// ```
/// assert_eq!(ongdhuse::sqrt_f32(2.25), 1.5);
/// ```
pub fn sqrt_f32(x: f32) -> f32 {
    unsafe { ffi::ongdhuse_sqrt_f32(x) }
}

/// The correctly rounded square root.
///
/// ```
/// assert_eq!(ongdhuse::sqrt_f64(2.25), 1.5);
/// ```
pub fn sqrt_f64(x: f64) -> f64 {
    unsafe { ffi::ongdhuse_sqrt_f64(x) }
}
