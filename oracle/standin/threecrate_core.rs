//! Stand-in for threecrate-core, which is not in the given text. Point and vector are nalgebra's;
//! the trait's signatures are those its two implementations in nearest_neighbor.rs show.
pub use nalgebra::Isometry3;
pub type Point3f = nalgebra::Point3<f32>;
pub type Vector3f = nalgebra::Vector3<f32>;
#[derive(Debug)]
pub enum Error {
    InvalidData(String),
    Algorithm(String),
}
pub type Result<T> = std::result::Result<T, Error>;
pub trait NearestNeighborSearch {
    fn find_k_nearest(&self, query: &Point3f, k: usize) -> Vec<(usize, f32)>;
    fn find_radius_neighbors(&self, query: &Point3f, radius: f32) -> Vec<(usize, f32)>;
}
#[derive(Debug, Clone)]
pub struct PointCloud<T> {
    pub points: Vec<T>,
}
impl<T> PointCloud<T> {
    pub fn new() -> Self {
        Self { points: Vec::new() }
    }
    pub fn from_points(points: Vec<T>) -> Self {
        Self { points }
    }
    pub fn len(&self) -> usize {
        self.points.len()
    }
    pub fn is_empty(&self) -> bool {
        self.points.is_empty()
    }
}
pub struct Transform3D(pub Isometry3<f32>);
impl From<Isometry3<f32>> for Transform3D {
    fn from(i: Isometry3<f32>) -> Self {
        Self(i)
    }
}
