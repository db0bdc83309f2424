//! What is compared with the Rust: the entries, as plain functions.

pub struct Tree {
    pub coords: Vec<f32>,
    pub indices: Vec<u32>,
}

#[derive(Clone, Copy)]
pub enum Op {
    Squares(u32),
    Roots(u32),
    Radius(f32),
}

pub struct Sums {
    pub count: u32,
    pub values: [f64; 16],
    pub mse: f32,
}

pub struct Scale {
    pub centroid: [f32; 3],
    pub radius: f32,
    /// The origin of the centred frame, and of the frame if there is one.
    pub centred: [f64; 3],
    pub origin: Option<[f64; 3]>,
}

pub trait Side {
    fn build(&self, cloud: &[f32]) -> Tree;
    fn bounded(&self, t: &Tree, q: [f32; 3], bound: f32, seed: Option<(u32, f32)>) -> Option<(u32, f32)>;
    fn nearest(&self, t: &Tree, q: [f32; 3]) -> Option<(u32, f32)>;
    fn list(&self, t: &Tree, q: [f32; 3], op: Op) -> Vec<(u32, f32)>;
    fn limit(&self, d: Option<f32>) -> f32;
    /// The match list afterwards, for the seeds in `matches`.
    fn matched(&self, source: &[f32], target: &[f32], t: &Tree, limit: Option<f32>, matches: &mut [u32]);
    fn pairs(&self, matches: &[u32]) -> Vec<(u32, u32)>;
    fn sums(&self, source: &[f32], target: &[f32], matches: &[u32]) -> Sums;
    fn scale(&self, cloud: &[f32]) -> Scale;
    fn local(&self, origin: [f64; 3], p: [f32; 3]) -> [f32; 3];
}
