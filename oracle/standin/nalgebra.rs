//! Stand-in for nalgebra: just what registration.rs, filtering.rs and nearest_neighbor.rs name.
//! LIVE arithmetic (it decides results): Vector3 + - /, cast, norm_squared as (xx + yy) + zz,
//! norm as its sqrt, the outer product, Matrix3 +, Point - Point, and Isometry3 * Point, where the
//! only isometry is the identity and hands the point back. All else panics when called.
use std::ops::*;
macro_rules! dead {
    () => {
        unimplemented!("stand-in nalgebra: not carried")
    };
}
pub trait Real:
    Copy
    + Add<Output = Self>
    + Sub<Output = Self>
    + Mul<Output = Self>
    + Div<Output = Self>
    + Neg<Output = Self>
{
    fn zero() -> Self;
    fn wide(self) -> f64;
    fn from_wide(x: f64) -> Self;
    fn root(self) -> Self;
}
impl Real for f32 {
    fn zero() -> f32 {
        0.0
    }
    fn wide(self) -> f64 {
        self as f64
    }
    fn from_wide(x: f64) -> f32 {
        x as f32
    }
    fn root(self) -> f32 {
        self.sqrt()
    }
}
impl Real for f64 {
    fn zero() -> f64 {
        0.0
    }
    fn wide(self) -> f64 {
        self
    }
    fn from_wide(x: f64) -> f64 {
        x
    }
    fn root(self) -> f64 {
        self.sqrt()
    }
}

#[derive(Debug, Clone, Copy, PartialEq)]
pub struct Vector3<T> {
    pub x: T,
    pub y: T,
    pub z: T,
}
pub struct RowVector3<T>(Vector3<T>);
pub struct Unit<V>(#[allow(dead_code)] V);
impl<T: Real> Vector3<T> {
    pub fn new(x: T, y: T, z: T) -> Self {
        Self { x, y, z }
    }
    pub fn zeros() -> Self {
        Self::new(T::zero(), T::zero(), T::zero())
    }
    pub fn cast<U: Real>(&self) -> Vector3<U> {
        Vector3::new(
            U::from_wide(self.x.wide()),
            U::from_wide(self.y.wide()),
            U::from_wide(self.z.wide()),
        )
    }
    pub fn norm_squared(&self) -> T {
        self.x * self.x + self.y * self.y + self.z * self.z
    }
    pub fn magnitude_squared(&self) -> T {
        self.norm_squared()
    }
    pub fn norm(&self) -> T {
        self.norm_squared().root()
    }
    pub fn transpose(&self) -> RowVector3<T> {
        RowVector3(*self)
    }
    pub fn iter(&self) -> std::array::IntoIter<&T, 3> {
        [&self.x, &self.y, &self.z].into_iter()
    }
    pub fn cross(&self, _: &Self) -> Self {
        dead!()
    }
    pub fn dot(&self, _: &Self) -> T {
        dead!()
    }
    pub fn x_axis() -> Unit<Self> {
        dead!()
    }
    pub fn y_axis() -> Unit<Self> {
        dead!()
    }
    pub fn z_axis() -> Unit<Self> {
        dead!()
    }
}
impl<T> Index<usize> for Vector3<T> {
    type Output = T;
    fn index(&self, i: usize) -> &T {
        match i {
            0 => &self.x,
            1 => &self.y,
            2 => &self.z,
            _ => panic!(),
        }
    }
}
impl<T: Real> Add for Vector3<T> {
    type Output = Self;
    fn add(self, o: Self) -> Self {
        Self::new(self.x + o.x, self.y + o.y, self.z + o.z)
    }
}
impl<T: Real> Sub for Vector3<T> {
    type Output = Self;
    fn sub(self, o: Self) -> Self {
        Self::new(self.x - o.x, self.y - o.y, self.z - o.z)
    }
}
impl<T: Real> AddAssign for Vector3<T> {
    fn add_assign(&mut self, o: Self) {
        *self = *self + o
    }
}
impl<T: Real> Div<T> for Vector3<T> {
    type Output = Self;
    fn div(self, s: T) -> Self {
        Self::new(self.x / s, self.y / s, self.z / s)
    }
}
impl<T: Real> Div<T> for &Vector3<T> {
    type Output = Vector3<T>;
    fn div(self, s: T) -> Vector3<T> {
        *self / s
    }
}
impl<T: Real> Mul<RowVector3<T>> for Vector3<T> {
    type Output = Matrix3<T>;
    fn mul(self, r: RowVector3<T>) -> Matrix3<T> {
        let row = |a: T| [a * r.0.x, a * r.0.y, a * r.0.z];
        Matrix3([row(self.x), row(self.y), row(self.z)])
    }
}
#[derive(Debug, Clone, Copy, PartialEq)]
pub struct Point3<T> {
    pub coords: Vector3<T>,
}
impl<T> Deref for Point3<T> {
    type Target = Vector3<T>;
    fn deref(&self) -> &Vector3<T> {
        &self.coords
    }
}
impl<T: Real> Point3<T> {
    pub fn new(x: T, y: T, z: T) -> Self {
        Self {
            coords: Vector3::new(x, y, z),
        }
    }
    pub fn origin() -> Self {
        Self {
            coords: Vector3::zeros(),
        }
    }
}
impl<T> From<Vector3<T>> for Point3<T> {
    fn from(coords: Vector3<T>) -> Self {
        Self { coords }
    }
}
impl<T: Real> Sub for Point3<T> {
    type Output = Vector3<T>;
    fn sub(self, o: Self) -> Vector3<T> {
        self.coords - o.coords
    }
}
impl<T: Real> Sub<&Point3<T>> for Point3<T> {
    type Output = Vector3<T>;
    fn sub(self, o: &Self) -> Vector3<T> {
        self.coords - o.coords
    }
}

#[derive(Debug, Clone, Copy)]
pub struct Matrix3<T>(pub [[T; 3]; 3]); // [row][column]
pub struct Row3;
impl Neg for Row3 {
    type Output = Row3;
    fn neg(self) -> Row3 {
        dead!()
    }
}
pub struct Svd<T> {
    pub u: Option<Matrix3<T>>,
    pub v_t: Option<Matrix3<T>>,
}
impl<T: Real> Matrix3<T> {
    pub fn zeros() -> Self {
        Self([[T::zero(); 3]; 3])
    }
    pub fn cast<U: Real>(&self) -> Matrix3<U> {
        dead!()
    }
    pub fn try_svd(self, _: bool, _: bool, _: T, _: usize) -> Option<Svd<T>> {
        dead!()
    }
    pub fn transpose(&self) -> Self {
        dead!()
    }
    pub fn determinant(&self) -> T {
        dead!()
    }
    pub fn row(&self, _: usize) -> Row3 {
        dead!()
    }
    pub fn set_row(&mut self, _: usize, _: &Row3) {
        dead!()
    }
}
impl<T> Index<(usize, usize)> for Matrix3<T> {
    type Output = T;
    fn index(&self, (i, j): (usize, usize)) -> &T {
        &self.0[i][j]
    }
}
impl<T: Real> Add for Matrix3<T> {
    type Output = Self;
    fn add(mut self, o: Self) -> Self {
        for i in 0..3 {
            for j in 0..3 {
                self.0[i][j] = self.0[i][j] + o.0[i][j]
            }
        }
        self
    }
}
impl<T: Real> AddAssign for Matrix3<T> {
    fn add_assign(&mut self, o: Self) {
        *self = *self + o
    }
}
impl<T> Sub<Matrix3<T>> for &Matrix3<T> {
    type Output = Matrix3<T>;
    fn sub(self, _: Matrix3<T>) -> Matrix3<T> {
        dead!()
    }
}
impl<T: Real> Mul<T> for Matrix3<T> {
    type Output = Self;
    fn mul(self, _: T) -> Self {
        dead!()
    }
}
impl<T> Mul<Matrix3<T>> for Matrix3<T> {
    type Output = Self;
    fn mul(self, _: Self) -> Self {
        dead!()
    }
}

macro_rules! never { ($($n:ident)*) => { $(#[derive(Debug, Clone, Copy)] pub struct $n<T>(std::marker::PhantomData<T>);)* } }
never! { Translation3 UnitQuaternion Vector6 RowVector6 Matrix6 Cholesky6 Lu6 }
impl<T> Translation3<T> {
    pub fn new(_: T, _: T, _: T) -> Self {
        dead!()
    }
    pub fn inverse(&self) -> Self {
        dead!()
    }
}
impl<T> From<Vector3<T>> for Translation3<T> {
    fn from(_: Vector3<T>) -> Self {
        dead!()
    }
}
impl<T> UnitQuaternion<T> {
    pub fn from_matrix(_: &Matrix3<T>) -> Self {
        dead!()
    }
    pub fn cast<U>(self) -> UnitQuaternion<U> {
        dead!()
    }
    pub fn angle(&self) -> T {
        dead!()
    }
    pub fn from_axis_angle(_: &Unit<Vector3<T>>, _: T) -> Self {
        dead!()
    }
}
impl<T> Mul<Vector3<T>> for UnitQuaternion<T> {
    type Output = Vector3<T>;
    fn mul(self, _: Vector3<T>) -> Vector3<T> {
        dead!()
    }
}
impl<T> Mul for UnitQuaternion<T> {
    type Output = Self;
    fn mul(self, _: Self) -> Self {
        dead!()
    }
}
impl<T> Vector6<T> {
    pub fn zeros() -> Self {
        dead!()
    }
    pub fn new(_: T, _: T, _: T, _: T, _: T, _: T) -> Self {
        dead!()
    }
    pub fn transpose(&self) -> RowVector6<T> {
        dead!()
    }
}
impl<T> Index<usize> for Vector6<T> {
    type Output = T;
    fn index(&self, _: usize) -> &T {
        dead!()
    }
}
impl<T> Mul<T> for Vector6<T> {
    type Output = Self;
    fn mul(self, _: T) -> Self {
        dead!()
    }
}
impl<T> Mul<RowVector6<T>> for Vector6<T> {
    type Output = Matrix6<T>;
    fn mul(self, _: RowVector6<T>) -> Matrix6<T> {
        dead!()
    }
}
impl<T> AddAssign for Vector6<T> {
    fn add_assign(&mut self, _: Self) {
        dead!()
    }
}
impl<T> AddAssign for Matrix6<T> {
    fn add_assign(&mut self, _: Self) {
        dead!()
    }
}
impl<T> Matrix6<T> {
    pub fn zeros() -> Self {
        dead!()
    }
    pub fn cholesky(self) -> Option<Cholesky6<T>> {
        dead!()
    }
    pub fn lu(self) -> Lu6<T> {
        dead!()
    }
}
impl<T> Cholesky6<T> {
    pub fn solve(&self, _: &Vector6<T>) -> Vector6<T> {
        dead!()
    }
}
impl<T> Lu6<T> {
    pub fn solve(&self, _: &Vector6<T>) -> Option<Vector6<T>> {
        dead!()
    }
}

/// The identity and no other: nothing here can make one that moves a point.
#[derive(Debug, Clone, Copy)]
pub struct Isometry3<T> {
    pub rotation: UnitQuaternion<T>,
}
impl<T> Isometry3<T> {
    pub fn identity() -> Self {
        Self {
            rotation: UnitQuaternion(std::marker::PhantomData),
        }
    }
    pub fn from_parts(_: Translation3<T>, _: UnitQuaternion<T>) -> Self {
        dead!()
    }
    pub fn cast<U>(self) -> Isometry3<U> {
        dead!()
    }
}
impl<T: Real> Mul<&Point3<T>> for &Isometry3<T> {
    type Output = Point3<T>;
    fn mul(self, p: &Point3<T>) -> Point3<T> {
        *p
    }
}
impl<T: Real> Mul<&Point3<T>> for Isometry3<T> {
    type Output = Point3<T>;
    fn mul(self, p: &Point3<T>) -> Point3<T> {
        *p
    }
}
impl<T: Real> Mul<Point3<T>> for Isometry3<T> {
    type Output = Point3<T>;
    fn mul(self, p: Point3<T>) -> Point3<T> {
        p
    }
}
impl<T> Mul for Isometry3<T> {
    type Output = Self;
    fn mul(self, _: Self) -> Self {
        dead!()
    }
}
impl<T> Mul<Isometry3<T>> for Translation3<T> {
    type Output = Isometry3<T>;
    fn mul(self, _: Isometry3<T>) -> Isometry3<T> {
        dead!()
    }
}
impl<T> Mul<Translation3<T>> for Isometry3<T> {
    type Output = Isometry3<T>;
    fn mul(self, _: Translation3<T>) -> Isometry3<T> {
        dead!()
    }
}
