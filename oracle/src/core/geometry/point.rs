//! What the three files use of pbrt-rust's points; `min` and `max` are document 01's least and greatest, axis by axis.

use super::vector::Vector3;
use crate::core::pbrt::Float;
use crate::num;
use std::fmt::{Display, Formatter, Result};
use std::ops::{Add, Div, Sub};

pub type Point3f = Point3<Float>;

#[derive(Debug, Default, Copy, Clone, PartialEq)]
pub struct Point3<T> {
    pub x: T,
    pub y: T,
    pub z: T,
}

impl<T> Point3<T> {
    pub fn new(x: T, y: T, z: T) -> Self {
        Self { x, y, z }
    }

    pub fn min(&self, p: &Self) -> Self
    where
        T: num::Float,
    {
        Self::new(self.x.least(p.x), self.y.least(p.y), self.z.least(p.z))
    }

    pub fn max(&self, p: &Self) -> Self
    where
        T: num::Float,
    {
        Self::new(self.x.greatest(p.x), self.y.greatest(p.y), self.z.greatest(p.z))
    }
}

impl Point3f {
    pub fn distance(&self, p: &Self) -> Float {
        (*self - *p).length()
    }
}

impl<T: Add<Output = T>> Add for Point3<T> {
    type Output = Self;

    fn add(self, p: Self) -> Self {
        Self::new(self.x + p.x, self.y + p.y, self.z + p.z)
    }
}

impl<T: Sub<Output = T>> Sub for Point3<T> {
    type Output = Vector3<T>;

    fn sub(self, p: Self) -> Vector3<T> {
        Vector3::new(self.x - p.x, self.y - p.y, self.z - p.z)
    }
}

impl<T: Add<U, Output = T>, U> Add<Vector3<U>> for Point3<T> {
    type Output = Self;

    fn add(self, v: Vector3<U>) -> Self {
        Self::new(self.x + v.x, self.y + v.y, self.z + v.z)
    }
}

impl<T: Sub<U, Output = T>, U> Sub<Vector3<U>> for Point3<T> {
    type Output = Self;

    fn sub(self, v: Vector3<U>) -> Self {
        Self::new(self.x - v.x, self.y - v.y, self.z - v.z)
    }
}

impl Div<Float> for Point3f {
    type Output = Self;

    fn div(self, f: Float) -> Self {
        Self::new(self.x / f, self.y / f, self.z / f)
    }
}

impl<T: Display> Display for Point3<T> {
    fn fmt(&self, f: &mut Formatter<'_>) -> Result {
        write!(f, "[{}, {}, {}]", self.x, self.y, self.z)
    }
}
