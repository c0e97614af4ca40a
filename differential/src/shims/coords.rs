//! What reader.rs needs of the original's coords.rs.

pub trait Coords {
    fn lat(&self) -> f64;
    fn lon(&self) -> f64;
}
