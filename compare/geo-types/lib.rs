//! Debian's geo-types still calls `Coord` by its older name `Coordinate`.
pub use real::Coordinate as Coord;
pub use real::*;
