//! The proved library from outside: its calls wrapped, the vectors replayed, and judges that share nothing with it.

pub mod calls;
pub mod judge;
pub mod make;
pub mod probe;
pub mod rng;
pub mod text;
pub mod vectors;
pub mod ways;
