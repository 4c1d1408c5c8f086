//! The second codec at (2,2) beside spandsp's G.726 at 16 kbit/s, where both Recommendations have the
//! same tables. Without spandsp there is nothing in here.

#[cfg(spandsp)]
pub mod agreement;
#[cfg(spandsp)]
mod inputs;
#[cfg(spandsp)]
pub mod spandsp;
#[cfg(spandsp)]
mod speech;
