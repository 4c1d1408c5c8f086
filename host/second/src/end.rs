//! What one end of a stream has for samples. The calls are two pairs and take no such value; whoever
//! chooses between them does.

use crate::g711::Law;

#[derive(Clone, Copy, Debug, PartialEq, Eq)]
pub enum End {
    /// Octets of G.711.
    Of(Law),
    Linear,
}

impl End {
    pub const ALL: [End; 3] = [End::Of(Law::Mu), End::Of(Law::A), End::Linear];
}
