//! The RTI image with its members' names.

use super::{FederateIndex, IdentityTable, RtiImage};

/// A checked RTI image and the names of its members.
pub struct RtiImageView<'a> {
    image: RtiImage<'a>,
    members: IdentityTable<'a, FederateIndex>,
}
impl<'a> RtiImageView<'a> {
    /// The view over an image that is known to be right.
    #[must_use]
    pub const fn new(image: RtiImage<'a>, members: IdentityTable<'a, FederateIndex>) -> Self {
        Self { image, members }
    }
    /// The image.
    #[must_use]
    pub const fn image(&self) -> &RtiImage<'a> {
        &self.image
    }
    /// The members' names.
    #[must_use]
    pub const fn members(&self) -> &IdentityTable<'a, FederateIndex> {
        &self.members
    }
}
