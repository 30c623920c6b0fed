//! Runtime tags are not compared: these names stand for the conversions that the crate exports.

/// A tag without counterpart.
#[derive(Debug)]
pub struct TagConversionError;

/// Gives the wire tag back.
pub fn runtime_tag_from_wire(tag: crate::WireTag) -> Result<crate::WireTag, TagConversionError> {
    Ok(tag)
}

/// Gives the wire tag back.
pub fn wire_tag_from_runtime(tag: crate::WireTag) -> Result<crate::WireTag, TagConversionError> {
    Ok(tag)
}
