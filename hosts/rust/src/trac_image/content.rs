// Generated from crates/trac_image/src/content.rt by hosts/rust/generate, and never edited.
//! What an image holds between its head and its checksum.

use crate::trac_image::checksum::checksum_of;
use crate::trac_image::reading::{behind, byte_at, number_of};

/// What each image begins with: a name, and the version.
pub(crate) const HEAD: &[u8] = b"TRAC\x01";

/// The meta character of an image, how many forms it says that there are, and the bytes of these.
#[derive(Clone, Copy, Debug)]
pub(crate) struct Content<'i> {
    pub meta: u8,
    pub count: u32,
    pub forms: &'i [u8],
}

/// The content of an image. None if it has another head or another checksum, or is too short for both.
pub(crate) fn content_of(image: &[u8]) -> Option<Content<'_>>
{
    if image.len() < 14 {
        return None;
    }
    let (content, sums) = image.split_at(image.len() - 4);
    if !content.starts_with(HEAD) {
        return None;
    }
    if u64::from(number_of(sums)) != checksum_of(content).number() {
        return None;
    }
    Some(Content {
        meta: byte_at(content, 5),
        count: number_of(behind(content, 6)),
        forms: behind(content, 10),
    })
}
