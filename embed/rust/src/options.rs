//! What a plan is made with.

use crate::rows::Options;

/// The options of the program without a word: no images, pointers of 8 bytes, the collector that
/// counts, pages of 4096 bytes.
impl Default for Options {
    fn default() -> Self {
        Options {
            pointer: 8,
            page_size: 4096,
            max_image: 1 << 20,
            ..Options::ZERO
        }
    }
}
