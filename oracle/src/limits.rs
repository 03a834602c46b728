//! How many finders there may be, and how long a stored list of them is (document 02, N9); also for bench/.

/// The most finders of a search, of a stored list and of the preview's answer.
pub const MAX_FINDERS: u32 = 1000;

/// The most of a stored list of form 1.
pub const FORM_ONE_MOST: u32 = 128;

/// The bytes of a list in a form: 6 and 16 for each finder, in form 2 one more for its count of two bytes.
pub const fn list_length(form: u8, count: u64) -> u64 {
    if form == 1 { 6 + 16 * count } else { 7 + 16 * count }
}
