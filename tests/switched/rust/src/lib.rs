/// The byte at a place of a copy, which has to have it.
pub fn byte_of_copy(word: &str, at: usize) -> u8 {
    let copy = word.as_bytes().to_vec();
    unsafe { *copy.as_ptr().add(at) }
}
