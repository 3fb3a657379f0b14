//! Words and their bits in the manual's numbering: bit 0 is the most significant.

/// Bits `first` to `last` of a word, as a number.
pub fn bits(word: u32, first: u32, last: u32) -> u32 {
    (word << first) >> (31 - last + first)
}

/// A number moved so that its lowest bit stands at bit `last`.
pub fn ending_at(value: u32, last: u32) -> u32 {
    value << (31 - last)
}

/// Whether the ones of a field are all at its low end (a field of zeros has none elsewhere).
pub fn ones_at_low_end(field: u32) -> bool {
    field.count_ones() == field.trailing_ones()
}

/// The big-endian word that starts at byte `at`.
pub fn word_at(bytes: &[u8], at: usize) -> u32 {
    bytes[at..at + 4].iter().fold(0, |word, &byte| (word << 8) | u32::from(byte))
}

/// Stores a word big-endian at byte `at`.
pub fn put_word(bytes: &mut [u8], at: usize, word: u32) {
    bytes[at..at + 4].copy_from_slice(&word.to_be_bytes());
}

/// Stores words one after another from byte 0.
pub fn put_words(bytes: &mut [u8], words: &[u32]) {
    for (number, &word) in words.iter().enumerate() {
        put_word(bytes, 4 * number, word);
    }
}
