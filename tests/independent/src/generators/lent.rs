//! Lent buffers in memory of which every byte is compared.

/// Places on either side of the lent buffer, which no call may touch.
pub const MARGIN: usize = 64;

/// What lent buffers hold.
pub trait Held: Copy + PartialEq {
    /// What stands at a place before a call.
    fn untouched(place: usize) -> Self;
}

impl Held for u8 {
    /// No two neighbours are alike.
    fn untouched(place: usize) -> u8 {
        (place * 37 % 251) as u8
    }
}

impl Held for u64 {
    /// No two are alike.
    fn untouched(place: usize) -> u64 {
        (place as u64 + 1).wrapping_mul(0x9E37_79B9_7F4A_7C15)
    }
}

/// A call with a buffer of so many places: its number, and the memory that the buffer is in.
pub fn lend<T: Held>(length: usize, call: impl FnOnce(&mut [T]) -> u64) -> (u64, Vec<T>) {
    let places = 0..MARGIN + length + MARGIN;
    let mut memory: Vec<T> = places.map(T::untouched).collect();
    let number = call(&mut memory[MARGIN..MARGIN + length]);
    (number, memory)
}

/// How two calls with a buffer of so many places differ; nothing if they do not.
pub fn difference<T: Held>(
    length: usize,
    engine: &(u64, Vec<T>),
    expected: &(u64, Vec<T>),
) -> Option<String> {
    let place = std::iter::zip(&engine.1, &expected.1).position(|(got, wanted)| got != wanted);
    (engine != expected).then(|| {
        format!(
            "buffer of length {length}: engine gives {:#X}, expected {:#X}; first place that \
             differs, counted from {MARGIN} before the buffer: {place:?}",
            engine.0, expected.0
        )
    })
}
