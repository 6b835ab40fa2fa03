//! Buffers of 64-bit numbers, little-endian: program buffers, states and reports.

/// Length of a number.
pub const BYTES: usize = 8;

/// The numbers of a buffer. One that isn't whole, at its end, is passed over.
pub fn of(buffer: &[u8]) -> impl Iterator<Item = u64> + '_ {
    buffer.chunks_exact(BYTES).map(number)
}

pub fn number_at(buffer: &[u8], index: usize) -> u64 {
    number(&buffer[BYTES * index..BYTES * (index + 1)])
}

fn number(bytes: &[u8]) -> u64 {
    u64::from_le_bytes(bytes.try_into().expect("eight bytes"))
}

/// Writes numbers over the front of `out`.
pub fn write(numbers: impl IntoIterator<Item = u64>, out: &mut [u8]) {
    for (number, out) in numbers.into_iter().zip(out.chunks_exact_mut(BYTES)) {
        out.copy_from_slice(&number.to_le_bytes());
    }
}
