//! Guest memory at a physical address.

/// The byte at a physical address that a translation gave; none where it lies outside the memory lent.
pub fn byte(memory: &mut [u8], address: u64) -> Option<&mut u8> {
    memory.get_mut(usize::try_from(address).ok()?)
}

#[cfg(test)]
mod tests {
    use super::byte;

    /// The last byte is inside, the next one and the largest address are not.
    #[test]
    fn bytes_at_the_end() {
        let mut memory = [1, 2, 3];
        assert_eq!(byte(&mut memory, 2), Some(&mut 3));
        assert_eq!(byte(&mut memory, 3), None);
        assert_eq!(byte(&mut memory, u64::MAX), None);
    }
}
