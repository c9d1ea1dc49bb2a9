//! Slots and records: stream, job, start, length.

/// Words of a record.
pub const WORDS: usize = 4;

/// Writes a record for each longest run of slots of one stream, and tells `seen` each run. The job's number is left 0: the published
/// arrays do not know it.
pub fn write(slots: &[u16], plan: &mut [u32], mut seen: impl FnMut(u32, u64)) -> usize {
    let (mut count, mut start) = (0, 0);
    while start < slots.len() {
        let owner = slots[start];
        let length = slots[start..].iter().take_while(|&&other| other == owner).count();
        if owner != 0 {
            plan[WORDS * count..WORDS * (count + 1)].copy_from_slice(&[
                owner.into(),
                0,
                start as u32,
                length as u32,
            ]);
            seen(owner.into(), length as u64);
            count += 1;
        }
        start += length;
    }
    count
}

#[cfg(test)]
mod tests {
    use super::*;

    #[test]
    fn runs() {
        let (mut plan, mut seen) = ([9; 12], Vec::new());
        assert_eq!(write(&[0, 0, 7, 7, 3, 0], &mut plan, |stream, length| seen.push((stream, length))), 2);
        assert_eq!(plan, [7, 0, 2, 2, 3, 0, 4, 1, 9, 9, 9, 9]);
        assert_eq!(seen, [(7, 2), (3, 1)]);
    }
}
