//! Preferences: the lent bytes, or the house rule.

pub fn preference(lent: &[u8], i: usize) -> bool {
    if lent.is_empty() {
        house(i)
    } else {
        lent[i % lent.len()] & 1 == 1
    }
}

/// The parity of the ones in the remainder of i by 256.
fn house(i: usize) -> bool {
    let mut rest = i % 256;
    let mut ones = 0;
    while rest > 0 {
        ones += rest % 2;
        rest /= 2;
    }
    ones % 2 == 1
}
