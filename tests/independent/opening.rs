//! The opening dispatch, as 02 words it.

use super::model::Row;

/// 'The first block is the longest start of the prefix that is of one kind.'
fn first_block(kinds: &[u8]) -> usize {
    kinds.iter().take_while(|&&kind| kind == kinds[0]).count()
}

/// The values of the first block: 'when the answer is true and the prefix starts existential, .. from the last existential row; when it is false
/// and the prefix starts universal, those from the last universal row'; else none.
pub fn opening(kinds: &[u8], answer: u64, universal: &[Row], existential: &[Row]) -> Row {
    let rows = match (answer, kinds.first()) {
        (1, Some(0)) => existential,
        (0, Some(1)) => universal,
        _ => return Row::new(),
    };
    rows.last().unwrap()[..first_block(kinds)].to_vec()
}
