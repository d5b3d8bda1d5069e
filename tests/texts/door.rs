//! The C function on lent bytes, held against the number that it is to return; the text, the work area and the guards around both are looked at.

use crate::answers;
use crate::formula::WORK;
use crate::lent::Lent;
use crate::model::TooLong;
use crate::random::Random;
use crate::reader::{Read, Refusal};

extern "C" {
    fn vulzhenn_decide(text: *const u8, text_length: usize, work: *mut u8, work_length: usize, limit: u32) -> u32;
}

/// The rounds that small formulas take, and fewer.
const FEW: std::ops::RangeInclusive<u32> = 0..=9;

/// More rounds than there can be; some of these numbers would be few if they lost their upper bits.
const MANY: [u32; 14] =
    [255, 256, 257, 1_000, 1_001, 65_535, 65_536, 65_537, 65_538, 1 << 24, 1 << 31, (1 << 31) + 1, u32::MAX - 1, u32::MAX];

pub fn limits() -> Vec<u32> {
    FEW.chain(MANY).collect()
}

/// Work areas of other lengths than the one that is wanted.
const WORKS: [usize; 9] = [0, 1, 16, 256, WORK - 1, WORK + 1, WORK + 16, 2 * WORK, 1 << 20];

/// In half of the cases a limit that may end the run.
pub fn limit(random: &mut Random) -> u32 {
    if random.chance(1, 2) {
        random.below(4) as u32
    } else {
        random.pick(&limits())
    }
}

/// Mostly the length that is wanted.
pub fn work(random: &mut Random) -> usize {
    if random.chance(1, 12) {
        random.pick(&WORKS)
    } else {
        WORK
    }
}

/// Calls it and says what is not as wanted, if anything. Returned with the wanted number.
pub fn compare(
    random: &mut Random,
    text: &[u8],
    read: &Result<Read, Refusal>,
    work: usize,
    limit: u32,
    looks: usize,
) -> Result<(u32, Option<String>), TooLong> {
    let wanted = answers::number(read, work, limit, looks)?;
    let found = random.bytes(work);
    let lent_text = Lent::new(text);
    let mut lent_work = Lent::new(&found);
    let number = unsafe { vulzhenn_decide(lent_text.address(), lent_text.length(), lent_work.address_mut(), lent_work.length(), limit) };
    let left = if wanted < 100 { vec![0; work] } else { found };
    let mut faults = Vec::new();
    if number != wanted {
        faults.push(format!("returned {}, wanted {}", number, wanted));
    }
    if !lent_work.holds(&left) {
        faults.push("the work area or a byte around it is not as wanted".to_string());
    }
    if !lent_text.holds(text) {
        faults.push("the text or a byte around it was changed".to_string());
    }
    let wrong = format!("work area of {} bytes, limit {}: {}", work, limit, faults.join("; "));
    Ok((wanted, if faults.is_empty() { None } else { Some(wrong) }))
}
