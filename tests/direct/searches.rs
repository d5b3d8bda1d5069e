//! Random searches and judgements over lent rows, from a few unknowns to 128 and from one row to 256.

use crate::compare;
use crate::draw::{self, Sizes};
use crate::random::Random;
use crate::tally::Tally;

/// So many looks at a row the reference may take; a longer case is left out.
const LOOKS: usize = 120_000;

struct Group {
    name: &'static str,
    cases: usize,
    sizes: Sizes,
}

const GROUPS: [Group; 7] = [
    Group {
        name: "few unknowns",
        cases: 40_000,
        sizes: Sizes { unknowns: (0, 8), room: (1, 6), density: 4, window: 8, around_a_model: false },
    },
    Group {
        name: "few unknowns around a model",
        cases: 40_000,
        sizes: Sizes { unknowns: (2, 8), room: (1, 8), density: 6, window: 8, around_a_model: true },
    },
    Group {
        name: "middle sizes",
        cases: 6_000,
        sizes: Sizes { unknowns: (6, 24), room: (2, 40), density: 3, window: 8, around_a_model: false },
    },
    Group {
        name: "middle sizes around a model",
        cases: 20_000,
        sizes: Sizes { unknowns: (9, 24), room: (1, 12), density: 6, window: 24, around_a_model: true },
    },
    Group {
        name: "many unknowns around a model",
        cases: 1_000,
        sizes: Sizes { unknowns: (40, 128), room: (1, 16), density: 6, window: 9, around_a_model: true },
    },
    Group {
        name: "many rows",
        cases: 150,
        sizes: Sizes { unknowns: (8, 60), room: (100, 256), density: 2, window: 6, around_a_model: false },
    },
    Group {
        name: "128 unknowns",
        cases: 150,
        sizes: Sizes { unknowns: (128, 128), room: (1, 256), density: 2, window: 5, around_a_model: false },
    },
];

/// As many as there are groups.
pub const COUNT: usize = GROUPS.len();

/// Each case of a group is a search; two in five are put to the judge too.
pub fn compare_group(i: usize, random: &mut Random, times: usize, tally: &mut Tally) {
    let group = &GROUPS[i];
    let (mut compared, mut left_out, mut found, mut accepted) = (0, 0, 0, 0);
    for case in 0..group.cases * times {
        let side = draw::side(random);
        let lending = draw::lending(random, &group.sizes, side);
        let wanted = match lending.searched(side, LOOKS) {
            Ok(wanted) => wanted,
            Err(_) => {
                left_out += 1;
                continue;
            }
        };
        found += usize::from(wanted.0 == 1);
        tally.case(compare::search_with(&lending, side, wanted.clone()));
        compared += 1;
        if case % 5 < 2 {
            let judged = (u64::from(wanted.0 == 0), vec![0; wanted.1.len()]);
            accepted += judged.0;
            tally.case(compare::judge_with(&lending, side.kind(), judged));
            compared += 1;
        }
    }
    println!("{}: {} compared, {} left out; {} first models, {} claims accepted", group.name, compared, left_out, found, accepted);
}
