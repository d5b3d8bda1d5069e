//! One call of the engine on lent tables, held against what is wanted: the number and every lent entry. What differs is returned in words.

use crate::fee::Charge;
use crate::formula::{clauses, Side};
use crate::lent::{Entry, Lent};
use crate::meaning::{meaning, meaning_behind};
use crate::model::TooLong;
use crate::probe;
use crate::rounds::{Given, Left};
use crate::rows::decoded;
use crate::study::Studied;
use crate::study_probe;
use crate::trimming;
use crate::wanted::Lending;

/// Up to this many unknowns the formula with its opening set is held against the meaning.
const BRUTE_FORCE: usize = 10;

/// The wrong case in words, or `None` if all is as wanted.
pub type Wrong = Option<String>;

/// The names of the things that are not as wanted.
struct Faults(Vec<String>);

impl Faults {
    fn number<T: PartialEq + std::fmt::Debug>(&mut self, name: &str, got: T, wanted: T) {
        if got != wanted {
            self.0.push(format!("{}: got {:?}, wanted {:?}", name, got, wanted));
        }
    }

    fn table<T: Entry>(&mut self, name: &str, lent: &Lent<T>, wanted: &[T]) {
        if !lent.holds(wanted) {
            let end = wanted.len().min(64);
            self.0.push(format!("{}: got {:?}.., wanted {:?}..", name, &lent.content()[..end], &wanted[..end]));
        }
    }

    /// What a run returns and leaves in every table.
    fn left(&mut self, tables: &probe::Tables, given: &Given, number: u64, wanted: &Left) {
        self.number("number", number, wanted.number);
        self.table("round", &tables.round, &[wanted.round]);
        self.table("universal count", &tables.universal, &[wanted.universal]);
        self.table("existential count", &tables.existential, &[wanted.existential]);
        self.table("opening", &tables.opening, &wanted.opening);
        self.table("block", &tables.block, &[wanted.block]);
        self.table("kinds", &tables.kinds, &given.kinds);
        self.table("literals", &tables.literals, &given.literals);
        self.table("preferences", &tables.preferences, &given.preferences);
        self.table("universal rows", &tables.universal_rows, &wanted.universal_rows);
        self.table("universal marks", &tables.universal_marks, &wanted.universal_marks);
        self.table("universal counts", &tables.universal_counts, &wanted.universal_counts);
        self.table("existential rows", &tables.existential_rows, &wanted.existential_rows);
        self.table("existential marks", &tables.existential_marks, &wanted.existential_marks);
        self.table("existential counts", &tables.existential_counts, &wanted.existential_counts);
        self.table("work", &tables.work, &wanted.work);
    }

    fn words(self, call: String) -> Wrong {
        if self.0.is_empty() {
            None
        } else {
            Some(format!("{}\n  {}", call, self.0.join("\n  ")))
        }
    }
}

fn shown(lending: &Lending) -> String {
    format!(
        "kinds {:?} literals {:?} preferences {:?} count {} rows {:?} work of {} bytes",
        lending.kinds,
        lending.literals,
        lending.preferences,
        lending.count,
        lending.rows.chunks(16).collect::<Vec<_>>(),
        lending.work.len()
    )
}

pub fn search(lending: &Lending, side: Side, looks: usize) -> Result<Wrong, TooLong> {
    let wanted = lending.searched(side, looks)?;
    Ok(search_with(lending, side, wanted))
}

/// The same where the wanted number and work area are known.
pub fn search_with(lending: &Lending, side: Side, wanted: (u64, Vec<u8>)) -> Wrong {
    let kinds = Lent::new(&lending.kinds);
    let literals = Lent::new(&lending.literals);
    let preferences = Lent::new(&lending.preferences);
    let rows = Lent::new(&lending.rows);
    let mut work = Lent::new(&lending.work);
    let number = probe::first_model(&kinds, &literals, &preferences, &rows, &mut work, lending.count, side);
    let mut faults = Faults(Vec::new());
    faults.number("number", number, wanted.0);
    faults.table("kinds", &kinds, &lending.kinds);
    faults.table("literals", &literals, &lending.literals);
    faults.table("preferences", &preferences, &lending.preferences);
    faults.table("rows", &rows, &lending.rows);
    faults.table("work", &work, &wanted.1);
    faults.words(format!("first model, side {:?}, {}", side, shown(lending)))
}

pub fn judge(lending: &Lending, claim: u8, looks: usize) -> Result<Wrong, TooLong> {
    let wanted = lending.judged(claim, looks)?;
    Ok(judge_with(lending, claim, wanted))
}

/// The same where the wanted number and work area are known.
pub fn judge_with(lending: &Lending, claim: u8, wanted: (u64, Vec<u8>)) -> Wrong {
    let kinds = Lent::new(&lending.kinds);
    let literals = Lent::new(&lending.literals);
    let rows = Lent::new(&lending.rows);
    let mut work = Lent::new(&lending.work);
    let number = probe::judge(&kinds, &literals, &rows, &mut work, lending.count, claim);
    let mut faults = Faults(Vec::new());
    faults.number("number", number, wanted.0);
    faults.table("kinds", &kinds, &lending.kinds);
    faults.table("literals", &literals, &lending.literals);
    faults.table("rows", &rows, &lending.rows);
    faults.table("work", &work, &wanted.1);
    faults.words(format!("judge, claim {}, {}", claim, shown(lending)))
}

pub fn run(given: &Given, looks: usize) -> Result<Wrong, TooLong> {
    let wanted = given.left(looks)?;
    Ok(run_with(given, wanted))
}

/// What is lent to a run, with guards.
pub fn tables(given: &Given) -> probe::Tables {
    probe::Tables {
        kinds: Lent::new(&given.kinds),
        literals: Lent::new(&given.literals),
        preferences: Lent::new(&given.preferences),
        universal_rows: Lent::new(&given.universal_rows),
        universal_marks: Lent::new(&given.universal_marks),
        universal_counts: Lent::new(&given.universal_counts),
        existential_rows: Lent::new(&given.existential_rows),
        existential_marks: Lent::new(&given.existential_marks),
        existential_counts: Lent::new(&given.existential_counts),
        work: Lent::new(&given.work),
        round: Lent::new(&[7]),
        universal: Lent::new(&[7]),
        existential: Lent::new(&[7]),
        opening: Lent::new(&[7; 16]),
        block: Lent::new(&[7]),
    }
}

/// The same where what it is to leave is known.
pub fn run_with(given: &Given, wanted: Left) -> Wrong {
    let mut tables = tables(given);
    let number = probe::run(&mut tables, given.limit, given.clear_every);
    let mut faults = Faults(Vec::new());
    faults.left(&tables, given, number, &wanted);
    if wanted.block > 0 && given.kinds.len() <= BRUTE_FORCE {
        let values = decoded(tables.opening.content(), 0, wanted.block);
        let clauses = clauses(&given.literals);
        faults.number("verdict behind the opening", meaning_behind(&given.kinds, &clauses, &values), meaning(&given.kinds, &clauses));
    }
    faults.words(format!("run, {}", shown_run(given)))
}

fn shown_run(given: &Given) -> String {
    format!(
        "kinds {:?} literals {:?} preferences {:?} tables of {} ({} marks, {} counts) and {} ({} marks, {} counts) bytes, work of {}, limit {}, cleared every {}",
        given.kinds,
        given.literals,
        given.preferences,
        given.universal_rows.len(),
        given.universal_marks.len(),
        given.universal_counts.len(),
        given.existential_rows.len(),
        given.existential_marks.len(),
        given.existential_counts.len(),
        given.work.len(),
        given.limit,
        given.clear_every
    )
}

/// A study, where what it is to leave is known; of few unknowns its verdict is held against the meaning of the lent formula.
pub fn study(given: &Given, settings: &[u32], wanted: &Studied) -> Wrong {
    let mut tables = tables(given);
    let lent_settings = Lent::new(settings);
    let mut setting = Lent::new(&[7]);
    let number = study_probe::study(&mut tables, &lent_settings, &mut setting);
    let mut faults = Faults(Vec::new());
    faults.left(&tables, given, number, &wanted.left);
    faults.table("settings", &lent_settings, settings);
    faults.table("setting", &setting, &[wanted.setting]);
    if number < 2 && given.kinds.len() <= BRUTE_FORCE {
        faults.number("verdict", number == 1, meaning(&given.kinds, &clauses(&given.literals)));
    }
    faults.words(format!("study, settings {:?}, {}", settings.chunks(4).collect::<Vec<_>>(), shown_run(given)))
}

/// The fee of a call, where what it is to answer is known.
pub fn fee(kinds: &[u8], rounds: u32, wanted: &Charge) -> Wrong {
    let lent = Lent::new(kinds);
    let mut cents = Lent::new(&[7]);
    let number = probe::fee(&lent, rounds, &mut cents);
    let mut faults = Faults(Vec::new());
    faults.number("number", number, wanted.number);
    faults.table("cents", &cents, &[wanted.cents]);
    faults.table("kinds", &lent, kinds);
    faults.words(format!("fee, kinds {:?} rounds {}", kinds, rounds))
}

/// The same by lent bands.
pub fn fee_with(firsts: &[u32], prices: &[u32], kinds: &[u8], rounds: u32, wanted: &Charge) -> Wrong {
    let (lent_firsts, lent_prices, lent_kinds) = (Lent::new(firsts), Lent::new(prices), Lent::new(kinds));
    let mut cents = Lent::new(&[7]);
    let number = probe::fee_with(&lent_firsts, &lent_prices, &lent_kinds, rounds, &mut cents);
    let mut faults = Faults(Vec::new());
    faults.number("number", number, wanted.number);
    faults.table("cents", &cents, &[wanted.cents]);
    faults.table("first rounds", &lent_firsts, firsts);
    faults.table("prices", &lent_prices, prices);
    faults.table("kinds", &lent_kinds, kinds);
    faults.words(format!("fee, first rounds {:?} prices {:?} kinds {:?} rounds {}", firsts, prices, kinds, rounds))
}

/// A trimming, and what it left in the output table.
pub fn trim(kinds: &[u8], literals: &[i32], output: &[i32]) -> (Wrong, Vec<i32>) {
    let wanted = trimming::wanted(kinds, literals, output);
    let lent_kinds = Lent::new(kinds);
    let lent_literals = Lent::new(literals);
    let mut lent_output = Lent::new(output);
    let mut used = Lent::new(&[7]);
    let number = probe::trim(&lent_kinds, &lent_literals, &mut lent_output, &mut used);
    let mut faults = Faults(Vec::new());
    faults.number("number", number, wanted.number);
    faults.table("used", &used, &[wanted.used]);
    faults.table("kinds", &lent_kinds, kinds);
    faults.table("literals", &lent_literals, literals);
    faults.table("output", &lent_output, &wanted.output);
    let call = format!("trim, kinds {:?} literals {:?} output of {} entries", kinds, literals, output.len());
    (faults.words(call), lent_output.content()[..wanted.used].to_vec())
}
