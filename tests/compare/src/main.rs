//! Compares the library with the model on fixed inputs and says what was compared.
//!
//! MMU_TEST_FACTOR, 1 where it is not set, multiplies the number of random calls.

mod arrangements;
mod bench;
mod cached;
mod cached_limits;
mod cached_runs;
mod cases;
mod decisions;
mod duplicates;
mod edges;
mod exhaustive;
mod flaws;
mod gaps;
mod guarded;
mod hits;
mod lengths;
mod lists;
mod lost;
mod lost_limits;
mod machine;
mod operands;
mod packing;
mod pages;
mod quick;
mod random;
mod region;
mod rights;
mod scenes;
mod singles;
mod tally;
mod told;
mod turned;
mod vectors;
mod watch;
mod widened;

use std::process::{Command, ExitCode};

use mmu::{Empty, Mmu};
use model::bytes::Model;
use model::call::NAMES;

use bench::Difference;
use guarded::Guarded;
use machine::Machine;
use tally::Tally;

/// A comparison of some machine with the model, its random part so many times as long.
type Section = fn(&dyn Machine, u32) -> Result<Tally, Difference>;

const SECTIONS: [(&str, Empty, Section); 17] = [
    ("recorded accesses", Empty::Null, vectors::run),
    ("packing", Empty::Null, packing::run),
    ("complete tables", Empty::Null, exhaustive::run),
    ("first words, bits turned", Empty::Null, turned::run),
    ("edges of the quick test", Empty::Null, quick::run),
    ("operands at page edges", Empty::Null, edges::run),
    ("short and widened pages", Empty::Null, widened::run),
    ("lengths, empty as NULL", Empty::Null, lengths::run),
    ("lengths, empty as lent", Empty::AsLent, lengths::run),
    ("single calls", Empty::Null, singles::run),
    ("lists of calls", Empty::Null, lists::run),
    ("rights", Empty::Null, rights::run),
    ("caches of any bytes", Empty::Null, cached::run),
    ("runs with a cache", Empty::Null, cached_runs::run),
    ("limits of the promise", Empty::Null, cached_limits::run),
    ("runs with a lost call", Empty::Null, lost::run),
    ("limits of a lost call", Empty::Null, lost_limits::run),
];

/// The argument that makes the program read a byte it must not, to show that the guard works.
const READ_PAST_END: &str = "--read-past-end";

fn main() -> ExitCode {
    watch::install();
    if std::env::args().nth(1).as_deref() == Some(READ_PAST_END) {
        return ExitCode::from(Guarded::new(1).read_past_end());
    }
    match compare_all() {
        Ok(()) => ExitCode::SUCCESS,
        Err(difference) => {
            let Difference { text, calls } = difference;
            eprintln!("bad, after {calls} calls\n{text}");
            ExitCode::FAILURE
        }
    }
}

fn factor() -> u32 {
    match std::env::var("MMU_TEST_FACTOR") {
        Err(_) => 1,
        Ok(text) => text.parse().expect("MMU_TEST_FACTOR is a number"),
    }
}

fn compare_all() -> Result<(), Difference> {
    let factor = factor();
    test_the_tests(factor)?;
    let empty = Empty::Null;
    cases::run(&Mmu { empty })?;
    println!("{:<24}{:>9}", "the twelve cases", 12);
    let mut total = Tally::default();
    for (name, empty, section) in SECTIONS {
        let tally = section(&Mmu { empty }, factor)?;
        println!("{name:<24}{:>9}", tally.calls);
        total.add(&tally);
    }
    println!("{:<24}{:>9}", "all", total.calls);
    print_results(&total);
    Ok(())
}

/// Guard, model, finite map and comparison, before anything is said of the library.
fn test_the_tests(factor: u32) -> Result<(), Difference> {
    test_guard()?;
    cases::run(&Model::default())?;
    vectors::run(&Model::default(), factor)?;
    let [without, with] = arrangements::run()?;
    println!("arrangements: {with} exist, {without} do not, as by trying all");
    let found = flaws::run(factor)?;
    println!(
        "wrong models found: {}, {} of them by the finite map alone, {} at page edges alone, \
         {} by a widened page alone, {} at the edges of the quick test alone, {} by a lost call alone; \
         {} more by a bit turned at a place, {} more at the edges of the quick test; \
         of the cache {}, {} of them by a run without a cache alone; \
         of rights {}, {} of them by three accesses alone; \
         wrong maps found: {}; none took more than {} calls; {} wrong models only the table shows",
        found.models,
        found.by_map,
        found.by_edges,
        found.by_widening,
        found.by_quick_edges,
        found.by_lost_call,
        found.by_turned_bit,
        found.of_quick_test,
        found.of_cache,
        found.by_runs,
        found.of_rights,
        found.by_accesses,
        found.maps,
        found.most_calls,
        found.left_to_table
    );
    Ok(())
}

fn test_guard() -> Result<(), Difference> {
    let program = std::env::current_exe().expect("the program knows its file");
    let output = Command::new(program).arg(READ_PAST_END).output();
    let status = output.expect("the program can be started").status;
    match status.code() == Some(watch::STOPPED) {
        true => Ok(()),
        false => Err(Difference::new("a read past guarded memory was not stopped")),
    }
}

fn print_results(total: &Tally) {
    println!("results by call:");
    for name in NAMES {
        let numbers = total.numbers().iter().filter(|((call, _), _)| *call == name);
        let counts: Vec<_> =
            numbers.map(|((_, number), count)| format!("{number}: {count}")).collect();
        println!("  {name:<10} {}", counts.join("  "));
    }
    let mut refusals = std::collections::BTreeMap::new();
    for ((_, number), count) in total.numbers() {
        *refusals.entry(number).or_insert(0) += count;
    }
    let counts: Vec<_> =
        refusals.iter().map(|(number, count)| format!("{number}: {count}")).collect();
    println!("  {:<10} {}", "all", counts.join("  "));
    let rules = total.decisions.by_rule();
    let counts: Vec<_> = rules.iter().map(|(rule, count)| format!("{rule}: {count}")).collect();
    println!("accesses by the rule shown: {}", counts.join("  "));
    let fields = total.duplicates.by_field();
    let counts: Vec<_> = fields.iter().map(|(field, count)| format!("{field}: {count}")).collect();
    let (equal, unequal) = (total.duplicates.equal, total.duplicates.unequal);
    println!("searches with several matches: {equal} equal, {unequal} not equal");
    println!("  that differ in one field alone: {}", counts.join("  "));
    println!("searches whose first match stands behind an entry with V = 0: {}", total.gaps.behind);
    let [hits, loads] = total.hits.counts();
    println!("accesses with a cache: {hits} parts hit, {loads} loaded a new page");
    let marks = total.told.by_marks();
    let counts: Vec<_> = marks.iter().map(|(marks, count)| format!("{marks:x}: {count}")).collect();
    println!(
        "accesses told by rights, by the marks that they would newly set: {}",
        counts.join("  ")
    );
    println!("maps that took a place in front of used entries: {}", total.gaps.in_front);
    let lost = &total.lost;
    println!(
        "after calls later than a lost one, by {} looks: mapped pages differ {}, each has one {}; \
         other words of a common page {}, two pages by number of calls {}; of two lost, two pages {}",
        lost.looks,
        lost.of_one(lost::DIFFER),
        lost.of_one(lost::ONE_EACH),
        lost.of_one(lost::OTHER_WORDS),
        lost.of_one(lost::BY_NUMBER),
        lost.of_two(lost::TWO_PAGES)
    );
}
