//! The comparison tried on models that are wrong: it has to find each.

use model::bytes::Model;
use model::flaw::{CacheFlaw, Flaw, MapFlaw, RecordFlaw};
use model::rights_flaw::RightsFlaw;

use crate::bench::{self, Difference};
use crate::lists::{self, Judges};
use crate::tally::Tally;
use crate::{
    cached, cached_limits, cached_runs, edges, exhaustive, lengths, lost, lost_limits, packing,
    quick, rights, singles, turned, widened, Section,
};

/// The comparisons a wrong model goes through, as the library does, until one finds it.
const SECTIONS: [Section; 5] =
    [singles::run, lists::run, exhaustive::run, lengths::run, packing::run];

/// What was found, and the most calls any of it took.
#[derive(Default)]
pub struct Found {
    pub models: usize,
    pub by_map: usize,
    pub by_edges: usize,
    pub by_widening: usize,
    /// Those that are wrong about one bit of the first word at one place.
    pub by_turned_bit: usize,
    pub by_quick_edges: usize,
    /// Those that are asked at the edges of the quick test alone, one for each bit of a register page among them.
    pub of_quick_test: usize,
    /// Those about the translation cache.
    pub of_cache: usize,
    /// Those of them that a run without a cache shows, with no other judge.
    pub by_runs: usize,
    /// Those about rights.
    pub of_rights: usize,
    /// Those of them that three accesses of the same machine show, with no other judge.
    pub by_accesses: usize,
    /// Those that two runs show of which one lacks a call, with no other judge.
    pub by_lost_call: usize,
    pub maps: usize,
    /// Those that the finite map, which knows no place, rightly lets pass.
    pub left_to_table: usize,
    pub most_calls: u64,
}

impl Found {
    fn calls(&mut self, outcome: Result<Tally, Difference>, name: &str) -> Result<(), Difference> {
        match outcome {
            Ok(_) => Err(Difference::new(format!("not found: {name}"))),
            Err(difference) => {
                self.most_calls = self.most_calls.max(difference.calls);
                Ok(())
            }
        }
    }
}

pub fn run(factor: u32) -> Result<Found, Difference> {
    let mut found = Found::default();
    by_the_comparison(&mut found, factor)?;
    by_the_map_alone(&mut found, factor)?;
    at_page_edges(&mut found, factor)?;
    by_widening_alone(&mut found, factor)?;
    by_a_turned_bit(&mut found)?;
    at_the_quick_test(&mut found)?;
    of_the_cache(&mut found, factor)?;
    by_a_run_without_cache(&mut found, factor)?;
    of_rights(&mut found, factor)?;
    by_a_lost_call(&mut found, factor)?;
    of_the_map(&mut found, factor)?;
    left_to_the_table(&mut found, factor)?;
    Ok(found)
}

fn by_the_comparison(found: &mut Found, factor: u32) -> Result<(), Difference> {
    let of_record =
        [&RecordFlaw::IN_MAP[..], &RecordFlaw::IN_TABLE, &RecordFlaw::OF_PLACE].concat();
    let of_record = of_record.into_iter().map(Flaw::Record);
    let of_pages = Flaw::WITHIN_PAGE.into_iter().chain(Flaw::GAPS).chain(Flaw::DUPLICATES);
    let of_calls = of_pages.chain(Flaw::OPERANDS).chain(Flaw::LENGTHS).chain(Flaw::ORDERS);
    for flaw in of_calls.chain(of_record) {
        let model = Model::with(flaw);
        let outcome =
            SECTIONS.iter().try_fold(Tally::default(), |_, section| section(&model, factor));
        found.calls(outcome, &format!("{flaw:?} by the comparison"))?;
        found.models += 1;
    }
    Ok(())
}

fn by_the_map_alone(found: &mut Found, factor: u32) -> Result<(), Difference> {
    let of_record = RecordFlaw::IN_MAP.into_iter().map(Flaw::Record);
    let of_calls = Flaw::AFTER_CLEAR.into_iter().chain(Flaw::OPERANDS);
    let of_rights = RightsFlaw::in_map().map(Flaw::Rights);
    for flaw in of_calls.chain(Flaw::LENGTHS_IN_LISTS).chain(of_record).chain(of_rights) {
        let model = Model::with(flaw);
        let outcome = lists::run_with(&model, factor, Judges::MapAlone, None);
        found.calls(outcome, &format!("{flaw:?} by the finite map"))?;
        found.by_map += 1;
    }
    Ok(())
}

fn at_page_edges(found: &mut Found, factor: u32) -> Result<(), Difference> {
    let of_parts = RecordFlaw::OF_PARTS.into_iter().map(Flaw::Record);
    for flaw in Flaw::OPERANDS.into_iter().chain(of_parts) {
        let outcome = edges::run(&Model::with(flaw), factor);
        found.calls(outcome, &format!("{flaw:?} at page edges"))?;
        found.by_edges += 1;
    }
    Ok(())
}

/// A short page held to the same page widened, without the model.
fn by_widening_alone(found: &mut Found, factor: u32) -> Result<(), Difference> {
    for flaw in Flaw::WIDENED {
        let alone = bench::Judges::StatementAlone;
        let outcome = widened::run_with(&Model::with(flaw), factor, alone);
        found.calls(outcome, &format!("{flaw:?} by the widened page"))?;
        found.by_widening += 1;
    }
    Ok(())
}

/// Each bit of the first word not compared at each place, held to what a turned bit has to do, without the model.
fn by_a_turned_bit(found: &mut Found) -> Result<(), Difference> {
    for flaw in Flaw::of_first_words() {
        let outcome = turned::run_with(&Model::with(flaw), bench::Judges::StatementAlone);
        found.calls(outcome, &format!("{flaw:?} by a turned bit"))?;
        found.by_turned_bit += 1;
    }
    Ok(())
}

/// Pages at the edges of the quick test, held to what has to come of them, without the model; the right one passes.
fn at_the_quick_test(found: &mut Found) -> Result<(), Difference> {
    let alone = bench::Judges::StatementAlone;
    quick::run_with(&Model::default(), alone)?;
    for flaw in Flaw::AT_QUICK_TEST {
        let outcome = quick::run_with(&Model::with(flaw), alone);
        found.calls(outcome, &format!("{flaw:?} at the quick test"))?;
        found.by_quick_edges += 1;
    }
    for flaw in Flaw::QUICK.into_iter().chain(Flaw::of_register_bits()) {
        let outcome = quick::run_with(&Model::with(flaw), alone);
        found.calls(outcome, &format!("{flaw:?} at the quick test"))?;
        found.of_quick_test += 1;
    }
    Ok(())
}

/// Caches of any bytes show each mistake about the cache.
fn of_the_cache(found: &mut Found, factor: u32) -> Result<(), Difference> {
    for flaw in CacheFlaw::ALL {
        let outcome = cached::run(&Model::with(Flaw::Cache(flaw)), factor);
        found.calls(outcome, &format!("{flaw:?} by a cache of any bytes"))?;
        found.of_cache += 1;
    }
    Ok(())
}

/// A run with a cache held to the same run without, and to the finite map after a clear; the right one passes, and so
/// do those that keep the promise with another place or another age.
fn by_a_run_without_cache(found: &mut Found, factor: u32) -> Result<(), Difference> {
    let alone = bench::Judges::StatementAlone;
    cached_limits::run(&Model::default(), factor)?;
    cached_runs::run_with(&Model::default(), factor, alone)?;
    for flaw in CacheFlaw::UNSEEN_IN_RUNS {
        cached_runs::run_with(&Model::with(Flaw::Cache(flaw)), factor, alone)?;
    }
    for flaw in CacheFlaw::IN_RUNS {
        let outcome = cached_runs::run_with(&Model::with(Flaw::Cache(flaw)), factor, alone);
        found.calls(outcome, &format!("{flaw:?} by a run without a cache"))?;
        found.by_runs += 1;
    }
    Ok(())
}

/// Each mistake about rights shows beside the model, and again beside three accesses of the same machine alone, to which
/// the right one is equal.
fn of_rights(found: &mut Found, factor: u32) -> Result<(), Difference> {
    let alone = bench::Judges::StatementAlone;
    rights::run_with(&Model::default(), factor, alone)?;
    for flaw in RightsFlaw::ALL {
        let model = Model::with(Flaw::Rights(flaw));
        let outcome = rights::run(&model, factor);
        found.calls(outcome, &format!("{flaw:?} by rights"))?;
        found.of_rights += 1;
        let outcome = rights::run_with(&model, factor, alone);
        found.calls(outcome, &format!("{flaw:?} by three accesses"))?;
        found.by_accesses += 1;
    }
    Ok(())
}

/// Two runs of which one lacks a call, held to each other without the model; the right one passes.
fn by_a_lost_call(found: &mut Found, factor: u32) -> Result<(), Difference> {
    let alone = bench::Judges::StatementAlone;
    lost_limits::run(&Model::default(), factor)?;
    lost::run_with(&Model::default(), factor, alone)?;
    for flaw in Flaw::IN_LOST_RUNS {
        let outcome = lost::run_with(&Model::with(flaw), factor, alone);
        found.calls(outcome, &format!("{flaw:?} by a lost call"))?;
        found.by_lost_call += 1;
    }
    Ok(())
}

fn of_the_map(found: &mut Found, factor: u32) -> Result<(), Difference> {
    let of_record = RecordFlaw::IN_MAP.into_iter().map(MapFlaw::Record);
    for flaw in MapFlaw::OF_PAGES.into_iter().chain(of_record) {
        let model = Model::default();
        let outcome = lists::run_with(&model, factor, Judges::MapAlone, Some(flaw));
        found.calls(outcome, &format!("{flaw:?} of the finite map"))?;
        found.maps += 1;
    }
    Ok(())
}

/// A wrong place passes the finite map, which has none to hold it to; and so do rights that are wrong about it, about
/// entries that no call leaves, or at 11.
fn left_to_the_table(found: &mut Found, factor: u32) -> Result<(), Difference> {
    let of_rights = RightsFlaw::UNSEEN_BY_MAP.into_iter().map(Flaw::Rights);
    let of_place = RecordFlaw::OF_PLACE.into_iter().map(Flaw::Record).chain(Flaw::OF_FREE_PLACE);
    for flaw in of_place.chain(of_rights) {
        let model = Model::with(flaw);
        lists::run_with(&model, factor, Judges::MapAlone, None)?;
        found.left_to_table += 1;
    }
    Ok(())
}
