//! Packing and unpacking, each against the model and each undoing the other.

use model::call::Call;
use model::entry::{Fields, IGNORED_BITS, WIDTHS};
use model::words::word_at;

use crate::bench::{Bench, Difference, Lending};
use crate::machine::Machine;
use crate::random::Random;
use crate::scenes::arguments;
use crate::tally::Tally;

const ROUNDS: u32 = 50_000;

pub fn run(subject: &dyn Machine, factor: u32) -> Result<Tally, Difference> {
    let mut bench = Bench::new(subject, 0, 0);
    let mut random = Random::new(0x9ACC);
    edges(&mut bench)?;
    for _ in 0..u64::from(ROUNDS) * u64::from(factor) {
        let fields = arguments::fields(&mut random);
        unpacked_again(&mut bench, fields)?;
        let spoiled = arguments::spoiled_fields(&mut random, fields);
        compare(&mut bench, &Call::Pack(spoiled))?;
        let ignored = random.pick(&[0, IGNORED_BITS]);
        packed_again(&mut bench, random.word(), random.word() & !ignored)?;
    }
    Ok(bench.tally)
}

fn compare(bench: &mut Bench, call: &Call) -> Result<u32, Difference> {
    bench.lend_answer(call);
    bench.compare(call, Lending::Table)
}

/// Each field alone at its largest value, one past it, and at each single bit of a word.
fn edges(bench: &mut Bench) -> Result<(), Difference> {
    for (field, width) in WIDTHS.into_iter().enumerate() {
        let bits = (0..32).map(|bit| 1 << bit);
        for value in bits.chain([(1 << width) - 1, 1 << width, u32::MAX]) {
            let mut list = [0; 9];
            list[field] = value;
            compare(bench, &Call::Pack(Fields::of_list(list)))?;
        }
    }
    for bit in 0..32 {
        packed_again(bench, 1 << bit, 0)?;
        packed_again(bench, 0, 1 << bit)?;
    }
    Ok(())
}

/// Unpacking what was packed gives the fields.
fn unpacked_again(bench: &mut Bench, fields: Fields) -> Result<(), Difference> {
    compare(bench, &Call::Pack(fields))?;
    let entry = bench.answer.subject_bytes();
    let (first, second) = (word_at(entry, 0), word_at(entry, 4));
    compare(bench, &Call::Unpack { first, second })?;
    let got = subject_fields(bench);
    same("fields packed and unpacked", fields.list(), got.list())
}

/// Packing what was unpacked gives the words, ignored bits zero.
fn packed_again(bench: &mut Bench, first: u32, second: u32) -> Result<(), Difference> {
    compare(bench, &Call::Unpack { first, second })?;
    let fields = subject_fields(bench);
    compare(bench, &Call::Pack(fields))?;
    let entry = bench.answer.subject_bytes();
    let got = [word_at(entry, 0), word_at(entry, 4)];
    same("words unpacked and packed", [first, second & !IGNORED_BITS], got)
}

fn subject_fields(bench: &Bench) -> Fields {
    let bytes = bench.answer.subject_bytes();
    Fields::of_list(std::array::from_fn(|field| word_at(bytes, 4 * field)))
}

fn same<const N: usize>(what: &str, expected: [u32; N], got: [u32; N]) -> Result<(), Difference> {
    if expected == got {
        return Ok(());
    }
    let text = format!("{what}\n  expected {expected:x?}\n  got      {got:x?}");
    Err(Difference::new(text))
}
