//! Single accesses as an emulator of others performed them; nothing here goes by the model's word.

use model::bytes::Model;
use model::call::{Access, Call};
use model::registers::{table_length, SHORT_PAGE};
use model::words::word_at;

use crate::bench::{Before, Bench, Difference, Lending};
use crate::machine::Machine;
use crate::tally::Tally;

/// Each file, and how many of its lines fit the rules.
const FILES: [(&str, &str, usize); 2] = [
    ("qemu-750.txt", include_str!("../../vectors/qemu-750.txt"), 453),
    ("qemu-970-fetch.txt", include_str!("../../vectors/qemu-970-fetch.txt"), 64),
];

/// How many lines search for a page with several matches; in each they are equal.
const WITH_DUPLICATES: u64 = 36;

struct Vector {
    file: &'static str,
    id: String,
    registers: Vec<u8>,
    access: Access,
    entries: Vec<Entry>,
    result: u32,
    /// The physical address or the fault word.
    word: u32,
    offset: u32,
    address: u32,
}

struct Entry {
    at: usize,
    first: u32,
    second: u32,
    second_after: u32,
}

pub fn run(subject: &dyn Machine, _factor: u32) -> Result<Tally, Difference> {
    let mut tally = Tally::default();
    let mut vectors = Vec::new();
    for (file, text, fitting) in FILES {
        let of_file = text.lines().map(|line| parse(file, line));
        let fit: Vec<Vector> = of_file.filter(fits).collect();
        if fit.len() != fitting {
            let text = format!("{} lines of {file} fit, not {fitting}", fit.len());
            return Err(Difference::new(text));
        }
        vectors.extend(fit);
    }
    for ones in 0..10 {
        let length = 65_536 << ones;
        let mut bench = Bench::new(subject, length, 0);
        bench.tally = tally;
        let of_length = vectors.iter();
        for vector in of_length.filter(|vector| length == table_length(vector.sdr1())) {
            replay(&mut bench, vector)?;
        }
        tally = bench.tally;
    }
    let (equal, unequal) = (tally.duplicates.equal, tally.duplicates.unequal);
    if (equal, unequal) != (WITH_DUPLICATES, 0) {
        let text = format!("{equal} lines have equal duplicates, {unequal} have others");
        return Err(Difference::new(text));
    }
    Ok(tally)
}

impl Vector {
    fn sdr1(&self) -> u32 {
        word_at(&self.registers, 0)
    }
}

/// Whether the rules refuse none of the line's inputs: the emulator performs any.
fn fits(vector: &Vector) -> bool {
    let call = Call::Access(vector.access);
    let lengths = model::call::Lengths {
        registers: vector.registers.len(),
        table: table_length(vector.sdr1()),
        cache: 0,
        answer: call.answer_length().unwrap_or(0),
    };
    Model::default().broken(&call, &vector.registers, lengths).is_empty()
}

fn parse(file: &'static str, line: &str) -> Vector {
    let mut words = line.split_ascii_whitespace();
    let mut next = || words.next().expect("the line has every part");
    let hexadecimal = |text: &str| u32::from_str_radix(text, 16).expect("hexadecimal");
    let decimal = |text: &str| text.parse::<u32>().expect("decimal");
    let id = next().to_string();
    let registers = bytes(next());
    let (mode, kind, address) = (decimal(next()), decimal(next()), hexadecimal(next()));
    let access = Access { mode, kind, address, length: 1 };
    let mut entries = Vec::new();
    for _ in 0..decimal(next()) {
        let (group, entry) = (decimal(next()), decimal(next()));
        entries.push(Entry {
            at: 64 * group as usize + 8 * entry as usize,
            first: hexadecimal(next()),
            second: hexadecimal(next()),
            second_after: 0,
        });
    }
    let result = decimal(next());
    let [word, offset, address] = std::array::from_fn(|_| hexadecimal(next()));
    for entry in &mut entries {
        entry.second_after = hexadecimal(next());
    }
    assert!(words.next().is_none(), "the line has nothing more");
    Vector { file, id, registers, access, entries, result, word, offset, address }
}

fn bytes(text: &str) -> Vec<u8> {
    assert_eq!(text.len(), 2 * SHORT_PAGE);
    let digits = |at| &text[at..at + 2];
    let byte = |at| u8::from_str_radix(digits(at), 16).expect("hexadecimal");
    (0..text.len()).step_by(2).map(byte).collect()
}

/// Builds table and registers, performs the access, and compares with what was recorded.
fn replay(bench: &mut Bench, vector: &Vector) -> Result<(), Difference> {
    bench.registers.write(0, &vector.registers);
    for entry in &vector.entries {
        bench.table.write(entry.at, &entry.first.to_be_bytes());
        bench.table.write(entry.at + 4, &entry.second.to_be_bytes());
    }
    let call = Call::Access(vector.access);
    bench.lend_answer(&call);
    let number = bench.compare(&call, Lending::Table)?;
    compare_recorded(bench, vector, number)?;
    for entry in &vector.entries {
        bench.table.write(entry.at, &[0; 8]);
    }
    Ok(())
}

/// The third word is known of a fault alone: the emulator does not show attributes.
fn compare_recorded(bench: &Bench, vector: &Vector, number: u32) -> Result<(), Difference> {
    let answer = bench.answer.subject_bytes();
    let table = bench.table.subject_bytes();
    let word = |number: usize| word_at(answer, 4 * number);
    let mut compared = vec![
        ("result number", vector.result, number),
        ("first word", vector.result, word(0)),
        ("second word", vector.word, word(1)),
        ("fourth word", vector.address, word(3)),
    ];
    if vector.result != 0 {
        compared.push(("third word", vector.offset, word(2)));
    }
    for entry in &vector.entries {
        compared.push(("an entry's first word", entry.first, word_at(table, entry.at)));
        let got = word_at(table, entry.at + 4);
        compared.push(("an entry's second word", entry.second_after, got));
    }
    for (what, expected, got) in compared {
        if expected != got {
            let Vector { file, id, .. } = vector;
            let what =
                format!("{file} line {id}: {what}\n  recorded {expected:08X}\n  got {got:08X}");
            let call = Call::Access(vector.access);
            let before = Before {
                registers: vector.registers.clone(),
                places: Vec::new(),
                sets: Vec::new(),
            };
            return Err(bench.difference(&call, Lending::Table, &before, &what));
        }
    }
    Ok(())
}
