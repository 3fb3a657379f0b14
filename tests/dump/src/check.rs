//! What `mmu-dump check` has to say.

use crate::json::{containing, list, number, object, text, Json};
use crate::scene::Scene;
use model::bytes::Model;
use model::call::{Access, Call, Lent, LOAD, STORE};
use model::registers::{sdr1_is_well_formed, Block, Layout, Registers, Side};
use model::translation::{before_search, BeforeSearch, Outcome};
use model::words::{bits, ones_at_low_end, word_at};

/// The model's check.
pub fn result(scene: &Scene) -> u32 {
    let mut registers = scene.registers.clone();
    let lent = Lent { registers: &mut registers, table: &mut [], cache: &mut [], answer: &mut [] };
    Model::default().perform(&Call::Check, lent)
}

pub fn all(scene: &Scene, readable: bool) -> Json {
    let mut members = vec![("registers", registers(scene))];
    if readable {
        let used = scene.table.chunks(8).filter(|entry| entry[0] >= 0x80).count();
        members.push((
            "table",
            object(vec![
                ("bytes", number(scene.table.len() as u64)),
                ("groups", number(scene.table.len() as u64 / 64)),
                ("used", number(used as u64)),
            ]),
        ));
    }
    object(members)
}

fn word(scene: &Scene, at: usize) -> u32 {
    word_at(&scene.registers, 4 * at)
}

pub fn registers(scene: &Scene) -> Json {
    let set = Registers::read(&scene.registers).expect("a page of right length");
    let words = scene.registers.chunks(4).map(|bytes| number(word_at(bytes, 0))).collect();
    let segments = set.segments().map(|segment| {
        object(vec![
            ("vsid", number(segment.vsid())),
            ("ks", number(segment.key(false))),
            ("kp", number(segment.key(true))),
            ("n", number(u32::from(segment.no_execute()))),
        ])
    });
    let blocks = both_sides(&set)
        .into_iter()
        .map(|(side, pair, block)| json_block(&set, side, pair, &block));
    object(vec![
        ("bytes", number(scene.registers.len() as u64)),
        ("words", list(words)),
        ("segments", list(segments.collect())),
        ("blocks", list(blocks.collect())),
        ("result", number(result(scene))),
        ("broken", list(broken(scene, &set))),
    ])
}

fn both_sides(set: &Registers) -> Vec<(Side, usize, Block)> {
    let of = |side| {
        set.blocks(side).into_iter().enumerate().map(move |(pair, block)| (side, pair, block))
    };
    of(Side::Instruction).chain(of(Side::Data)).collect()
}

fn upper_number(set: &Registers, side: Side, pair: usize) -> usize {
    set.layout.first_register(side) + 2 * pair
}

fn json_block(set: &Registers, side: Side, pair: usize, block: &Block) -> Json {
    let side_name = if side == Side::Data { "data" } else { "instruction" };
    let mut members = vec![
        ("side", text(side_name)),
        ("pair", number(pair as u64)),
        ("word", number(upper_number(set, side, pair) as u64)),
        ("on", Json::Flag(block.is_on())),
    ];
    if block.is_on() {
        members.extend(vec![
            ("shaped", Json::Flag(block.is_well_formed(side))),
            ("supervisor", Json::Flag(block.is_valid_in(false))),
            ("user", Json::Flag(block.is_valid_in(true))),
            ("wimg", number(block.wimg())),
            ("pp", number(block.pp())),
            ("rights", text(block_rights(block.pp()))),
        ]);
    }
    if block.is_on() && block.is_well_formed(side) {
        members.extend(vec![
            ("start", number(block.start())),
            ("length", number(block.length())),
            ("physical", number(block.physical(block.start() as u32))),
        ]);
    }
    object(members)
}

/// The rights of a block with this PP, by what the model does with a load and a store at its start.
fn block_rights(pp: u32) -> &'static str {
    let mut words = [0; 33];
    words[25] = 2;
    words[26] = pp;
    let set = Registers::of_words(Layout::SHORT, &words);
    let allowed = |kind| {
        let access = Access { mode: 1, kind, address: 0, length: 1 };
        matches!(before_search(None, &set, access), BeforeSearch::Settled(Outcome::Block { .. }))
    };
    rights(allowed(LOAD), allowed(STORE))
}

pub fn rights(read: bool, write: bool) -> &'static str {
    match (read, write) {
        (_, true) => "write",
        (true, false) => "read",
        (false, false) => "none",
    }
}

/// The name of a register word.
pub fn name(layout: Layout, word: usize) -> String {
    let data = layout.first_register(Side::Data);
    let half = |from: usize| format!("{}{}", (word - from) / 2, ["U", "L"][(word - from) % 2]);
    match word {
        0 => "SDR1".to_string(),
        1..=16 => format!("SR{}", word - 1),
        _ if word < data => format!("IBAT{}", half(17)),
        _ => format!("DBAT{}", half(data)),
    }
}

/// Every broken rule, with the word that breaks it.
fn broken(scene: &Scene, set: &Registers) -> Vec<Json> {
    let mut found: Vec<(u32, usize, Option<usize>, &str)> = Vec::new();
    let sdr1 = set.sdr1();
    let (origin, mask) = (bits(sdr1, 0, 15), bits(sdr1, 23, 31));
    let of_sdr1 = [
        (bits(sdr1, 16, 22) != 0, "bits 16 to 22"),
        (!ones_at_low_end(mask), "mask"),
        (origin & mask != 0, "origin"),
    ];
    found.extend(of_sdr1.iter().filter(|(is, _)| *is).map(|&(_, what)| (2, 0, None, what)));
    assert_eq!(found.is_empty(), sdr1_is_well_formed(sdr1));
    for (side, pair, block) in both_sides(set) {
        let of_pair = shape(set, side, &block);
        assert_eq!(
            of_pair.is_empty() || !block.is_on(),
            block.is_well_formed(side) || !block.is_on()
        );
        if block.is_on() {
            let upper = upper_number(set, side, pair);
            found.extend(of_pair.into_iter().map(|(lower, what)| (3, upper + lower, None, what)));
        }
    }
    for (second_at, (side, second, other)) in both_sides(set).into_iter().enumerate() {
        for (of, first, one) in both_sides(set).into_iter().take(second_at) {
            let shaped = of == side && one.is_well_formed(side) && other.is_well_formed(side);
            if shaped && one.shares_an_address(&other) && one.shares_a_valid_bit(&other) {
                let words = [second, first].map(|pair| upper_number(set, side, pair));
                found.push((4, words[0], Some(words[1]), "shares"));
            }
        }
    }
    for n in 1..17 {
        let of_segment = [
            (bits(word(scene, n), 0, 0) != 0, "T"),
            (bits(word(scene, n), 4, 7) != 0, "bits 4 to 7"),
        ];
        found.extend(of_segment.iter().filter(|(is, _)| *is).map(|&(_, what)| (5, n, None, what)));
    }
    assert_eq!(found.first().map_or(0, |first| first.0), result(scene));
    found
        .into_iter()
        .map(|(refusal, word, other, what)| json_broken(set, refusal, word, other, what))
        .collect()
}

fn json_broken(
    set: &Registers,
    refusal: u32,
    word: usize,
    other: Option<usize>,
    what: &str,
) -> Json {
    let mut members = vec![
        ("refusal", number(refusal)),
        ("word", number(word as u64)),
        ("name", text(&name(set.layout, word))),
        ("what", containing(what)),
    ];
    members.extend(other.map(|other| ("other", number(other as u64))));
    object(members)
}

/// The rules of block words that a pair breaks: 0 for the upper word or 1 for the lower, and a word of the rule.
fn shape(set: &Registers, side: Side, block: &Block) -> Vec<(usize, &'static str)> {
    let bl = bits(block.upper, if set.layout.is_long() { 15 } else { 19 }, 29);
    let wimg = block.wimg();
    let rules = [
        (!set.layout.is_long() && bits(block.upper, 15, 18) != 0, 0, "bits 15 to 18"),
        (!ones_at_low_end(bl), 0, "BL must"),
        (bits(block.upper, 0, 14) & bl != 0, 0, "BEPI"),
        (
            bits(block.lower, 15, 24) != 0 || bits(block.lower, 29, 29) != 0,
            1,
            "bits 15 to 24 and 29",
        ),
        (bits(block.lower, 0, 14) & bl != 0, 1, "BRPN"),
        (wimg & 0b1100 == 0b1100, 1, "W and I"),
        (side == Side::Instruction && wimg & 0b1001 != 0, 1, "W and G"),
    ];
    rules.into_iter().filter(|(is, ..)| *is).map(|(_, lower, what)| (lower, what)).collect()
}
