//! What `mmu-dump why` has to say.

use crate::json::{list, number, object, text, Json};
use crate::pages::Found;
use crate::scene::Scene;
use model::bytes::{End, Model};
use model::call::{Access, Call, Lent};
use model::record;
use model::registers::{Registers, Side};
use model::search::{contradict, group_numbers};
use model::translation::{self, Outcome};
use model::words::word_at;

const KINDS: [&str; 3] = ["fetch", "load", "store"];

/// The access as words of a command.
pub fn words(access: Access) -> Vec<String> {
    let mut words = vec!["why".to_string(), format!("{:08X}", access.address)];
    words.push(format!("--{}", KINDS[access.kind as usize]));
    if access.length != 1 {
        words.extend(["--length".to_string(), access.length.to_string()]);
    }
    words.extend((access.mode & 4 != 0).then(|| "--user".to_string()));
    words.extend((access.mode & 3 == 0).then(|| "--real".to_string()));
    words
}

/// The status and the JSON.
pub fn all(scene: &Scene, access: Access) -> (u32, Json) {
    let (mut registers, mut table) = (scene.registers.clone(), scene.table.clone());
    let mut answer = [0; 48];
    let lent =
        Lent { registers: &mut registers, table: &mut table, cache: &mut [], answer: &mut answer };
    let result = Model::default().perform(&Call::Access(access), lent);
    let word = |n: usize| word_at(&answer, 4 * n);
    let done = |n: usize| number(if result == 0 { word(n) } else { 0 });
    let fault = |n: usize| number(if result == 0 { 0 } else { word(n) });
    let json = object(vec![
        ("address", number(access.address)),
        ("length", number(access.length)),
        ("kind", text(KINDS[access.kind as usize])),
        ("user", Json::Flag(access.in_problem_state())),
        ("real", Json::Flag(!access.is_translated())),
        ("result", number(result)),
        ("physical", done(1)),
        ("attributes", done(2)),
        ("fault", fault(1)),
        ("offset", fault(2)),
        ("effective", number(word(3))),
        ("second_physical", number(word(4))),
        ("second_attributes", number(word(5))),
        ("bytes", number(word(6))),
        ("second_bytes", number(word(7))),
        ("rule", number(word(8))),
        ("detail", number(word(9))),
        ("group", number(word(10))),
        ("entry", number(word(11))),
        ("marks", marks(&scene.table, &table)),
        ("parts", list(parts(scene, access))),
    ]);
    (u32::from(result != 0), json)
}

/// The words of the table that the access changed.
fn marks(before: &[u8], after: &[u8]) -> Json {
    let changed =
        (0..before.len()).step_by(4).filter(|&at| before[at..at + 4] != after[at..at + 4]);
    list(
        changed
            .map(|at| {
                object(vec![
                    ("group", number(at as u64 / 64)),
                    ("entry", number(at as u64 % 64 / 8)),
                    ("before", number(word_at(before, at))),
                    ("after", number(word_at(after, at))),
                ])
            })
            .collect(),
    )
}

/// The parts up to the first that is not done; none where the registers break a rule.
fn parts(scene: &Scene, access: Access) -> Vec<Json> {
    if crate::check::result(scene) != 0 {
        return Vec::new();
    }
    let set = Registers::read(&scene.registers).expect("a page of right length");
    let ends = Model::default().ends(&set, access, &scene.table, None);
    let shown = ends.iter().position(|end| !end.outcome.is_done()).map_or(ends.len(), |at| at + 1);
    ends[..shown].iter().map(|end| part(scene, &set, end)).collect()
}

fn part(scene: &Scene, set: &Registers, end: &End) -> Json {
    let contradicts = end.outcome == Outcome::Contradiction;
    let [rule, detail] = match contradicts {
        true => [0, 0],
        false => record::rule_and_detail(None, set, end.part, end.outcome),
    };
    let [group, entry] = record::place(None, set, end.part, end.outcome, &end.matches);
    let mut members = vec![
        ("address", number(end.part.address)),
        ("length", number(end.part.length)),
        ("result", number(translation::answer(None, end.outcome, end.part)[0])),
        ("rule", number(rule)),
        ("detail", number(detail)),
        ("group", number(group)),
        ("entry", number(entry)),
    ];
    if end.part.is_translated() {
        members.push(("blocks", blocks(set, end.part)));
    }
    if end.part.is_translated()
        && !matches!(end.outcome, Outcome::Block { .. } | Outcome::BlockProtection { .. })
    {
        let at = 4 + 4 * (end.part.address >> 28) as usize;
        members.push(("segment", number(word_at(&scene.registers, at))));
        members.push(("vsid", number(set.segment(end.part.address).vsid())));
        members.extend(search(scene, set, end));
    }
    object(members)
}

fn blocks(set: &Registers, part: Access) -> Json {
    let names = set.blocks(Side::of_kind(part.kind)).into_iter().map(|block| {
        match (block.is_on(), block.is_valid_in(part.in_problem_state()), block.holds(part.address))
        {
            (false, ..) => "off",
            (true, false, _) => "other state",
            (true, true, false) => "elsewhere",
            (true, true, true) => "covers",
        }
    });
    list(names.map(text).collect())
}

fn search(scene: &Scene, set: &Registers, end: &End) -> Vec<(&'static str, Json)> {
    let Some(page) = end.page else { return Vec::new() };
    let groups = group_numbers(set.sdr1(), page).map(|group| group as u64);
    let address = |group: u64| number((u64::from(set.sdr1()) >> 16 << 16) + 64 * group);
    let matches = end.matches.iter().map(|place| Found::at(scene, place.group, place.entry).json());
    vec![
        ("page_index", number(page.page_index)),
        ("hash", number(page.vsid % (1 << 19) ^ page.page_index)),
        ("primary", number(groups[0])),
        ("primary_address", address(groups[0])),
        ("secondary", number(groups[1])),
        ("secondary_address", address(groups[1])),
        ("matches", list(matches.collect())),
        ("contradicts", Json::Flag(contradict(None, &end.matches))),
        ("key", number(set.segment(end.part.address).key(end.part.in_problem_state()))),
    ]
}
