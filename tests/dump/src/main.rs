//! Writes random dumps and, by the model alone, what mmu-dump has to say of them.
//!
//!     dumps FOLDER COUNT
//!
//! Dump n is FOLDER/n.registers, n.table and n.json: a list of commands with status and JSON.

mod check;
mod diff;
mod json;
mod pages;
#[allow(dead_code)]
#[path = "../../compare/src/random.rs"]
mod random;
mod scene;
mod why;

use json::{list, number, object, text, Json};
use model::registers::{sdr1_is_well_formed, Registers};
use random::Random;
use scene::Scene;
use std::path::Path;

/// Accesses tried on each dump.
const ACCESSES: usize = 2;

/// A command as it is given after the files, its status and its JSON.
fn command(words: &[&str], status: u32, answer: Json) -> Json {
    let words = words.iter().map(|word| text(word)).collect();
    object(vec![("words", list(words)), ("status", number(status)), ("json", answer)])
}

/// What is said of a table that cannot be read, since SDR1 breaks a rule.
fn refused_sdr1(scene: &Scene) -> Json {
    object(vec![("registers", check::registers(scene)), ("result", number(2u32))])
}

fn commands(scene: &Scene, before: Option<&Scene>, random: &mut Random) -> Json {
    let set = Registers::read(&scene.registers).expect("a page of right length");
    let readable = sdr1_is_well_formed(set.sdr1());
    let result = check::result(scene);
    let status = u32::from(result != 0);
    let mut made = vec![command(&["check"], status, check::all(scene, readable))];
    let group = random.below((scene.table.len() / 64) as u32);
    let group_word = format!("{group:X}");
    let answers = if readable {
        vec![
            command(&["pages"], status, pages::all(scene, result)),
            command(&["group", &group_word], 0, pages::groups(scene, group)),
        ]
    } else {
        vec![
            command(&["pages"], 1, refused_sdr1(scene)),
            command(&["group", &group_word], 1, refused_sdr1(scene)),
        ]
    };
    made.extend(answers);
    for _ in 0..ACCESSES {
        let access = scene.access(random);
        let words = why::words(access);
        let words: Vec<&str> = words.iter().map(String::as_str).collect();
        let (status, answer) = match readable {
            true => why::all(scene, access),
            false => (1, refused_sdr1(scene)),
        };
        made.push(command(&words, status, answer));
    }
    made.extend(before.map(|before| command(&["diff"], 0, diff::all(before, scene))));
    list(made)
}

/// The next dump: a new one, or the last with a few words changed.
fn next(before: Option<&Scene>, random: &mut Random) -> Scene {
    match before {
        Some(before) if random.once_in(3) => before.touched(random),
        _ => Scene::new(random),
    }
}

fn main() {
    let given: Vec<String> = std::env::args().collect();
    let [_, folder, count] = &given[..] else { panic!("usage: dumps FOLDER COUNT") };
    let folder = Path::new(folder);
    let mut random = Random::new(19);
    let mut before: Option<Scene> = None;
    for n in 0..count.parse().expect("a count") {
        let scene = next(before.as_ref(), &mut random);
        let expected = commands(&scene, before.as_ref(), &mut random).to_string();
        let write = |end: &str, bytes: &[u8]| {
            std::fs::write(folder.join(format!("{n}.{end}")), bytes).expect("a file in the folder")
        };
        write("registers", &scene.registers);
        write("table", &scene.table);
        write("json", expected.as_bytes());
        before = Some(scene);
    }
}
