//! The finite map's search for an arrangement, held to trying every choice.

use model::arrangement;

use crate::bench::Difference;
use crate::random::Random;

const ROUNDS: u32 = 2_000;

/// Random pages with two of a few groups each; how many of them have an arrangement.
pub fn run() -> Result<[u32; 2], Difference> {
    let mut random = Random::new(0xA44A);
    let mut counts = [0; 2];
    for _ in 0..ROUNDS {
        let groups = 2 + random.below(4);
        let mut group = || random.below(groups);
        let choices: Vec<Vec<u32>> = (0..10).map(|_| vec![group(), group()]).collect();
        let pages = random.index(choices.len() + 1);
        let (choices, capacity) = (&choices[..pages], 1 + random.index(4));
        let expected = some_choice_fits(choices, capacity);
        if arrangement::exists(choices, capacity) != expected {
            let text = format!("arrangement of {choices:?} by {capacity}\n  expected {expected}");
            return Err(Difference::new(text));
        }
        counts[usize::from(expected)] += 1;
    }
    Ok(counts)
}

fn some_choice_fits(choices: &[Vec<u32>], capacity: usize) -> bool {
    (0..1usize << choices.len()).any(|chosen| {
        let mut used = [0; 6];
        for (page, groups) in choices.iter().enumerate() {
            used[groups[chosen >> page & 1] as usize] += 1;
        }
        used.iter().all(|&pages| pages <= capacity)
    })
}
