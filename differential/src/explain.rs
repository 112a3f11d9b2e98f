//! The place finder of `story-image explain` against the proved load: on every image of the comparison both give the
//! same number, and the place lies inside the image.

use crate::corpus::{self, Visitor};
use crate::drafts::Case;
use crate::random::Random;
use crate::target_counts;
use crate::targets;
use inspect::library;
use inspect::rules::{RULES, first_broken};
use std::collections::BTreeMap;

#[derive(Default)]
struct Places {
    images: u64,
    agreed: u64,
    differ: u64,
    /// By number and rule, how often.
    rules: BTreeMap<(u32, &'static str), u64>,
}

impl Visitor for Places {
    fn image(&mut self, name: &'static str, bytes: &[u8], _: &mut Random) {
        let number = library::load(bytes).err().unwrap_or(0);
        let broken = first_broken(bytes);
        let found = broken.as_ref().map_or(0, |broken| broken.number);
        let inside = broken.as_ref().is_none_or(|broken| broken.place.byte <= bytes.len());
        self.images += 1;
        if number == found && inside {
            self.agreed += 1;
        } else {
            self.differ += 1;
            if self.differ <= 20 {
                println!("differs: {name}: the proved load gives {number}, the place finder {broken:?}");
            }
        }
        let rule = broken.map_or("accepted", |broken| broken.rule);
        *self.rules.entry((number, rule)).or_default() += 1;
    }

    fn draft(&mut self, _: &Case, _: &mut Random) {}

    fn targets(&mut self, _: &targets::drafts::Case, _: &mut Random) {}

    fn changes(&mut self, _: &target_counts::Case, _: &mut Random) {}

    fn takes_drafts(&self) -> bool {
        false
    }
}

/// From so many cases on, every rule must come up.
const ENOUGH: u64 = 1_000;

/// True if some number differs, or a rule did not come up.
pub fn run(cases: u64, seed: u64) -> bool {
    let mut places = Places::default();
    corpus::all("places", cases, seed, &mut places);
    println!("images by number (0 is accepted) and rule:");
    for ((number, rule), count) in &places.rules {
        println!("    {number:2} {rule:26} {count:>10}");
    }
    println!("{} images, {} of them refused", places.images, places.images - places.rules[&(0, "accepted")]);
    let missing: Vec<_> = RULES.iter().filter(|rule| !places.rules.contains_key(rule)).collect();
    let unknown: Vec<_> = places.rules.keys().filter(|rule| rule.0 != 0 && !RULES.contains(rule)).collect();
    let wanting = cases >= ENOUGH && !missing.is_empty() || !unknown.is_empty();
    if wanting {
        println!("rules that were not met: {missing:?}; that have no name in the list: {unknown:?}");
    }
    println!("{} agreed, {} differ", places.agreed, places.differ);
    places.differ > 0 || wanting
}
