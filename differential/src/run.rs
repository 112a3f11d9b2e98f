//! A whole run over all sorts of cases, and what it must have met.

use crate::corpus::{self, Visitor};
use crate::depths;
use crate::drafts::Case;
use crate::images::image;
use crate::library::Library;
use crate::names::KINDS;
use crate::pages;
use crate::path_index;
use crate::published::{MISTAKES, Mistake, Published};
use crate::random::Random;
use crate::rows::{REASONS, RESOLVER, WRITER, row_of};
use crate::searched;
use crate::sleeper::met;
use crate::tally::Tally;
use crate::target_counts;
use crate::targets;
use crate::writes;

/// From so many cases on, every row and reason must come up.
const ENOUGH: u64 = 10_000;

/// Queries that find something on every image that they are asked of.
const ALWAYS_FOUND: [&str; 3] = ["text", "definition count", "sleeper's definition count"];

/// True if something failed.
pub fn compare(cases: u64, seed: u64, ours: Option<&dyn Library>) -> bool {
    let mut tally = Tally::default();
    corpus::all("comparison", cases, seed, &mut Comparison { ours, tally: &mut tally });
    depths::chain(ours, &mut tally);
    tally.print();
    if ours.and_then(Library::targets).is_some() {
        let (asked, drafts) = (tally.asked.values().sum::<u64>(), corpus::with_paths(cases));
        tally.check(asked == drafts, || format!("{drafts} drafts with paths, our call was asked {asked} times"), &[]);
    }
    if cases >= ENOUGH {
        coverage(ours, &mut tally);
    } else {
        println!("too few cases to ask that every row and reason came up");
    }
    match ours {
        None => println!("our library is not linked: these are answers of the published Rust alone"),
        Some(ours) => {
            let compared = |has: bool| if has { "compared" } else { "not compared, the published Rust alone" };
            let (queries, written) = (compared(ours.queries().is_some()), compared(ours.writer().is_some()));
            let targets = compared(ours.targets().is_some());
            let counts = compared(ours.counting().is_some());
            println!("loads: compared; queries: {queries}; written images: {written}; targets from paths: {targets}");
            println!("targets counted and set: {counts}");
            println!("words of the header: compared; sleeper's reader: compared");
        }
    }
    println!("{} passed, {} failed", tally.passed, tally.failed);
    tally.failed > 0
}

/// Compares each case with the published Rust.
struct Comparison<'a> {
    ours: Option<&'a dyn Library>,
    tally: &'a mut Tally,
}

impl Visitor for Comparison<'_> {
    fn image(&mut self, name: &'static str, bytes: &[u8], random: &mut Random) {
        image(name, bytes, self.ours, random, self.tally);
    }

    fn draft(&mut self, case: &Case, random: &mut Random) {
        writes::draft(case, self.ours, random, self.tally);
        target_counts::compare(&target_counts::Case::of(case), self.ours, random, self.tally);
    }

    fn targets(&mut self, case: &targets::drafts::Case, random: &mut Random) {
        targets::compare(case, self.ours, random, self.tally);
    }

    fn changes(&mut self, case: &target_counts::Case, random: &mut Random) {
        target_counts::compare(case, self.ours, random, self.tally);
    }
}

/// Every row, reason, kind, query and message must have been met, and the table of reasons must be whole.
fn coverage(ours: Option<&dyn Library>, tally: &mut Tally) {
    let mut missing = vec![];
    let mut met = 0;
    let mut need = |right: bool, what: String| if right { met += 1 } else { missing.push(what) };
    for reason in reference::REASONS {
        need(row_of(reason).is_some(), format!("reason without a row: {reason}"));
    }
    for row in (0..7).chain(8..18) {
        need(tally.rows[row] > 0, format!("row {row}"));
    }
    for (reason, _, reachable) in REASONS {
        need(reference::REASONS.contains(&reason), format!("not in the published source: {reason}"));
        need(tally.reasons.contains_key(reason) == reachable, format!("reason {reason}, reachable: {reachable}"));
    }
    index_met(tally, &mut need);
    for (_, kind) in KINDS {
        need(tally.kinds.contains_key(kind), format!("kind {kind}"));
    }
    for (name, [found, nothing]) in &tally.queries {
        need(
            *found > 0 && (*nothing > 0 || ALWAYS_FOUND.contains(name)),
            format!("query {name}, found {found}, nothing {nothing}"),
        );
    }
    for (what, count) in &tally.met {
        need(*count > 0, format!("depth, {what}"));
    }
    pages_met(tally, &mut need);
    counts_met(ours, tally, &mut need);
    sleeper_met(ours, tally, &mut need);
    drafts_met(ours, tally, need);
    tally.passed += met;
    for what in missing {
        tally.check(false, || format!("not met: {what}"), &[]);
    }
}

/// What must have come up in path indexes.
fn index_met(tally: &Tally, mut need: impl FnMut(bool, String)) {
    for ((what, expected), counts) in path_index::CASES.iter().zip(tally.index) {
        need(counts.map(|count| count > 0) == *expected, format!("path index, {what}: {counts:?}"));
    }
    need(tally.turned.keys().eq(&path_index::TURNED), format!("16 in the place of rows {:?}", tally.turned));
}

/// What must have come up on pages and in look-ups.
fn pages_met(tally: &Tally, mut need: impl FnMut(bool, String)) {
    for name in pages::NAMES.into_iter().chain(searched::NAMES) {
        need(tally.queries.contains_key(name), format!("query {name}"));
    }
    let pages = pages::CASES.iter().zip(tally.pages);
    for ((what, on_accepted), [accepted, others]) in pages.chain(searched::CASES.iter().zip(tally.searches)) {
        need(others > 0 && (accepted > 0) == *on_accepted, format!("{what}: accepted {accepted}, others {others}"));
    }
}

/// What must have come up where targets were counted and set.
fn counts_met(ours: Option<&dyn Library>, tally: &Tally, mut need: impl FnMut(bool, String)) {
    for ((what, on_accepted), [accepted, others]) in target_counts::met::IMAGES.iter().zip(tally.counted) {
        need(others > 0 && (accepted > 0) == *on_accepted, format!("{what}: accepted {accepted}, others {others}"));
    }
    for ((what, expected), counts) in target_counts::met::KINDS.iter().zip(tally.changes) {
        need(counts.map(|count| count > 0) == *expected, format!("changes, {what}: {counts:?}"));
    }
    for (what, count) in target_counts::met::STEPS.iter().zip(tally.steps) {
        need(count > 0, format!("changes: {what}"));
    }
    for ((what, told), count) in target_counts::met::DRAFTS.iter().zip(tally.changed) {
        need(count > 0 || *told && targets::teller(ours).is_none(), format!("drafts with their summary: {what}"));
    }
}

/// What must have come up in pairs of images, and where the sleeper's reader was asked.
fn sleeper_met(ours: Option<&dyn Library>, tally: &Tally, mut need: impl FnMut(bool, String)) {
    for (what, count) in met::PAIRS.iter().zip(tally.pairs) {
        need(count > 0, format!("pairs: {what}"));
    }
    for (what, count) in met::ANSWERS.iter().zip(tally.sleeper) {
        need(count > 0 || ours.is_none(), format!("sleeper's reader: {what}"));
    }
}

/// What must have come up where drafts were written and targets found.
fn drafts_met(ours: Option<&dyn Library>, tally: &Tally, mut need: impl FnMut(bool, String)) {
    for (message, row) in WRITER {
        need(row == 23 || tally.written.contains_key(message), format!("writer: {message}"));
    }
    for ((what, expected), counts) in targets::CASES.iter().zip(tally.targets) {
        need(counts.map(|count| count > 0) == *expected, format!("{what}: {counts:?}"));
    }
    for (what, count) in targets::MET.iter().zip(tally.resolved) {
        need(count > 0, format!("drafts with paths: {what}"));
    }
    for (message, _, reachable) in RESOLVER {
        need(tally.refused.contains_key(message) == reachable, format!("{message}, reachable: {reachable}"));
    }
    for due in targets::lists::numbers(targets::teller(ours).is_some()) {
        need(tally.lists.contains_key(&due), format!("{}: {}", due.0, due.1));
    }
    need(tally.parsed > 0 || ours.and_then(Library::targets).is_none(), "a path text parsed by the wrapper".to_owned());
}

/// The published Rust on both sides: alone it must pass, and with each mistake it must fail.
pub fn self_check(cases: u64) -> bool {
    let mut tally = Tally::default();
    let mut check = |mistake: Mistake| {
        let mut inner = if mistake == Mistake::None { Tally::default() } else { Tally::quiet() };
        let ours: Option<&dyn Library> = Some(&Published(mistake));
        corpus::all(&format!("{mistake:?}"), cases, 1, &mut Comparison { ours, tally: &mut inner });
        let noticed = inner.failed > 0;
        println!("{mistake:?}: {} passed, {} failed", inner.passed, inner.failed);
        tally.check(noticed == (mistake != Mistake::None), || format!("{mistake:?}"), &[]);
    };
    check(Mistake::None);
    for mistake in MISTAKES {
        check(mistake);
    }
    println!("{} passed, {} failed", tally.passed, tally.failed);
    tally.failed > 0
}
