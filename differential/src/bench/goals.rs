//! What the benchmark is held to, one table. A quick path that is never taken gives the same answers, so its goal lies
//! between the time with it and the time without.

use super::{Line, PAGES, SLEEPER};

/// How much of the other side's time a line may take, by the median of its ratios.
struct Goal {
    /// The input's name; where it is `ANY`, each input that has the line.
    input: &'static str,
    line: &'static str,
    most: f64,
    /// What makes it so.
    by: &'static str,
}

const ANY: &str = "";
const WITH_PATHS: &str = "200,000 mixed nodes with paths";

const ALL: [Goal; 16] = [
    goal("chain of 5,000 containers", "load", 0.10, "an index text begins with its parent's (index::extends)"),
    goal("lapped chain of 20,000 containers", "load", 0.01, "the same, at one offset (index::extends)"),
    goal("sixty definitions of twenty items", "in the last", 0.2, "the last definition is searched first"),
    goal(ANY, "sleeper's views", 1.2, "words straight from the record (sleeper::node_words)"),
    goal(ANY, "sleeper's tags", 1.4, "a note is told by five bytes, without a call (notes::is_note)"),
    goal(ANY, "page, any nodes", 0.7, "one call for forty nodes"),
    goal(ANY, "page, in a row", 0.7, "one call for forty nodes"),
    goal(WITH_PATHS, "resolve targets", 1.0, "tests and walks together"),
    goal(WITH_PATHS, "the list falls", 1.5, "each order takes about the same (draft::path_list)"),
    goal(WITH_PATHS, "any order", 1.5, "the same"),
    goal(WITH_PATHS, "two swapped", 1.5, "the same"),
    goal(WITH_PATHS, "20 and 21", 3.0, "a tree is told without a walk (draft_tree::stands)"),
    goal(WITH_PATHS, "count targets", 0.3, "words straight from the records"),
    goal(ANY, "set a target", 1.2, "row 19 is tested once, then a word and two of the summary are set"),
    goal("20,000 texts over one another", "long texts", 1.5, "texts are tested by their ends (image::is_uncut)"),
    goal("one text of 3 MB", "two bytes each", 0.5, "blocks of short sequences (utf8::blocks_short)"),
];

const fn goal(input: &'static str, line: &'static str, most: f64, by: &'static str) -> Goal {
    Goal { input, line, most, by }
}

impl Goal {
    fn is_of(&self, line: &Line) -> bool {
        (self.input == ANY || self.input == line.input) && self.line == line.name
    }

    /// Whether a run with these words has to measure it.
    fn is_asked(&self, words: &str) -> bool {
        match words {
            PAGES => self.line.starts_with("page"),
            SLEEPER => self.line.starts_with("sleeper"),
            "" => true,
            _ => self.input.contains(words),
        }
    }

    /// Whether a ratio meets it; none does not.
    fn is_met(&self, ratio: Option<f64>) -> bool {
        ratio.is_some_and(|ratio| ratio <= self.most)
    }

    /// The inputs whose line has the goal, with the ratio; one without a ratio where the line was to be measured and is
    /// not there.
    fn ratios<'a>(&self, lines: &'a [Line], words: &str) -> Vec<(&'a str, Option<f64>)> {
        let of = lines.iter().filter(|line| self.is_of(line)).map(|line| (line.input, line.ratio));
        let mut ratios: Vec<_> = of.collect();
        if ratios.is_empty() && self.is_asked(words) {
            ratios.push((self.input, None));
        }
        ratios
    }
}

/// Says of each goal whether it is met; whether one is missed.
pub fn held(lines: &[Line], words: &str) -> bool {
    println!("goals: the ratio of a line, and what it may be at most");
    let (mut met, mut missed) = (0, 0);
    for goal in &ALL {
        for (input, ratio) in goal.ratios(lines, words) {
            let right = goal.is_met(ratio);
            (met, missed) = (met + u64::from(right), missed + u64::from(!right));
            let word = if right { "met" } else { "MISSED" };
            let told = ratio.map_or("not measured".to_owned(), |ratio| format!("{ratio:.4}"));
            println!("    {word:6} {told:>12} {:4}  {input}, {}: {}", goal.most, goal.line, goal.by);
        }
    }
    println!("{met} met, {missed} missed");
    missed > 0
}

#[cfg(test)]
mod tests {
    use super::*;

    fn line(input: &'static str, name: &str, ratio: Option<f64>) -> Line {
        Line { input, name: name.to_owned(), ratio }
    }

    /// A line of every goal, at most as long as it may take.
    fn all() -> Vec<Line> {
        ALL.iter().map(|goal| line(goal.input, goal.line, Some(goal.most))).collect()
    }

    #[test]
    fn met() {
        assert!(!held(&all(), ""));
        assert!(!held(&[], "no such input"));
    }

    #[test]
    fn missed() {
        for (number, goal) in ALL.iter().enumerate() {
            let mut lines = all();
            lines[number].ratio = Some(goal.most + 0.001);
            assert!(held(&lines, ""), "{} takes longer", goal.line);
            lines[number].ratio = None;
            assert!(held(&lines, ""), "{} without ours", goal.line);
            lines.remove(number);
            assert!(held(&lines, ""), "{} is not measured", goal.line);
        }
        assert!(held(&[line("1 MB of random UTF-8", "page, any nodes", Some(0.71))], PAGES));
        assert!(held(&[line("1 MB of random UTF-8", "sleeper's views", Some(1.21))], SLEEPER) && held(&[], SLEEPER));
    }
}
