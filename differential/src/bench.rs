//! Both sides measured in one process, in turns, by processor time: load, node views, depths, walks and list look-ups,
//! writing; the sleeper's views against the technician's; pages against lone calls; targets from paths, counted and set;
//! texts that a draft's rules test; then the leaves by themselves, and the size of the libraries. At the end the goals, which stand
//! in `goals`.

mod archive;
#[cfg(feature = "counts")]
mod counts;
mod goals;
mod inputs;
mod leaves;
#[cfg(feature = "queries")]
mod pages;
#[cfg(feature = "queries")]
mod sleeper;
mod targets;
mod texts;

#[cfg(not(feature = "counts"))]
mod counts {
    pub fn run(_: &reference::Draft, _: &mut super::Sheet) {}
}

#[cfg(not(feature = "queries"))]
mod pages {
    pub fn run(_: &super::Input, _: &mut super::Sheet) {}
}

#[cfg(not(feature = "queries"))]
mod sleeper {
    pub fn run(_: &super::Input, _: &mut super::Sheet) {}
    pub fn notes(_: &str, _: &mut super::Sheet) {}
}

pub use inputs::lapped_chain;

use crate::random::Random;
use inputs::{Input, LookUps};
use reference::Walk;
use std::hint::black_box;
use std::time::{Duration, Instant};

/// At most so many rounds, and at least three, but none is begun after this time.
const ROUNDS: usize = 15;
const LONGEST: Duration = Duration::from_secs(10);

/// The sides where the published Rust is one: the other, and ours.
const PUBLISHED: [&str; 2] = ["published", OURS];
const OURS: &str = "ours";

/// In the place of words: pages alone, or the sleeper's reader alone, of every input that is asked.
const PAGES: &str = "pages";
const SLEEPER: &str = "sleeper";

/// Measures each thing for so many seconds, or until all rounds are done; of the inputs, those with the words in their
/// name, or one thing alone. Whether a goal was missed.
pub fn run(seconds: u64, words: &str) -> bool {
    let mut sheet = Sheet { long: Duration::from_secs(seconds), input: "", lines: vec![] };
    let mut random = Random::new(5);
    println!("median of up to {ROUNDS} rounds; ratio of ours to the published Rust: median (lowest to highest)");
    let alone = [PAGES, SLEEPER].contains(&words);
    for make in inputs::ALL {
        let input = make(&mut random);
        if !(if alone { input.asked } else { input.name.contains(words) }) {
            continue;
        }
        println!("{}: {} bytes, {} nodes", input.name, input.image.len(), input.nodes());
        sheet.input = input.name;
        if !alone {
            measure(&input, &mut sheet);
        }
        if input.asked && words != PAGES {
            sleeper::run(&input, &mut sheet);
        }
        if input.asked && words != SLEEPER {
            pages::run(&input, &mut sheet);
        }
    }
    sleeper::notes(words, &mut sheet);
    if !alone {
        targets::run(words, &mut sheet);
        texts::run(words, &mut sheet);
    }
    if words.is_empty() {
        leaves::run(&mut random, &mut sheet);
        archive::run();
    }
    println!("{} lines", sheet.lines.len());
    goals::held(&sheet.lines, words)
}

/// The lines that were measured; what is measured now, and for how long.
struct Sheet {
    long: Duration,
    input: &'static str,
    lines: Vec<Line>,
}

/// The median of a line's ratios, where ours was measured.
struct Line {
    input: &'static str,
    name: String,
    ratio: Option<f64>,
}

impl Sheet {
    /// Times of both sides, taken in turns.
    fn duel(
        &mut self,
        name: &str,
        [other, one]: [&str; 2],
        mut theirs: impl FnMut() -> Duration,
        mut ours: Option<impl FnMut() -> Duration>,
    ) {
        let (mut their, mut our, mut ratios) = (vec![], vec![], vec![]);
        let start = Instant::now();
        for round in 0..ROUNDS {
            if start.elapsed() > if round < 3 { LONGEST } else { self.long } {
                break;
            }
            let time = theirs();
            their.push(time);
            if let Some(ours) = &mut ours {
                let mine = ours();
                our.push(mine);
                ratios.push(mine.as_secs_f64() / time.as_secs_f64());
            }
        }
        their.sort();
        our.sort();
        ratios.sort_by(f64::total_cmp);
        let middle = their.len() / 2;
        match our.get(middle) {
            Some(mine) => println!(
                "    {name:16} {other} {:>12.3?} {one} {mine:>12.3?} ratio {:.2} ({:.2} to {:.2})",
                their[middle],
                ratios[middle],
                ratios[0],
                ratios[ratios.len() - 1]
            ),
            None => println!("    {name:16} {other} {:>12.3?}", their[middle]),
        }
        self.lines.push(Line { input: self.input, name: name.to_owned(), ratio: ratios.get(middle).copied() });
    }
}

#[repr(C)]
#[derive(Default)]
struct Time {
    seconds: i64,
    nanoseconds: i64,
}

unsafe extern "C" {
    fn clock_gettime(clock: i32, time: *mut Time) -> i32;
}

/// Linux's CLOCK_THREAD_CPUTIME_ID.
const PROCESSOR_TIME: i32 = 3;

/// Processor time of this thread, so that other work on the machine counts little.
fn processor_time() -> Duration {
    let mut time = Time::default();
    // SAFETY: the C library writes the two numbers of the time, which is ours.
    let failed = unsafe { clock_gettime(PROCESSOR_TIME, &mut time) };
    assert_eq!(failed, 0, "no processor time");
    Duration::new(time.seconds as u64, time.nanoseconds as u32)
}

fn timed<T>(work: impl FnOnce() -> T) -> Duration {
    let start = processor_time();
    black_box(work());
    processor_time() - start
}

fn measure(input: &Input, sheet: &mut Sheet) {
    let image = &input.image[..];
    let ours = ours::Measured::new(input);
    let load = || timed(|| reference::load(black_box(image)).is_ok());
    sheet.duel("load", PUBLISHED, load, ours.load());
    if input.asked {
        ask(input, &ours, sheet);
    }
    look_up(input, &ours, sheet);
    if let Some(draft) = &input.draft {
        let write = || {
            let story = reference::Story::new(draft).expect("a story");
            timed(|| reference::write_story(21, story))
        };
        sheet.duel("write", PUBLISHED, write, ours.write());
    }
}

/// What a player asks of a loaded image.
fn ask(input: &Input, ours: &ours::Measured, sheet: &mut Sheet) {
    let theirs = inputs::view(&input.image);
    let walks: Vec<(u32, Walk)> =
        input.walks.iter().map(|(origin, relative, steps)| (*origin, Walk::new(*relative, steps))).collect();
    let views = || timed(|| (0..input.nodes()).filter(|node| theirs.has_view(*node)).count());
    let depths =
        || timed(|| (0..input.nodes()).filter_map(|node| theirs.steps_to_root(node)).map(u64::from).sum::<u64>());
    let walked = || timed(|| walks.iter().filter_map(|(origin, walk)| theirs.walk(*origin, walk)).count());
    sheet.duel("node views", PUBLISHED, views, ours.views());
    sheet.duel("views as enums", PUBLISHED, views, ours.enums());
    sheet.duel("depths", PUBLISHED, depths, ours.depths());
    sheet.duel("walks", PUBLISHED, walked, ours.walks());
}

/// List items by name.
fn look_up(input: &Input, ours: &ours::Measured, sheet: &mut Sheet) {
    for LookUps { name, items } in &input.look_ups {
        let theirs = inputs::view(&input.image);
        let looked = || timed(|| items.iter().filter(|name| theirs.has_list_item(name)).count());
        sheet.duel(name, PUBLISHED, looked, ours.items(items));
    }
}

#[cfg(not(feature = "ours"))]
mod ours {
    use super::{Duration, Input};

    pub struct Measured;

    impl Measured {
        pub fn new(_: &Input) -> Self {
            Measured
        }
        pub fn load(&self) -> Option<fn() -> Duration> {
            None
        }
        pub fn views(&self) -> Option<fn() -> Duration> {
            None
        }
        pub fn enums(&self) -> Option<fn() -> Duration> {
            None
        }
        pub fn depths(&self) -> Option<fn() -> Duration> {
            None
        }
        pub fn walks(&self) -> Option<fn() -> Duration> {
            None
        }
        pub fn items(&self, _: &[String]) -> Option<fn() -> Duration> {
            None
        }
        pub fn write(&self) -> Option<fn() -> Duration> {
            None
        }
    }
}

#[cfg(feature = "ours")]
mod ours {
    use super::{Duration, Input, black_box, timed};
    #[cfg(feature = "queries")]
    use crate::library::components;
    #[cfg(feature = "write")]
    use crate::ours::write::draft_of;
    #[cfg(feature = "queries")]
    use story_image::ffi;
    use story_image::{Image, load_words};

    pub struct Measured<'a> {
        input: &'a Input,
        #[cfg(feature = "queries")]
        image: Image<'a>,
        /// Origin, relative, components, names.
        #[cfg(feature = "queries")]
        walks: Vec<(u32, bool, Vec<u32>, Vec<u8>)>,
    }

    #[cfg(not(feature = "queries"))]
    impl<'a> Measured<'a> {
        pub fn new(input: &'a Input) -> Self {
            Measured { input }
        }
        pub fn views(&self) -> Option<fn() -> Duration> {
            None
        }
        pub fn enums(&self) -> Option<fn() -> Duration> {
            None
        }
        pub fn depths(&self) -> Option<fn() -> Duration> {
            None
        }
        pub fn walks(&self) -> Option<fn() -> Duration> {
            None
        }
        pub fn items(&self, _: &[String]) -> Option<fn() -> Duration> {
            None
        }
    }

    #[cfg(not(feature = "write"))]
    impl Measured<'_> {
        pub fn write(&self) -> Option<fn() -> Duration> {
            None
        }
    }

    impl Measured<'_> {
        pub fn load(&self) -> Option<impl FnMut() -> Duration> {
            let mut work = vec![0; load_words(&self.input.image)];
            Some(move || timed(|| Image::load(black_box(&self.input.image), &mut work).is_ok()))
        }
    }

    #[cfg(feature = "queries")]
    impl<'a> Measured<'a> {
        pub fn new(input: &'a Input) -> Self {
            let mut work = vec![0; load_words(&input.image)];
            let image = Image::load(&input.image, &mut work).expect("an image");
            let walks = input.walks.iter().map(|(origin, relative, steps)| {
                let (words, names) = components(steps);
                (*origin, *relative, words, names)
            });
            Measured { input, image, walks: walks.collect() }
        }

        pub fn views(&self) -> Option<impl FnMut() -> Duration> {
            let nodes = self.image.view().nodes.count;
            Some(move || {
                timed(|| {
                    let (bytes, view) = (&self.input.image, self.image.view().words());
                    let mut answer = [0; 10];
                    let mut has = |node: u32| {
                        // SAFETY: the slices live through the call, and the answer alone is written.
                        let number = unsafe {
                            let (view, answer) = (view.as_ptr(), answer.as_mut_ptr());
                            ffi::story_image_node_view(bytes.as_ptr(), bytes.len(), view, 17, node, answer, 10)
                        };
                        black_box(&answer);
                        number == 0
                    };
                    (0..nodes).filter(|node| has(*node)).count()
                })
            })
        }

        pub fn enums(&self) -> Option<impl FnMut() -> Duration> {
            let nodes = self.image.view().nodes.count;
            Some(move || timed(|| (0..nodes).filter(|node| black_box(self.image.node_view(*node)).is_some()).count()))
        }

        pub fn depths(&self) -> Option<impl FnMut() -> Duration> {
            let nodes = self.image.view().nodes.count;
            Some(move || timed(|| (0..nodes).filter_map(|node| self.image.depth(node)).map(u64::from).sum::<u64>()))
        }

        pub fn walks(&self) -> Option<impl FnMut() -> Duration> {
            Some(move || {
                timed(|| {
                    let ends = self.walks.iter().filter_map(|(origin, relative, components, names)| {
                        self.image.resolve_components(*origin, *relative, components, names)
                    });
                    ends.count()
                })
            })
        }

        pub fn items(&self, items: &[String]) -> Option<impl FnMut() -> Duration> {
            Some(move || timed(|| items.iter().filter_map(|name| self.image.list_item(name.as_bytes()).item).count()))
        }
    }

    #[cfg(feature = "write")]
    impl Measured<'_> {
        pub fn write(&self) -> Option<impl FnMut() -> Duration> {
            let draft = draft_of(self.input.draft.as_ref()?);
            let mut work = vec![0; draft.work_words()];
            let mut output = vec![0; draft.image_length(21, &mut work).expect("a sound draft")];
            Some(move || timed(|| story_image::write(21, &draft, &mut work, &mut output).is_ok()))
        }
    }
}
