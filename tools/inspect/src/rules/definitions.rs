//! Row 17: list definitions and their items.

use super::place::quoted;
use super::sections::Section::*;
use super::sections::{Image, Section, Word};
use super::{Broken, Rule};

pub fn rules(image: &Image<'_>) -> Rule {
    let (mut last, mut items) = (None, 0);
    for definition in 0..image.count(Definitions) {
        let text = text(image, Definitions, definition, 10)?;
        order(image, Definitions, definition, text, last)?;
        items = range(image, definition, items)?;
        items_rule(image, definition, items)?;
        last = Some(text);
    }
    left_over(image, items)
}

/// The name of an entry, refused with the number.
fn text<'a>(image: &Image<'a>, section: Section, entry: usize, number: u32) -> Result<&'a str, Broken> {
    let text = image.text(image.word(section, entry, 0), image.word(section, entry, 1));
    text.map_err(|why| image.broken(number, "text", Word::new(section, entry, 0, "name"), why))
}

fn order(image: &Image<'_>, section: Section, entry: usize, text: &str, last: Option<&str>) -> Rule {
    match last {
        Some(last) if last >= text => {
            let rule = if section == Items { "order of items" } else { "order of definitions" };
            let because = format!("{} is not above {}, which stands before it", quoted(text), quoted(last));
            Err(image.broken(17, rule, Word::new(section, entry, 0, "name"), because))
        }
        _ => Ok(()),
    }
}

/// The items are inside, and start where those before end; gives their end.
fn range(image: &Image<'_>, definition: usize, before: usize) -> Result<usize, Broken> {
    let (start, count) =
        (image.word(Definitions, definition, 2) as usize, image.word(Definitions, definition, 3) as usize);
    if start != before {
        let because = format!("{start}; the items of the definitions before end at {before}");
        return Err(image.broken(11, "items' start", Word::new(Definitions, definition, 2, "first item"), because));
    }
    if start + count > image.count(Items) {
        let because = format!("{count} from {start} on; there are {}", image.count(Items));
        return Err(image.broken(11, "items' range", Word::new(Definitions, definition, 3, "count of items"), because));
    }
    Ok(start + count)
}

fn items_rule(image: &Image<'_>, definition: usize, end: usize) -> Rule {
    let mut last = None;
    for item in image.word(Definitions, definition, 2) as usize..end {
        let text = text(image, Items, item, 17)?;
        order(image, Items, item, text, last)?;
        last = Some(text);
    }
    Ok(())
}

fn left_over(image: &Image<'_>, used: usize) -> Rule {
    if image.count(Items) == used {
        return Ok(());
    }
    let because = format!("{}; the definitions use {used}", image.count(Items));
    Err(Broken::in_header(17, "items left over", format!("count of {}", Items.name()), Items.count_at(), because))
}
