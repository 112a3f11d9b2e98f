//! Every query on an image that the published Rust accepts, on both sides.

use crate::asked::{self, Walk};
use crate::depths;
use crate::library::{Found, Queries, View, header_view};
use crate::names::{kind, kind_name};
use crate::pages;
use crate::parts::NONE;
use crate::random::Random;
use crate::searched;
use crate::tally::Tally;
use crate::technician::{self, Theirs};
use crate::texts;
use reference::{Image, Kind, NodeView};
use std::fmt::Debug;

type Ours<'a> = Option<(&'a dyn Queries, &'a View)>;

struct Asking<'a> {
    image: &'a Image<'a>,
    theirs: Theirs<'a>,
    bytes: &'a [u8],
    ours: Ours<'a>,
    tally: &'a mut Tally,
}

impl Asking<'_> {
    /// Compares one answer.
    fn same<T: PartialEq + Debug>(
        &mut self,
        name: &'static str,
        theirs: Option<T>,
        ask: impl FnOnce(&dyn Queries, &[u8], &View) -> Option<T>,
    ) {
        self.tally.query(name, &theirs);
        if let Some((library, view)) = self.ours {
            let ours = ask(library, self.bytes, view);
            self.tally.check(
                ours == theirs,
                || format!("{name}: the published Rust answers {theirs:?}, ours {ours:?}"),
                self.bytes,
            );
        }
    }

    fn text_of(&self, place: (u32, u32)) -> &str {
        let start = crate::parts::word_at(self.bytes, 76) as usize + place.0 as usize;
        core::str::from_utf8(&self.bytes[start..start + place.1 as usize]).expect("a text")
    }
}

/// All of them, with the published views of all nodes.
pub fn all(
    image: &Image<'_>,
    views: &[Option<NodeView>],
    bytes: &[u8],
    ours: Ours<'_>,
    random: &mut Random,
    tally: &mut Tally,
) {
    let mut asking = Asking { image, theirs: Theirs::new(image, bytes), bytes, ours, tally };
    let count = image.node_count() as u32;
    // of large images, some nodes
    let step = 1 + count as usize / 100;
    let some = (0..count).step_by(step).chain([count, count + 1, NONE]);
    for node in some {
        asking.node(node);
        asking.names(node, random);
    }
    asking.depths(views);
    asking.page(views, random);
    asking.definitions(random);
    for _ in 0..8 {
        asking.walk(random);
    }
}

impl Asking<'_> {
    fn node(&mut self, node: u32) {
        let image = self.image;
        let view = image.node_view(node);
        if let Some(view) = &view {
            *self.tally.kinds.entry(name_of(&view.kind)).or_default() += 1;
            self.texts(view);
            if let Kind::List(list) = view.kind {
                self.list(node, list);
            }
        }
        self.same("node view", view, |ours, bytes, view| ours.node_view(bytes, view, node));
        let (children, named) = (image.child_count(node), image.named_child_count(node));
        self.same("child count", children.map(|n| n as u32), |ours, bytes, view| ours.child_count(bytes, view, node));
        self.same("named count", named.map(|n| n as u32), |ours, bytes, view| {
            ours.named_child_count(bytes, view, node)
        });
        for index in (0..children.unwrap_or(0) as u32 + 1).chain([NONE]) {
            let child = image.child_at(node, index as usize);
            self.same("child", child, |ours, bytes, view| ours.child_at(bytes, view, node, index));
        }
        for index in (0..named.unwrap_or(0) as u32 + 1).chain([NONE]) {
            let child = image.named_child_at(node, index as usize);
            self.same("named child", child, |ours, bytes, view| ours.named_child_at(bytes, view, node, index));
        }
    }

    /// Of all nodes, and of numbers outside.
    fn depths(&mut self, views: &[Option<NodeView>]) {
        let count = self.image.node_count() as u32;
        let depths = depths::by_views(views);
        for node in (0..count).chain([count, count + 1, NONE]) {
            let theirs = depths.get(node as usize).copied().flatten();
            self.same("depth", theirs, |ours, bytes, view| ours.depth(bytes, view, node));
        }
        let named_only = (1..count).zip(&views[1..]).filter(|(node, view)| self.named_only(*node, view.as_ref()));
        let named_only = named_only.count() as u64;
        self.tally.met("accepted, containers that are only named children", named_only);
        let greatest = self.tally.met.entry("accepted, greatest depth").or_default();
        *greatest = depths.into_iter().flatten().map(u64::from).fold(*greatest, u64::max);
    }

    fn page(&mut self, views: &[Option<NodeView>], random: &Random) {
        let (ours, view) = (self.ours.map(|(ours, _)| ours), &header_view(self.bytes));
        let asked = pages::Asked { name: pages::NAMES[0], bytes: self.bytes, view, ours };
        pages::accepted(&asked, views, random, self.tally);
    }

    /// Whether a node is no ordered child of its parent.
    fn named_only(&self, node: u32, view: Option<&NodeView>) -> bool {
        let place = view.and_then(|view| view.parent.zip(view.place));
        place.and_then(|(parent, place)| self.image.child_at(parent, place as usize)) != Some(node)
    }

    /// Where the texts of a view lie in the image.
    fn texts(&mut self, view: &NodeView) {
        let strings = crate::parts::word_at(self.bytes, 76) as usize;
        for (offset, length) in technician::texts(&view.kind).into_iter().flatten() {
            let part = (strings + offset as usize, length as usize);
            self.same("text", Some(part), |ours, bytes, view| ours.text(bytes, view, (offset, length)));
        }
    }

    fn list(&mut self, node: u32, list: (u32, u32)) {
        let Some(entries) = self.image.list_entries(node) else {
            return;
        };
        let text = |this: &Self, place| this.text_of(place).to_owned();
        for index in 0..entries.items.len() as u32 + 1 {
            let theirs = entries.items.get(index as usize);
            let theirs = theirs.map(|entry| (entry.origin.clone(), entry.name.clone(), entry.value));
            self.tally.query("list entry", &theirs);
            if let Some((library, view)) = self.ours {
                let ours = library.list_entry(self.bytes, view, list, index);
                let ours = ours
                    .map(|entry| (entry.origin.map(|origin| text(self, origin)), text(self, entry.name), entry.value));
                self.tally.check(ours == theirs, || format!("list entry: {theirs:?}, ours {ours:?}"), self.bytes);
            }
        }
        for index in 0..entries.origins.len() as u32 + 1 {
            let theirs = entries.origins.get(index as usize).cloned();
            self.tally.query("list origin", &theirs);
            if let Some((library, view)) = self.ours {
                let ours = library.list_origin(self.bytes, view, list, index).map(|origin| text(self, origin));
                self.tally.check(ours == theirs, || format!("list origin: {theirs:?}, ours {ours:?}"), self.bytes);
            }
        }
    }

    fn names(&mut self, node: u32, random: &mut Random) {
        for name in asked::names(&self.theirs, node, random) {
            let theirs = self.image.find_named_child(node, &name);
            self.same("find named child", theirs, |ours, bytes, view| {
                ours.find_named_child(bytes, view, node, name.as_bytes())
            });
        }
    }

    fn definitions(&mut self, random: &mut Random) {
        let image = self.image;
        let count = image.definition_count();
        self.same("definition count", Some(count as u32), |ours, bytes, view| ours.definition_count(bytes, view));
        let mut names = vec![texts::name(random), " \t\u{3000}".to_owned(), ".".to_owned(), "low".to_owned()];
        let mut origins = vec![];
        // of many items, the names of some
        let step = 1 + self.theirs.lists.item_count() / 60;
        for index in (0..count as u32 + 1).chain([NONE]) {
            let theirs = image.definition(index as usize).map(|(name, items)| (name, items as u32));
            origins.extend(theirs.map(|(name, _)| self.text_of(name).to_owned()));
            self.same("definition", theirs, |ours, bytes, view| ours.definition(bytes, view, index));
            let items = theirs.map_or(0, |(_, items)| items);
            for item in (0..items + 1).chain([NONE]) {
                let theirs = image.definition_item(index as usize, item as usize);
                let some = theirs.filter(|_| (index + item) as usize % step == 0);
                names.extend(some.map(|(name, _)| self.text_of(name).to_owned()));
                self.same("definition item", theirs, |ours, bytes, view| {
                    ours.definition_item(bytes, view, index, item)
                });
            }
        }
        if count > 0 {
            let dotted: Vec<String> = names.iter().map(|name| format!("{}.{name}", random.pick(&origins))).collect();
            names.extend(dotted);
        }
        // of a copy of the random numbers, as for pages
        let more = self.theirs.lists.names(2, &mut random.clone());
        names.extend(more.into_iter().map(|name| String::from_utf8(name).expect("a text")));
        for name in names {
            self.list_item(&name);
        }
    }

    fn list_item(&mut self, name: &str) {
        let lists = &self.theirs.lists;
        let (theirs, due) = (self.image.list_item(name), lists.due(self.image, name));
        assert_eq!(lists.looked(name.as_bytes()), due, "the harness on {name:?}");
        self.tally.query(searched::NAMES[0], &theirs);
        lists.tell(name.as_bytes(), &due, true, self.tally);
        if let Some((library, view)) = self.ours {
            let ours = library.list_item(self.bytes, view, name.as_bytes());
            let texts = ours.item.and_then(|found| self.item_texts(library, view, found));
            self.tally.check(texts == theirs, || format!("list item {name:?}: {theirs:?}, ours {texts:?}"), self.bytes);
            self.tally.check(ours == due, || format!("list item {name:?}: due {due:?}, ours {ours:?}"), self.bytes);
        }
    }

    /// Origin, item and value; the item's number among all is turned into one among the definition's.
    fn item_texts(&self, library: &dyn Queries, view: &View, found: Found) -> Option<(String, String, i32)> {
        let (origin, _) = library.definition(self.bytes, view, found.definition)?;
        let item = found.item.checked_sub(library.first_item(self.bytes, view, found.definition)?)?;
        let (item, _) = library.definition_item(self.bytes, view, found.definition, item)?;
        Some((self.text_of(origin).to_owned(), self.text_of(item).to_owned(), found.value))
    }

    fn walk(&mut self, random: &mut Random) {
        let Walk { origin, relative, steps } = Walk::random(&self.theirs, self.image.node_count(), random);
        let theirs = self.image.resolve_path(origin, relative, &steps);
        let name = if relative { "relative walk" } else { "absolute walk" };
        self.same(name, theirs, |ours, bytes, view| ours.resolve_path(bytes, view, origin, relative, &steps));
    }
}

/// The name of a kind that the published Rust shows.
fn name_of(kind: &Kind) -> &'static str {
    let number = match kind {
        Kind::Container { .. } => kind::CONTAINER,
        Kind::Choice { .. } => kind::CHOICE,
        Kind::Command(_) => kind::COMMAND,
        Kind::Divert { .. } => kind::DIVERT,
        Kind::Glue => kind::GLUE,
        Kind::Operator(_) => kind::OPERATOR,
        Kind::Tag(_) => kind::TAG,
        Kind::Bool(_) => kind::BOOL,
        Kind::Int(_) => kind::INT,
        Kind::Float(_) => kind::FLOAT,
        Kind::String(_) => kind::STRING,
        Kind::List(_) => kind::LIST,
        Kind::DivertTarget(_) => kind::DIVERT_TARGET,
        Kind::Pointer { .. } => kind::POINTER,
        Kind::Assignment { .. } => kind::ASSIGNMENT,
        Kind::Reference { .. } => kind::REFERENCE,
        Kind::Void => kind::VOID,
    };
    kind_name(number).expect("a kind")
}
