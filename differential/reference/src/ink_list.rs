//! A list that keeps every entry put into it, in order. Its operations are named by the published source and
//! never called here.

use crate::ink_list_item::InkListItem;
use std::{cell::RefCell, fmt};

#[derive(Default, PartialEq)]
pub struct Items(pub Vec<(InkListItem, i32)>);

impl Items {
    pub fn insert(&mut self, item: InkListItem, value: i32) {
        self.0.push((item, value));
    }
    pub fn is_empty(&self) -> bool {
        self.0.is_empty()
    }
    pub fn len(&self) -> usize {
        self.0.len()
    }
    pub fn iter(&self) -> impl Iterator<Item = (&InkListItem, &i32)> {
        self.0.iter().map(|(item, value)| (item, value))
    }
}

pub struct Origin;

impl Origin {
    pub fn get_name(&self) -> &str {
        unreachable!()
    }
    pub fn get_item_with_value(&self, _: i32) -> Option<&InkListItem> {
        unreachable!()
    }
}

#[derive(Default)]
pub struct InkList {
    pub items: Items,
    pub origins: RefCell<Vec<Origin>>,
    origin_names: RefCell<Vec<String>>,
}

impl InkList {
    pub fn new() -> Self {
        Self::default()
    }
    pub fn set_initial_origin_names(&self, names: Vec<String>) {
        *self.origin_names.borrow_mut() = names;
    }
    pub fn get_origin_names(&self) -> Vec<String> {
        self.origin_names.borrow().clone()
    }
}

macro_rules! never_called {
    ($($name:ident ($($other:ident)?) -> $result:ty;)*) => {
        impl InkList {
            $(pub fn $name(&self $(, $other: &InkList)?) -> $result {
                $(let _ = $other;)?
                unreachable!()
            })*
        }
    };
}

never_called! {
    get_max_item() -> Option<(InkListItem, i32)>;
    get_all() -> InkList;
    inverse() -> InkList;
    max_as_list() -> InkList;
    min_as_list() -> InkList;
    intersect(other) -> InkList;
    union(other) -> InkList;
    without(other) -> InkList;
    contains(other) -> bool;
    greater_than(other) -> bool;
    less_than(other) -> bool;
    greater_than_or_equals(other) -> bool;
    less_than_or_equals(other) -> bool;
}

impl PartialEq for InkList {
    fn eq(&self, other: &Self) -> bool {
        self.items == other.items
    }
}

impl fmt::Display for InkList {
    fn fmt(&self, f: &mut fmt::Formatter<'_>) -> fmt::Result {
        f.write_str("list")
    }
}
