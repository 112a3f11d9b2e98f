//! How functions of the two libraries are called: those that both have alike, queries, and what takes a draft.

use crate::raw::{ItemSearch, ListItem};
use crate::refusal::Refusal;
use core::mem::MaybeUninit;

/// A load: bytes, work words, the words of a view.
type Load = unsafe extern "C" fn(*const u8, usize, *mut u32, usize, *mut u32, usize) -> u32;

/// Calls a load; where nothing is refused, the view's words.
pub(crate) fn load<const N: usize>(call: Load, bytes: &[u8], work: &mut [u32]) -> Result<[u32; N], Refusal> {
    let mut words = [0; N];
    let (lent, lent_length) = (work.as_mut_ptr(), work.len());
    // SAFETY: the slices are ours, the mutable ones do not overlap, and all live through the call.
    Refusal::of(unsafe { call(bytes.as_ptr(), bytes.len(), lent, lent_length, words.as_mut_ptr(), N) })?;
    Ok(words)
}

/// Calls a query that writes its words into an answer and returns 0, or returns another number. The words are read
/// where they were written: copied at once, they would have to wait for each other.
#[inline]
pub(crate) fn ask<const N: usize, R>(
    call: impl FnOnce(*mut u32, usize) -> u32,
    read: impl FnOnce(&[u32; N]) -> Option<R>,
) -> Option<R> {
    let mut answer = MaybeUninit::<[u32; N]>::uninit();
    match call(answer.as_mut_ptr().cast(), N) {
        // SAFETY: where it returns 0, a query has written as many words as its answer has, which are N here.
        0 => read(unsafe { answer.assume_init_ref() }),
        _ => None,
    }
}

/// Asks a query on the bytes and the view's words; what else it takes follows, then what is made of the answer.
macro_rules! ask {
    ($asked:expr, $query:path $(, $argument:expr)* => $read:expr) => {{
        let (bytes, view) = ($asked.bytes, &$asked.words);
        // SAFETY: the slices live through the call, and the answer, which alone is written, is ours.
        $crate::ask::ask(
            |answer, length| unsafe {
                $query(bytes.as_ptr(), bytes.len(), view.as_ptr(), view.len(), $($argument,)* answer, length)
            },
            $read,
        )
    }};
}

/// Calls a function that takes a draft: what stands in front in brackets, the pointer to its nodes, the draft, whose
/// other slices are lent too, and what follows.
macro_rules! call_draft {
    ($call:path $([$front:expr])?, $nodes:expr, $draft:expr $(, $more:expr)*) => {
        $call(
            $($front,)?
            $nodes,
            $draft.nodes.len(),
            $draft.children.as_ptr(),
            $draft.children.len(),
            $draft.named.as_ptr(),
            $draft.named.len(),
            $draft.definitions.as_ptr(),
            $draft.definitions.len(),
            $draft.items.as_ptr(),
            $draft.items.len(),
            $draft.payload.as_ptr(),
            $draft.payload.len(),
            $draft.strings.as_ptr(),
            $draft.strings.len(),
            $($more,)*
        )
    };
}

/// An answer of one word.
#[inline]
pub(crate) fn word(&[word]: &[u32; 1]) -> Option<u32> {
    Some(word)
}

/// A search for a list item: bytes, view, name; the item's words, the count.
type Search = unsafe extern "C" fn(
    *const u8,
    usize,
    *const u32,
    usize,
    *const u8,
    usize,
    *mut u32,
    usize,
    *mut u32,
    usize,
) -> u32;

/// Calls a search for a list item.
pub(crate) fn search(call: Search, bytes: &[u8], view: &[u32], name: &[u8]) -> ItemSearch {
    let mut searched = 0;
    let (start, count, words, length) = (bytes.as_ptr(), bytes.len(), view.as_ptr(), view.len());
    let item = ask(
        // SAFETY: the slices live through the call, and answer and count, which alone are written, are ours.
        |answer, room| unsafe {
            call(start, count, words, length, name.as_ptr(), name.len(), answer, room, &mut searched, 1)
        },
        |&[definition, item, value]| Some(ListItem { definition, item, value: value as i32 }),
    );
    ItemSearch { item, searched }
}
