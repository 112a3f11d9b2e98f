//! Stands in for the JSON reader: hands over a story that was put down beforehand, so that the writer behind
//! `compile_json_to_image` can be reached.

pub mod story {
    pub mod read_stream {
        use crate::story::error::StoryError;
        use crate::story_content::{LoadObserver, StoryData};
        use std::{cell::RefCell, io::Read};

        thread_local! {
            static NEXT: RefCell<Option<(i32, StoryData)>> = const { RefCell::new(None) };
        }

        pub(crate) fn put_down(ink_version: i32, story: StoryData) {
            NEXT.with(|next| *next.borrow_mut() = Some((ink_version, story)));
        }

        pub(crate) fn load_from_reader(
            _: impl Read,
            _: &mut impl LoadObserver,
        ) -> Result<(i32, StoryData), StoryError> {
            NEXT.with(|next| next.borrow_mut().take())
                .ok_or_else(|| StoryError::BadJson("no story was put down".to_owned()))
        }
    }
}
