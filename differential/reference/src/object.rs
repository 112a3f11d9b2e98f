//! Runtime objects: as much of them as the published source names.

use std::{any::Any, fmt::Display, rc::Rc};

pub struct Object;

impl Object {
    pub fn new() -> Self {
        Object
    }
}

pub trait IntoAny {
    fn as_any(&self) -> &dyn Any;
    fn as_any_mut(&mut self) -> &mut dyn Any;
    fn into_any(self: Rc<Self>) -> Rc<dyn Any>;
}

impl<T: Any> IntoAny for T {
    fn as_any(&self) -> &dyn Any {
        self
    }
    fn as_any_mut(&mut self) -> &mut dyn Any {
        self
    }
    fn into_any(self: Rc<Self>) -> Rc<dyn Any> {
        self
    }
}

pub trait RTObject: IntoAny + Display + Any {
    fn get_object(&self) -> &Object;
}
