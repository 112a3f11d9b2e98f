use crate::{ink_list::InkList, path::Path};

#[repr(u8)]
pub enum ValueType {
    Bool(bool),
    Int(i32),
    Float(f32),
    List(InkList),
    String(StringValue),
    DivertTarget(Path),
    VariablePointer(VariablePointerValue),
}

pub struct StringValue {
    pub string: String,
}

pub struct VariablePointerValue {
    pub variable_name: String,
    pub context_index: i32,
}

impl ValueType {
    pub fn new(text: &str) -> Self {
        ValueType::String(StringValue { string: text.to_owned() })
    }
}

macro_rules! from {
    ($($type:ty => $make:expr;)*) => {
        $(impl From<$type> for ValueType {
            fn from(value: $type) -> Self {
                $make(value)
            }
        })*
    };
}

from! {
    bool => ValueType::Bool;
    i32 => ValueType::Int;
    f32 => ValueType::Float;
    InkList => ValueType::List;
    &str => ValueType::new;
}
