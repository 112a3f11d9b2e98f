//! Stands in for strum's `Display`: an enum of plain cases prints the name of its case.

use proc_macro::{Delimiter, TokenStream, TokenTree};

#[proc_macro_derive(Display)]
pub fn display(input: TokenStream) -> TokenStream {
    let mut name = None;
    let mut cases = Vec::new();
    let mut after_enum = false;
    for token in input {
        match token {
            TokenTree::Ident(word) if after_enum => {
                name = Some(word.to_string());
                after_enum = false;
            }
            TokenTree::Ident(word) => after_enum = word.to_string() == "enum",
            TokenTree::Group(group) if group.delimiter() == Delimiter::Brace => {
                for inner in group.stream() {
                    if let TokenTree::Ident(case) = inner {
                        cases.push(case.to_string());
                    }
                }
            }
            _ => {}
        }
    }
    let name = name.expect("an enum");
    let arms: String = cases.iter().map(|case| format!("Self::{case} => \"{case}\",")).collect();
    format!(
        "impl core::fmt::Display for {name} {{
            fn fmt(&self, f: &mut core::fmt::Formatter<'_>) -> core::fmt::Result {{
                f.write_str(match self {{ {arms} }})
            }}
        }}"
    )
    .parse()
    .expect("an implementation")
}
