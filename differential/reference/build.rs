//! Copies the published files, unchanged, beside our stand-ins and names them as modules of this crate.
//! They are read from the folder STORY_IMAGE_REFERENCE, by default ../blade-ink-rs beside the repository.

use std::{env, fs, path::Path, path::PathBuf};

const PUBLISHED: [(&str, &str); 16] = [
    ("image/mod.rs", "image/mod.rs"),
    ("image/validate.rs", "image/validate.rs"),
    ("image/view.rs", "image/view.rs"),
    ("image/encoder.rs", "image/encoder.rs"),
    ("story_content.rs", "story_content/mod.rs"),
    ("story_content/view.rs", "story_content/view.rs"),
    ("story_content/arena.rs", "story_content/arena.rs"),
    ("story/mod.rs", "story/mod.rs"),
    ("story/error.rs", "story/error.rs"),
    ("path.rs", "path.rs"),
    ("control_command.rs", "control_command.rs"),
    ("native_function_call.rs", "native_function_call.rs"),
    ("push_pop.rs", "push_pop.rs"),
    ("ink_list_item.rs", "ink_list_item.rs"),
    ("value.rs", "value.rs"),
    ("void.rs", "void.rs"),
];

// Stand-ins for files that the published ones name as their own modules.
const STAND_INS: [(&str, &str); 4] = [
    ("storage.rs", "story_content/storage.rs"),
    ("player.rs", "story/player.rs"),
    ("external_functions.rs", "story/external_functions.rs"),
    ("variable_observer.rs", "story/variable_observer.rs"),
];

const MODULES: [(&str, &str); 10] = [
    ("image", "image/mod.rs"),
    ("story_content", "story_content/mod.rs"),
    ("story", "story/mod.rs"),
    ("path", "path.rs"),
    ("control_command", "control_command.rs"),
    ("native_function_call", "native_function_call.rs"),
    ("push_pop", "push_pop.rs"),
    ("ink_list_item", "ink_list_item.rs"),
    ("value", "value.rs"),
    ("void", "void.rs"),
];

fn copy(from: &Path, to: &Path) {
    println!("cargo:rerun-if-changed={}", from.display());
    fs::create_dir_all(to.parent().unwrap()).unwrap();
    match fs::read(from) {
        Ok(text) => fs::write(to, text).unwrap(),
        Err(error) => {
            panic!("{}: {error}; set STORY_IMAGE_REFERENCE to the folder of the published source", from.display())
        }
    }
}

/// Every text that a file hands to `invalid`.
fn reasons(tree: &Path, file: &str) -> Vec<String> {
    let text = fs::read_to_string(tree.join(file)).unwrap();
    let calls = text.split("invalid(").skip(1);
    calls.filter_map(|rest| Some(rest.trim_start().strip_prefix('"')?.split('"').next()?.to_owned())).collect()
}

fn main() {
    println!("cargo:rerun-if-env-changed=STORY_IMAGE_REFERENCE");
    let here = PathBuf::from(env::var_os("CARGO_MANIFEST_DIR").unwrap());
    let root = here.join("../..");
    let source = match env::var_os("STORY_IMAGE_REFERENCE") {
        Some(folder) => root.join(folder),
        None => root.join("../blade-ink-rs"),
    };
    let published = source.join("runtime/src");
    let tree = PathBuf::from(env::var_os("OUT_DIR").unwrap()).join("published");
    for (from, to) in PUBLISHED {
        copy(&published.join(from), &tree.join(to));
    }
    for (from, to) in STAND_INS {
        copy(&here.join("src/published").join(from), &tree.join(to));
    }
    let modules: String = MODULES
        .iter()
        .map(|(name, file)| format!("#[allow(warnings)]\n#[path = {:?}]\nmod {name};\n", tree.join(file)))
        .collect();
    fs::write(tree.join("modules.rs"), modules).unwrap();
    let reasons = reasons(&tree, "image/mod.rs").into_iter().chain(reasons(&tree, "image/validate.rs"));
    let list: String = reasons.map(|reason| format!("{reason:?}, ")).collect();
    fs::write(tree.join("reasons.rs"), format!("&[{list}]")).unwrap();
}
