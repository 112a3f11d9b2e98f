//! The size of the static libraries, and their largest stack frames, as `size` and `objdump` tell them.

use std::path::Path;
use std::process::Command;

/// Prints both of each library that is there.
pub fn run() {
    let Some(folder) = std::env::var_os("STORY_IMAGE_LIBRARY") else {
        return;
    };
    for (name, file) in [("the static library", "libstory_image.a"), ("the sleeper's", "libsleeper_image.a")] {
        let archive = Path::new(&folder).join(file);
        if archive.exists() {
            println!("{name}");
            tell(&archive);
        }
    }
}

fn tell(archive: &Path) {
    let told = |words: &[&str]| -> Option<String> {
        let output = Command::new(words[0]).args(&words[1..]).arg(archive).output().ok()?;
        output.status.success().then(|| String::from_utf8_lossy(&output.stdout).into_owned())
    };
    let size = told(&["size"]).and_then(|text| sizes(&text));
    let frame = told(&["objdump", "-d", "--no-show-raw-insn"]).and_then(|text| largest_frame(&text));
    match &size {
        Some([text, data, bss]) => println!("    size             text {text} data {data} bss {bss}"),
        None => println!("    size             not told: no binutils"),
    }
    match &frame {
        Some((bytes, function)) => println!("    largest frame    {bytes} bytes in {function}"),
        None => println!("    largest frame    not told: no binutils"),
    }
}

/// The numbers of the second line: text, data, bss.
fn sizes(text: &str) -> Option<[u64; 3]> {
    let mut words = text.lines().nth(1)?.split_whitespace().map(|word| word.parse().ok());
    Some([words.next()??, words.next()??, words.next()??])
}

/// What a function pushes and takes from the stack pointer, the largest of all.
fn largest_frame(text: &str) -> Option<(u64, String)> {
    let (mut largest, mut function, mut frame) = (None, String::new(), 0);
    for line in text.lines() {
        if let Some(name) = line.strip_suffix(">:") {
            function = name.split_once('<').map_or(name, |(_, name)| name).to_owned();
            frame = 0;
        } else if line.contains("push ") {
            frame += 8;
        } else if let Some(bytes) = line.trim_end().strip_suffix(",%rsp").and_then(taken) {
            frame += bytes;
        }
        if largest.as_ref().is_none_or(|(bytes, _)| *bytes < frame) {
            largest = Some((frame, function.clone()));
        }
    }
    largest
}

/// The bytes of a `sub $0x..`.
fn taken(line: &str) -> Option<u64> {
    let (_, number) = line.split_once("sub ")?.1.trim_start().split_once("$0x")?;
    u64::from_str_radix(number, 16).ok()
}
