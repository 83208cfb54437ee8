// Takes the original from beside the repository (or from the folder that VOBSUB_ORIGINAL names) into the build's own
// folder: private items opened, and an adapter appended. Nothing else is changed, but in the copies that are meant to
// differ: one that counts codes, clipped codes and bands and says whether a start and a stop stood, and, with the feature
// `mutants`, one for each line of mutants.txt, of the original, of src/empty.rs, of src/limit.rs, of src/stored.rs or of
// src/times.rs.
use std::env;
use std::fs;
use std::path::{Path, PathBuf};

// Functions and structs of the module itself start a line.
fn opened(text: &str) -> String {
    let mut out = String::new();
    for line in text.lines() {
        if line.starts_with("fn ") || line.starts_with("struct ") {
            out.push_str("pub ");
        }
        out.push_str(line);
        out.push('\n');
    }
    out
}

// Where the function of that name starts and ends: it starts a line, and so does its last brace; a method's are four blanks further on.
fn place_of(text: &str, name: &str) -> (usize, usize) {
    for (head, last) in [(format!("\npub fn {name}("), "\n}\n"), (format!("\nfn {name}("), "\n}\n"), (format!("\n    fn {name}("), "\n    }\n")] {
        if let Some(start) = text.find(&head) {
            return (start, start + text[start..].find(last).expect("an end"));
        }
    }
    panic!("no function {name}")
}

// The text with one token of a function replaced, where it stands for the n-th time, comments left out of the count.
fn changed(text: &str, function: &str, token: &str, nth: usize, by: &str) -> String {
    let (start, end) = place_of(text, function);
    let mut at = start;
    let mut seen = 0;
    for line in text[start..end].split_inclusive('\n') {
        if !line.trim_start().starts_with("//") {
            let mut from = 0;
            while let Some(found) = line[from..].find(token) {
                seen += 1;
                if seen == nth {
                    let place = at + from + found;
                    return format!("{}{}{}", &text[..place], by, &text[place + token.len()..]);
                }
                from += found + token.len();
            }
        }
        at += line.len();
    }
    panic!("{function} has {token} {seen} times, not {nth}");
}

// What the counting copy has more than the original: the function, the token, what stands in its place. The commands 00
// and 01 are starts, 02 is a stop. A band is counted where it joins those of its payload, so that one of a payload that is
// read twice counts twice. Every turn of the field decoder's loop reads one code. It is clipped where its run passes the
// width and its count is not 0, which is that of a fill. What of entries, of changes and by the two last lines is counted
// is not compared; it tells what requests meet.
const UNIT: &str = "parse_and_decode_spu";
const FIELD: &str = "decode_rle_field";
const PAYLOAD: &str = "parse_chg_colcon_payload";
const COUNTING: [(&str, &str, &str); 9] = [
    (UNIT, "0x00 => {", "0x00 => { crate::count(|c| c.started = true);"),
    (UNIT, "0x01 => {", "0x01 => { crate::count(|c| c.started = true);"),
    (UNIT, "0x02 => {", "0x02 => { crate::count(|c| c.stopped = true);"),
    (UNIT, "out.chg_colcon.extend(bands)", "crate::count(|c| c.change(cmd_pos, bands.len())); out.chg_colcon.extend(bands)"),
    (PAYLOAD, "bands.push(", "crate::count(|c| c.bands += 1); crate::count(|c| c.entries += entries.len()); bands.push("),
    (FIELD, "while row < height {", "while row < height { crate::count(|c| c.codes += 1);"),
    (FIELD, "let end =", "if count != 0 && col + run > width { crate::count(|c| c.clipped += 1); } let end ="),
    (FIELD, "let end =", "if count != 0 && col + run == width { crate::count(|c| c.exact += 1); } let end ="),
    (FIELD, "(0, (combined", "if (combined >> 2) as usize > width - col { crate::count(|c| c.long_fills += 1); } (0, (combined"),
];

fn write(out: &Path, name: &str, text: &str, adapter: &str) -> String {
    let path = out.join(format!("{name}.rs"));
    fs::write(&path, format!("{text}\n{adapter}")).expect("a file of the build");
    format!("#[path = {path:?}]\n#[allow(warnings)]\npub mod {name};\n")
}

fn main() {
    let here = PathBuf::from(env::var("CARGO_MANIFEST_DIR").unwrap());
    let repository = here.parent().unwrap().to_path_buf();
    let out = PathBuf::from(env::var("OUT_DIR").unwrap());
    let folder = env::var("VOBSUB_ORIGINAL").map(PathBuf::from).unwrap_or_else(|_| repository.join("../shared/docs/src"));
    let path = folder.join("src/vobsub.rs");
    let library = repository.join("target/staticlib");
    println!("cargo:rerun-if-env-changed=VOBSUB_ORIGINAL");
    let own = ["mutants.txt", "src/adapter.rs", "src/empty.rs", "src/limit.rs", "src/stored.rs", "src/times.rs"].map(|file| here.join(file));
    for file in own.iter().chain([&path, &library.join("libvobsub_c.a")]) {
        println!("cargo:rerun-if-changed={}", file.display());
    }
    println!("cargo:rustc-link-search=native={}", library.display());
    println!("cargo:rustc-link-lib=static=vobsub_c");

    let text = fs::read_to_string(&path).unwrap_or_else(|e| panic!("the original, {}: {e}", path.display()));
    let text = opened(&text);
    let adapter = fs::read_to_string(here.join("src/adapter.rs")).expect("the adapter");
    let mut modules = write(&out, "original", &text, &adapter);

    let counting = COUNTING.iter().fold(text.clone(), |text, (function, token, by)| changed(&text, function, token, 1, by));
    modules += &write(&out, "counting", &counting, &adapter);

    let empty = fs::read_to_string(here.join("src/empty.rs")).expect("empty.rs");
    let limit = fs::read_to_string(here.join("src/limit.rs")).expect("limit.rs");
    let stored = fs::read_to_string(here.join("src/stored.rs")).expect("stored.rs");
    let times = fs::read_to_string(here.join("src/times.rs")).expect("times.rs");
    modules += "pub const MUTANTS: &[(&str, crate::side::Side)] = &[\n";
    let mut mutants = String::new();
    if env::var("CARGO_FEATURE_MUTANTS").is_ok() {
        let lines = fs::read_to_string(here.join("mutants.txt")).expect("mutants.txt");
        for (i, line) in lines.lines().filter(|l| !l.is_empty() && !l.starts_with('#')).enumerate() {
            let parts: Vec<&str> = line.split('\t').collect();
            let [function, token, nth, by] = parts[..] else { panic!("a line of mutants.txt: {line}") };
            let name = format!("mutant_{i}");
            let (from, function, adapter, side) = match function.split_once(' ') {
                None => (&text, function, &adapter[..], format!("{name}::adapter::SIDE")),
                Some(("counting", function)) => {
                    (&counting, function, &adapter[..], format!("crate::side::Side {{ counting: {name}::adapter::COUNTING, ..original::adapter::SIDE }}"))
                }
                Some(("empty", function)) => (&empty, function, "", format!("crate::side::Side {{ empty: {name}::EMPTY, ..original::adapter::SIDE }}")),
                Some(("limit", function)) => (&limit, function, "", format!("crate::side::Side {{ limit: {name}::LIMIT, ..original::adapter::SIDE }}")),
                Some(("stored", function)) => (&stored, function, "", format!("crate::side::Side {{ stored: {name}::STORED, ..original::adapter::SIDE }}")),
                Some(("times", function)) => (&times, function, "", format!("crate::side::Side {{ times: {name}::TIMES, ..original::adapter::SIDE }}")),
                Some(_) => panic!("a line of mutants.txt: {line}"),
            };
            mutants += &write(&out, &name, &changed(from, function, token, nth.parse().unwrap(), by), adapter);
            modules += &format!("    ({:?}, {side}),\n", format!("{}: {token} ({nth}) for {by}", parts[0]));
        }
    }
    modules += "];\n";
    modules += &mutants;
    fs::write(out.join("variants.rs"), modules).expect("a file of the build");
}
