//! The floors that the head of src/lib.rs lists: a module uses modules of lower floors alone, and
//! `raw` alone has unsafe code.

use std::collections::{BTreeMap, BTreeSet};
use std::fs;
use std::path::Path;

/// A file of the crate by its name, without its comments.
fn code(module: &str) -> String {
    let text = text(module);
    text.lines().map(|line| line.split("//").next().unwrap_or_default()).collect::<Vec<_>>().join("\n")
}

fn text(module: &str) -> String {
    let file = Path::new(env!("CARGO_MANIFEST_DIR")).join("src").join(module).with_extension("rs");
    fs::read_to_string(&file).unwrap_or_else(|error| panic!("{}: {error}", file.display()))
}

fn words(code: &str) -> impl Iterator<Item = &str> {
    code.split(|letter: char| !letter.is_alphanumeric() && letter != '_').filter(|word| !word.is_empty())
}

/// The floor of each module, counted from the top. A line of the list has the modules of a floor,
/// and behind two spaces or more what they are.
fn floors() -> BTreeMap<String, usize> {
    let text = text("lib");
    let listed = text.lines().filter_map(|line| line.strip_prefix("//     "));
    let names = listed.map(|line| line.split("  ").next().unwrap_or_default());
    let each = |(floor, names)| words(names).map(move |name| (name.to_owned(), floor));
    names.enumerate().flat_map(each).collect()
}

#[test]
fn every_module_has_its_floor() {
    let lib = code("lib");
    let modules: BTreeSet<&str> =
        lib.lines().filter_map(|line| line.strip_prefix("mod ")?.strip_suffix(';')).collect();
    let listed = floors();
    assert_eq!(modules, listed.keys().map(String::as_str).collect());
}

#[test]
fn a_module_uses_lower_floors_alone() {
    let floors = floors();
    let mut arrows = 0;
    for (module, floor) in &floors {
        let code = code(module);
        assert!(!code.contains("super::"), "{module} names a module by super");
        for used in code.split("crate::").skip(1) {
            let used = words(used).next().expect("a name stands behind crate::");
            let below = floors.get(used).unwrap_or_else(|| panic!("{module} uses crate::{used}, no module"));
            assert!(below > floor, "{module} uses {used}, which is not below it");
            arrows += 1;
        }
    }
    assert!(arrows > 0);
}

#[test]
fn unsafe_code_is_in_raw_alone() {
    let floors = floors();
    let with: Vec<&String> =
        floors.keys().filter(|module| words(&code(module)).any(|word| word == "unsafe")).collect();
    assert_eq!(with, ["raw"]);
}
