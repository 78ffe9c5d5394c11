//! The numbers of document 01 stand in the C header, in the Rattle sources and in the model: the
//! same names, the same values.

use model::{answers, causes, kinds, limits, rules, table, tags};
use std::collections::BTreeMap;
use std::path::{Path, PathBuf};

/// Names with their values.
type Numbers = BTreeMap<String, u64>;

/// Some numbers: the header's prefix, the Rattle type or crate that has them, the model's values.
struct Group {
    header: &'static str,
    rattle: &'static str,
    model: &'static [(&'static str, u64)],
}

/// Constants of a module under their own names.
macro_rules! numbers {
    ($module:ident: $($name:ident)*) => {
        &[$((stringify!($name), $module::$name as u64)),*]
    };
}

const fn group(
    header: &'static str,
    rattle: &'static str,
    model: &'static [(&'static str, u64)],
) -> Group {
    Group {
        header,
        rattle,
        model,
    }
}

const RECIPE: &[(&str, u64)] = numbers!(limits: MIN_FILE MAX_FILE MIN_PARTS MAX_PARTS MAX_BAYS
    MIN_ENTRIES MAX_ENTRIES MAX_NESTING MAX_RECIPE_NODES);
const IMAGE: &[(&str, u64)] =
    numbers!(limits: MAX_NAMES MAX_NODES FIRST_HEAD HEAD_LENGTH MAX_NODE_LENGTH MAX_IMAGE);
const KINDS: &[(&str, u64)] = numbers!(kinds: THREAD CELL OPEN_HANDLE USED_HANDLE FUTURE);
const TYPES: &[(&str, u64)] = numbers!(table: UNIT NUM CELL ONCE MANY ONCE_PAIR MANY_PAIR
    ONCE_LIST MANY_LIST);
const ENTRIES: &[(&str, u64)] = numbers!(table: UNIT_ENTRY NUM_ENTRY SETTING_ENTRY);
const TAGS: &[(&str, u64)] = numbers!(tags: VARIABLE LAMBDA APPLICATION UNIT NUM CELL EXCH THREAD HANDLE NAME PAIR LIST
    CASE_PAIR CASE_LIST);
const RULES: &[(&str, u64)] = numbers!(rules: BETA THREAD_NEW FUTURE_DEREF HANDLE_NEW HANDLE_BIND CELL_NEW CELL_EXCH CASE_PAIR
    CASE_LIST);
const CAUSES: &[(&str, u64)] = numbers!(causes: FILE_LENGTH OPENING LAYOUT TYPE_ENTRY NO_TERM
    TERM_SIZE SCOPE ANNOTATION TYPE LINEARITY BAY_ONCE BUFFER IMAGE NO_THREAD ROOM USED_HANDLE
    WRONG_KIND SEED STARTING OTHER_SETTING SHARE);

const GROUPS: [Group; 11] = [
    group("FIKAREHU_", "Recipe", RECIPE),
    group("FIKAREHU_", "Image", IMAGE),
    group("FIKAREHU_KIND_", "Image", KINDS),
    group("FIKAREHU_TYPE_", "Type", TYPES),
    group("FIKAREHU_", "Type", ENTRIES),
    group("FIKAREHU_TAG_", "Node", TAGS),
    group("FIKAREHU_", "recipe_file", numbers!(limits: ENTRY_LENGTH)),
    group("FIKAREHU_", "Rule", RULES),
    group("FIKAREHU_REFUSED_", "Cause", CAUSES),
    group(
        "FIKAREHU_",
        "Stepped",
        numbers!(answers: DONE RULE WAITING REFUSED),
    ),
    group("FIKAREHU_", "Ran", numbers!(answers: TURNS IDLE ROOM)),
];

/// The Rattle name where it is another one: the type there says the rest.
fn rattle_name(name: &str) -> &str {
    match name {
        "MAX_RECIPE_NODES" => "MAX_NODES",
        "MAX_IMAGE" => "MAX_LENGTH",
        same => same,
    }
}

fn repository() -> PathBuf {
    Path::new(env!("CARGO_MANIFEST_DIR")).join("..")
}

fn read(path: &Path) -> String {
    std::fs::read_to_string(path).unwrap_or_else(|error| panic!("{}: {error}", path.display()))
}

/// The constants of the header: `NAME = value` in an enum, and `#define NAME value`.
fn in_header() -> Numbers {
    let text = read(&repository().join("include/fikarehu.h"));
    let constant = |line: &str| {
        let line = line.trim().trim_start_matches("#define ");
        let name = line.split_whitespace().next()?;
        let value = line.strip_prefix(name)?.trim_start_matches([' ', '=']);
        let digits = value.split(|c: char| !c.is_ascii_digit()).next()?;
        let ours = name.starts_with("FIKAREHU_");
        Some((name.to_owned(), digits.parse().ok()?)).filter(|_| ours)
    };
    text.lines().filter_map(constant).collect()
}

/// A number, or products of numbers and names added, a number taken away at the end.
fn value(text: &str, known: &Numbers) -> Option<u64> {
    let factor = |text: &str| {
        text.trim()
            .parse()
            .ok()
            .or_else(|| known.get(text.trim()).copied())
    };
    let (sum, less) = match text.split_once('-') {
        Some((sum, less)) => (sum, factor(less)?),
        None => (text, 0),
    };
    let product = |text: &str| text.split('*').map(factor).product::<Option<u64>>();
    sum.split('+')
        .map(product)
        .sum::<Option<u64>>()?
        .checked_sub(less)
}

/// The constants of the Rattle sources that are numbers, as `Type::NAME` or `crate::NAME`, and the
/// variants of their enums that have numbers, as `Type::NAME` too.
fn in_rattle() -> Numbers {
    let mut found = Numbers::new();
    for (package, source) in rattle_sources() {
        for item in read(&source).split("\n}") {
            let (outside, inside) = item.split_once("\nimpl ").unwrap_or((item, ""));
            let (owner, body) = inside.split_once(" {").unwrap_or(("", ""));
            note_constants(&mut found, &package, outside);
            note_constants(&mut found, owner, body);
            note_variants(&mut found, item);
        }
    }
    found
}

fn note_constants(found: &mut Numbers, owner: &str, text: &str) {
    for (name, text) in text.split(';').filter_map(constant) {
        let whole = format!("{owner}::{name}");
        if let Some(value) = value(text, found) {
            let before = found.insert(whole.clone(), value);
            assert_eq!(before, None, "{whole} has two places");
        }
    }
}

fn note_variants(found: &mut Numbers, item: &str) {
    let (_, inside) = item.split_once("\npub enum ").unwrap_or((item, ""));
    let (owner, body) = inside.split_once(" {").unwrap_or(("", ""));
    for (name, value) in body.lines().filter_map(variant) {
        let whole = format!("{owner}::{name}");
        let before = found.insert(whole.clone(), value);
        assert_eq!(before, None, "{whole} has two places");
    }
}

/// `Name = value,`: the name as the header spells it, and the value.
fn variant(line: &str) -> Option<(String, u64)> {
    let (name, value) = line.trim().trim_end_matches(',').split_once(" = ")?;
    let mut spelled = String::new();
    for letter in name.chars() {
        if letter.is_uppercase() && !spelled.is_empty() {
            spelled.push('_');
        }
        spelled.push(letter.to_ascii_uppercase());
    }
    Some((spelled, value.parse().ok()?))
}

/// `pub const NAME: T = value` at the end of a statement: the name, and the text of the value.
fn constant(statement: &str) -> Option<(&str, &str)> {
    let (_, rest) = statement.rsplit_once("pub const ")?;
    let (name, rest) = rest.split_once(':')?;
    Some((name, rest.split_once('=')?.1))
}

/// Each source with the name of its crate.
fn rattle_sources() -> Vec<(String, PathBuf)> {
    let entries = |folder: PathBuf| {
        let entries = std::fs::read_dir(folder).into_iter().flatten();
        entries.filter_map(|entry| Some(entry.ok()?.path()))
    };
    let crates = entries(repository().join("crates"));
    let files = crates.flat_map(|path| {
        let package = path.file_name().and_then(|name| name.to_str());
        let package = package.unwrap_or("").to_owned();
        entries(path.join("src")).map(move |file| (package.clone(), file))
    });
    let is_rattle = |path: &Path| path.extension().map_or(false, |kind| kind == "rt");
    files.filter(|(_, path)| is_rattle(path)).collect()
}
#[test]
fn the_header_has_the_models_numbers_and_no_others() {
    let mut header = in_header();
    for group in &GROUPS {
        for (name, value) in group.model {
            let whole = format!("{}{name}", group.header);
            assert_eq!(header.remove(&whole), Some(*value), "{whole}");
        }
    }
    header.retain(|name, _| !name.starts_with("FIKAREHU_VERSION_"));
    assert_eq!(header, Numbers::new(), "names that only the header has");
}

#[test]
fn the_rattle_sources_have_the_models_numbers() {
    let rattle = in_rattle();
    for group in &GROUPS {
        for (name, value) in group.model {
            let whole = format!("{}::{}", group.rattle, rattle_name(name));
            assert_eq!(rattle.get(&whole), Some(value), "{whole}");
        }
    }
}

#[test]
fn every_limit_kind_rule_and_cause_of_the_rattle_sources_is_in_the_header() {
    let listed = |owner: &str, name: &str| {
        let groups = GROUPS.iter().filter(|group| group.rattle == owner);
        let mut names = groups.flat_map(|group| group.model);
        names.any(|(known, _)| rattle_name(known) == name)
    };
    for (whole, value) in in_rattle() {
        let (owner, name) = whole.split_once("::").unwrap_or(("", ""));
        let public =
            ["Recipe", "Image", "Type", "Rule", "Cause", "Stepped", "Ran"].contains(&owner);
        // How many variables a term can have around it follows from its nesting: that is no limit.
        let follows = whole == "Recipe::MAX_VARIABLES";
        assert!(
            !public || follows || listed(owner, name),
            "{whole} = {value} has no name in the header"
        );
    }
}

#[test]
fn the_version_is_the_same_everywhere() {
    let header = read(&repository().join("include/fikarehu.h"));
    let version = env!("CARGO_PKG_VERSION");
    assert!(header.contains(&format!("#define FIKAREHU_VERSION \"{version}\"\n")));
    let numbers = in_header();
    let part = |name: &str| numbers[&format!("FIKAREHU_VERSION_{name}")];
    let joined = format!("{}.{}.{}", part("MAJOR"), part("MINOR"), part("PATCH"));
    assert_eq!(joined, version);
    let package = read(&repository().join("include/fikarehu.pc.in"));
    assert!(package.contains(&format!("\nVersion: {version}\n")));
}
