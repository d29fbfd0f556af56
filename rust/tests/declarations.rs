//! The declarations in src/ffi.rs against the library's source, ../crates/powerlink_c/src: the same
//! functions, with the same parameters in the same order, and states and tables of the same length.
use std::collections::BTreeMap;
use std::fs;
use std::path::{Path, PathBuf};

/// A function's parameters and its result, by its name.
type Functions = BTreeMap<String, Vec<String>>;

/// The functions whose names follow `start`, with each parameter changed by `as_rust`.
fn functions(text: &str, start: &str, as_rust: fn(&str, &str) -> String) -> Functions {
    let mut found = Functions::new();
    for piece in text.split(start).skip(1) {
        let (name, rest) = piece.split_once('(').expect("a function has parameters");
        let (parameters, rest) = rest.split_once(')').expect("parameters end");
        let result = rest.split(['\n', ';', '{']).next().unwrap_or_default();
        let mut signature: Vec<String> = parameters
            .split(',')
            .map(|parameter| parameter.split_whitespace().collect::<Vec<_>>().join(" "))
            .filter(|parameter| !parameter.is_empty())
            .map(|parameter| {
                let (name, kind) = parameter.split_once(": ").expect("a parameter has a type");
                as_rust(name, kind)
            })
            .collect();
        signature.push(result.trim().to_string());
        let before = found.insert(name.trim().to_string(), signature);
        assert!(before.is_none(), "{name} is there twice");
    }
    found
}

/// A parameter of the library's source, as it is declared here.
fn declared(name: &str, kind: &str) -> String {
    match kind {
        "&[u8]" => format!("{name}: *const u8, {name}_len: usize"),
        "&mut [u8]" => format!("{name}: *mut u8, {name}_len: usize"),
        "&mut Reporter" => format!("{name}: &mut [u8; REPORTER_LEN]"),
        "&Reporter" => format!("{name}: &[u8; REPORTER_LEN]"),
        "&mut Collector" => format!("{name}: &mut [u8; COLLECTOR_LEN]"),
        "&Collector" => format!("{name}: &[u8; COLLECTOR_LEN]"),
        "&mut Services" => format!("{name}: &mut [u8; SERVICES_LEN]"),
        "&Services" => format!("{name}: &[u8; SERVICES_LEN]"),
        _ => format!("{name}: {kind}"),
    }
}

/// The folder of the library's crates. A copy of this crate alone has none to compare with.
fn crates() -> Option<PathBuf> {
    let folder = PathBuf::from(env!("CARGO_MANIFEST_DIR")).join("../crates");
    if folder.is_dir() {
        return Some(folder);
    }
    println!("skipped: there is no {}", folder.display());
    None
}

/// What stands in the files of a crate's `src`, its `lib.rt` first.
fn source(folder: &Path) -> String {
    let mut files: Vec<PathBuf> = fs::read_dir(folder.join("src"))
        .unwrap()
        .map(|file| file.unwrap().path())
        .filter(|path| path.extension().is_some_and(|extension| extension == "rt"))
        .collect();
    files.sort_by_key(|path| !path.ends_with("lib.rt"));
    files
        .iter()
        .map(|path| fs::read_to_string(path).unwrap())
        .collect()
}

/// Declarations under the names that they are linked by. Such a name is the function's own and an
/// interface's number: the present one's, or that of the last change of its parameters.
fn as_linked(declarations: &str) -> String {
    let mut pieces = declarations.split("#[link_name = \"");
    let mut linked = pieces.next().unwrap_or_default().to_string();
    for piece in pieces {
        let (name, rest) = piece.split_once("\"]").expect("a name ends");
        let (plain, number) = name.rsplit_once("_v").expect("a number ends it");
        assert!(
            (2..=powerlink::VERSION).contains(&number.parse().unwrap()),
            "{name}"
        );
        let own = format!("fn {plain}(");
        let (_, rest) = rest
            .split_once(&own)
            .unwrap_or_else(|| panic!("{name} is not the name of the function behind it"));
        linked += &format!("fn {name}({rest}");
    }
    linked
}

#[test]
fn declarations_are_those_of_the_source() {
    let Some(crates) = crates() else {
        return;
    };
    let theirs = functions(
        &source(&crates.join("powerlink_c")),
        "pub extern \"C\" fn ",
        declared,
    );
    let ours = include_str!("../src/ffi.rs");
    let ours = ours.split_once("extern \"C\" {").expect("declarations").1;
    let ours = ours.split_once("\n}\n").expect("their end").0;
    let ours = functions(&as_linked(ours), "fn ", |name, kind| {
        format!("{name}: {kind}")
    });

    assert!(
        ours.len() > 30,
        "only {} declarations were found",
        ours.len()
    );
    for (name, signature) in &ours {
        let theirs = theirs
            .get(name)
            .unwrap_or_else(|| panic!("{name} is not in the source"));
        assert_eq!(signature.join(", "), theirs.join(", "), "{name}");
    }
    for name in theirs.keys() {
        assert!(ours.contains_key(name), "{name} is not declared");
    }
}

/// The value of a constant that is a sum of products of numbers and constants.
fn constant(text: &str, name: &str) -> usize {
    let (_, rest) = text
        .split_once(&format!("const {name}: "))
        .unwrap_or_else(|| panic!("no {name}"));
    let (_, rest) = rest.split_once(" = ").expect("a constant has a value");
    let (value, _) = rest.split_once(';').expect("a constant ends");
    let value = value.replace(['(', ')'], "").replace(" as usize", "");
    value
        .split('+')
        .map(|product| {
            product
                .split('*')
                .map(str::trim)
                .map(|factor| factor.parse().unwrap_or_else(|_| constant(text, factor)))
                .product::<usize>()
        })
        .sum()
}

/// The library writes as many octets of a state or a table as its source says: those here must have
/// them, and so must a place for a record.
#[test]
fn states_tables_and_records_are_as_long_as_in_the_source() {
    let Some(crates) = crates() else {
        return;
    };
    let read = |name| source(&crates.join(name));
    let entries = read("error_entry");
    let reporter = constant(&(read("reporter") + &entries), "REPORTER_LEN");
    assert_eq!(powerlink::REPORTER_LEN, reporter);
    let collector = constant(&(read("collector") + &entries), "COLLECTOR_LEN");
    assert_eq!(powerlink::COLLECTOR_LEN, collector);
    let services = constant(&read("services"), "SERVICES_LEN");
    assert_eq!(powerlink::SERVICES_LEN, services);
    let record = constant(&(read("journal_records") + &entries), "JOURNAL_RECORD_LEN");
    assert_eq!(powerlink::journal::RECORD_LEN, record);
}

/// The constants of a text, by name and octet, that stand between `kind` and `end`.
fn octets(text: &str, kind: &str, end: &str) -> Vec<(String, u8)> {
    let constants = text.split("pub const ").skip(1);
    let named = constants.filter_map(|line| line.split_once(kind));
    let found = named.filter(|(name, _)| !name.contains(':'));
    let parse = |octet: &str| u8::from_str_radix(octet.trim_start_matches("0x"), 16).unwrap();
    found
        .map(|(name, rest)| (name.to_string(), parse(rest.split_once(end).unwrap().0)))
        .collect()
}

/// The twelve services have the names and numbers of the source, and their table is its table.
#[test]
fn services_are_those_of_the_source() {
    let Some(crates) = crates() else {
        return;
    };
    let source = source(&crates.join("services"));
    let theirs = octets(&source, ": u8 = ", ";");
    let ours = include_str!("../src/services.rs");
    let ours = octets(ours, ": ServiceId = ServiceId(", ")");
    assert_eq!(ours.len(), 12);
    assert_eq!(ours, theirs);

    let (_, table) = source.split_once("const DS301: Services = [").unwrap();
    let (table, _) = table.split_once(']').unwrap();
    let table: Vec<u8> = table
        .split(',')
        .map(str::trim)
        .filter(|octet| !octet.is_empty())
        .map(|octet| octet.parse().unwrap())
        .collect();
    assert_eq!(powerlink::Services::DS301.as_bytes()[..], table);
}

/// Header and crate are of one version: what is saved by a program in C, one in Rust goes on from.
#[test]
fn the_version_is_that_of_the_header() {
    let Some(crates) = crates() else {
        return;
    };
    let header = fs::read_to_string(crates.join("../include/powerlink.h")).unwrap();
    let version = format!("\n#define POWERLINK_VERSION {}\n", powerlink::VERSION);
    assert!(
        header.contains(&version),
        "the header is of another version"
    );
}
