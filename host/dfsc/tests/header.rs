//! The declarations and constants of this crate are those of include/dfsc.h.
use std::collections::BTreeMap;

fn read(path: &str) -> String {
    std::fs::read_to_string(format!("{}/{path}", env!("CARGO_MANIFEST_DIR"))).unwrap_or_else(|e| panic!("{path}: {e}"))
}

fn words(text: &str) -> String {
    text.split_whitespace().collect::<Vec<_>>().join(" ")
}

// A parameter of the header as Rust has it.
fn from_c(parameter: &str) -> String {
    let (kind, name) = parameter.rsplit_once([' ', '*']).expect("a type and a name");
    let kind = if parameter.contains('*') { format!("{kind} *").replace("  ", " ") } else { kind.to_string() };
    let rust = match kind.as_str() {
        "const uint16_t *" => "*const u16",
        "uint16_t *" => "*mut u16",
        "const uint8_t *" => "*const u8",
        "uint8_t *" => "*mut u8",
        "uint32_t *" => "*mut u32",
        "uint32_t" => "u32",
        "size_t" => "usize",
        other => panic!("{other} in the header"),
    };
    format!("{name}: {rust}")
}

// The functions of a text: name and parameters, between `before` the name and `after` the last parenthesis.
fn functions(text: &str, before: &str, after: &str, parameter: impl Fn(&str) -> String) -> BTreeMap<String, Vec<String>> {
    let text = words(text);
    let mut all = BTreeMap::new();
    for piece in text.split(before).skip(1) {
        let Some((name, rest)) = piece.split_once('(') else { continue };
        let Some((parameters, rest)) = rest.split_once(')') else { continue };
        if rest.starts_with(after) {
            all.insert(name.to_string(), parameters.split(',').map(str::trim).filter(|p| !p.is_empty() && *p != "void").map(&parameter).collect());
        }
    }
    all
}

#[test]
fn declarations() {
    for (c, rust, least) in [("uint32_t dfsc_", " -> u32;", 15), ("uint64_t dfsc_", " -> u64;", 1)] {
        let header = functions(&read("../../include/dfsc.h"), c, ";", from_c);
        let declared = functions(&read("src/calls.rs"), "fn dfsc_", rust, str::to_string);
        assert!(declared.len() >= least, "{} functions are declared", declared.len());
        for (name, parameters) in &declared {
            assert_eq!(Some(parameters), header.get(name), "dfsc_{name}");
        }
    }
}

#[test]
fn constants() {
    let header = words(&read("../../include/dfsc.h"));
    let defined = |name: &str| header.split(&format!("#define DFSC_{name} ")).nth(1).and_then(|t| t.split(' ').next()?.parse::<usize>().ok());
    assert_eq!(defined("PLACE_UNITS"), Some(dfsc::PLACE_UNITS));
    assert_eq!(defined("MOST_PLACES"), Some(dfsc::MOST_PLACES));
    assert_eq!(defined("WALK_UNITS"), Some(dfsc::WALK_UNITS));
    assert_eq!(defined("REQUEST_BYTES"), Some(dfsc::REQUEST_BYTES));

    let part = |n: usize| env!("CARGO_PKG_VERSION").split('.').nth(n).unwrap().parse::<usize>().unwrap();
    assert_eq!(defined("VERSION"), Some(10000 * part(0) + 100 * part(1) + part(2)));
    assert_eq!(defined("VERSION"), Some(dfsc::version() as usize));
    assert!(header.contains(concat!("#define DFSC_VERSION_TEXT \"", env!("CARGO_PKG_VERSION"), "\" ")));
}

#[test]
fn numbers() {
    let header = words(&read("../../include/dfsc.h"));
    let number = |name: &str| header.split(&format!("DFSC_{name} = ")).nth(1).and_then(|t| t.split([',', ' ']).next()?.parse::<u32>().ok()).expect(name);
    use dfsc::{Outcome, Refusal};
    let refusals = [
        ("BAD_PATH", Refusal::BadPath),
        ("LONG_PATH", Refusal::LongPath),
        ("BAD_SETTINGS", Refusal::BadSettings),
        ("NOT_IN_ORDER", Refusal::NotInOrder),
        ("OUT_OF_FORM", Refusal::OutOfForm),
        ("TOO_MANY_NAMES", Refusal::TooManyNames),
        ("BAD_DOMAIN_REPLY", Refusal::BadDomainReply),
        ("BAD_LISTING", Refusal::BadListing),
        ("TOO_MANY_ENTRIES", Refusal::TooManyEntries),
        ("SHORT_BUFFER", Refusal::ShortBuffer),
        ("END_GONE", Refusal::Gone),
        ("NO_ENTRY", Refusal::Gone),
    ];
    for (name, refusal) in refusals {
        assert_eq!((refusal.number(), Refusal::of(number(name))), (number(name), refusal));
    }
    assert_eq!((Refusal::of(99), Refusal::Other(99).number()), (Refusal::Other(99), 99));
    let outcomes = [
        ("END_DONE", Outcome::Done),
        ("END_NOT_DFS", Outcome::NotDfs),
        ("END_NO_DC", Outcome::NoDc),
        ("END_FAILED", Outcome::Failed),
        ("END_LIMIT_REACHED", Outcome::LimitReached),
        ("END_MALFORMED", Outcome::Malformed),
        ("END_TOO_LONG", Outcome::TooLong),
        ("END_GONE", Outcome::Gone),
    ];
    for (name, outcome) in outcomes {
        assert_eq!(outcome.number(), number(name));
    }
}

#[test]
fn statuses() {
    let header = words(&read("../../include/dfsc.h"));
    let mut seen = 0;
    for piece in header.split("#define DFSC_STATUS_").skip(1) {
        let (name, rest) = piece.split_once(" UINT32_C(").expect("a name and a number");
        let number = rest.split(')').next().unwrap();
        let number = u32::from_str_radix(number.trim_start_matches("0x"), 16).unwrap();
        assert_eq!(dfsc::NtStatus(number).to_string(), format!("{number:08X} {name}"));
        seen += 1;
    }
    assert_eq!(seen, 10);
}
