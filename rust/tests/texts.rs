//! Texts that stand in more than one place say the same: the declarations of the exported functions, the room that always suffices,
//! and the words of refusals.

use zaatarloft::Refusal;

const EXPORTED: &str = include_str!("../../crates/zaatarloft/src/lib.rt");
const DECLARED: &str = include_str!("../src/raw.rs");
const HEADER: &str = include_str!("../../include/zaatarloft.h");
const REFUSALS: &str = include_str!("../../include/refusals.txt");

/// Words with one blank between them.
fn spaced(text: &str) -> String {
    text.split_whitespace().collect::<Vec<_>>().join(" ")
}

#[derive(Debug, PartialEq)]
struct Signature {
    name: String,
    /// Each as `name: type`.
    parameters: Vec<String>,
    result: String,
}

/// The functions behind each `mark`, in order; one of `ends` stands behind a signature.
fn signatures(source: &str, mark: &str, ends: &[&str]) -> Vec<Signature> {
    let signature = |text: &str| {
        let end = ends.iter().filter_map(|end| text.find(end)).min();
        let (name, rest) = text[..end.unwrap()].split_once('(').unwrap();
        let (parameters, result) = rest.split_once(')').unwrap();
        let parameters = parameters.split(',').map(spaced);
        Signature {
            name: spaced(name),
            parameters: parameters.filter(|text| !text.is_empty()).collect(),
            result: spaced(result),
        }
    };
    source.split(mark).skip(1).map(signature).collect()
}

/// A parameter of a Rattle function as C sees it: a reference is a pointer, and a slice a pointer and a length.
fn as_pointers(parameter: &str) -> Vec<String> {
    let (name, kind) = parameter.split_once(": ").unwrap();
    let (pointer, behind) = match (kind.strip_prefix("&mut "), kind.strip_prefix('&')) {
        (Some(behind), _) => ("*mut", behind),
        (None, Some(behind)) => ("*const", behind),
        (None, None) => return vec![parameter.to_owned()],
    };
    match behind.strip_prefix('[').and_then(|b| b.strip_suffix(']')) {
        Some(item) => vec![
            format!("{name}: {pointer} {item}"),
            format!("{name}_length: usize"),
        ],
        None => vec![format!("{name}: {pointer} {behind}")],
    }
}

/// The functions that crates/zaatarloft exports are those declared in Rust, with the same parameters in the same order. That the
/// header declares the same, bindgen says (rust/declarations).
#[test]
fn declarations_agree() {
    let mut exported = signatures(
        EXPORTED,
        "pub extern \"C\" fn ",
        &["requires", "ensures", "{"],
    );
    for signature in &mut exported {
        let parameters = signature.parameters.iter();
        signature.parameters = parameters
            .flat_map(|parameter| as_pointers(parameter))
            .collect();
    }
    assert_eq!(exported.len(), EXPORTED.matches("#[unsafe(no_mangle)]").count());
    assert_eq!(signatures(DECLARED, "pub fn ", &[";"]), exported);
}

#[test]
fn room_in_header() {
    for (name, bytes) in [
        ("NETLIST", zaatarloft::NETLIST_BYTES),
        ("MATRIX", zaatarloft::MATRIX_BYTES),
        ("VERILOG", zaatarloft::VERILOG_BYTES),
    ] {
        let definition = format!("#define ZAATARLOFT_{name}_BYTES {bytes}\n");
        assert!(HEADER.contains(&definition), "{definition}");
    }
}

/// Number, place and words of each refusal in the file.
fn refusals() -> Vec<(u8, &'static str, &'static str)> {
    let lines = REFUSALS.lines().filter(|line| !line.starts_with('#'));
    let refusal = |line: &'static str| {
        let (returned, words) = line.split_once(" | ").unwrap();
        let (number, place) = returned.split_once(", ").unwrap();
        (number.parse().unwrap(), place, words)
    };
    lines.map(refusal).collect()
}

#[test]
fn refusals_in_rust() {
    let numbers: Vec<u8> = refusals().iter().map(|refusal| refusal.0).collect();
    assert_eq!(numbers, (1..=21).collect::<Vec<u8>>());
    for (number, _, words) in refusals() {
        assert_eq!(Refusal { number, place: 0 }.words(), words);
    }
    let other = Refusal {
        number: 22,
        place: 5,
    };
    assert_eq!(
        other.to_string(),
        "refused 22 at 5: no refusal of document 01"
    );
}

/// The header's function for the words has a case for each line of the file and no other, with its place beside it.
#[test]
fn refusals_in_header() {
    let cases = refusals()
        .into_iter()
        .map(|(number, place, words)| format!("case {number}: /* {place} */ return \"{words}\";"));
    let table = format!(
        "{} default: return NULL;",
        cases.collect::<Vec<_>>().join(" ")
    );
    let (_, found) = HEADER.split_once("switch (refusal) {").unwrap();
    let (found, _) = found.split_once('}').unwrap();
    assert_eq!(spaced(found).replace("\" \"", ""), table);
}
