//! What `include/approach.h` names for C, the wrapper names alike: nothing comes to one and is forgotten in the other,
//! and all is in one order there and in the crates.
use approach::{raw, sheet, Coefficients, Mark, Refusal, LONGEST_ROW};
use std::collections::BTreeSet;
use std::fs;

const HEADER: &str = include_str!("../../../include/approach.h");
const RAW: &str = include_str!("../src/raw.rs");
const PROVED: &str = include_str!("../../../crates/approach/src/lib.rt");

/// The header's constants whose names begin so, each with the rest of its name and its number, in order.
fn constants(beginning: &str) -> Vec<(String, u32)> {
    let constant = |line: &str| {
        let (name, value) = line.trim().strip_prefix(beginning)?.split_once(" = ").expect("a number for each constant");
        let (number, _) = value.split_once(',').expect("a comma behind each constant");
        Some((name.to_string(), number.parse().expect("a number in decimal")))
    };
    HEADER.lines().filter_map(constant).collect()
}

/// The number that the header defines a name to be.
fn defined(name: &str) -> usize {
    let value = HEADER.lines().find_map(|line| line.strip_prefix("#define ")?.strip_prefix(name)?.strip_prefix(' '));
    value.expect(name).parse().expect("a number in decimal")
}

/// As C has it. A new refusal has to be named here, and so be one of the header's.
fn name(refusal: Refusal) -> &'static str {
    match refusal {
        Refusal::BrakedWeight => "WEIGHT",
        Refusal::Length => "LENGTH",
        Refusal::Speed => "SPEED",
        Refusal::Target => "TARGET",
        Refusal::Gradient => "GRADIENT",
        Refusal::Times => "TIMES",
        Refusal::Sheet => "SHEET",
        Refusal::Number => "NUMBER",
        Refusal::Head => "HEAD",
        Refusal::WeakBrake => "WEAK_BRAKE",
        Refusal::Room => "ROOM",
        Refusal::Coefficient => "COEFFICIENT",
    }
}

/// The calls that a text declares or makes: names before a bracket.
fn calls(text: &str) -> BTreeSet<&str> {
    let names = text.split(|letter: char| !(letter.is_ascii_alphanumeric() || letter == '_' || letter == '('));
    names
        .filter_map(|name| name.split_once('('))
        .map(|(name, _)| name)
        .filter(|name| name.starts_with("approach_"))
        .collect()
}

/// What is proved is declared to C and to Rust, called from C, and named among the promises.
#[test]
fn calls_declared() {
    let proved = calls(PROVED);
    assert!(proved.len() >= 12, "{proved:?}");
    assert_eq!(calls(HEADER), proved);
    assert_eq!(calls(RAW), proved);
    for call in proved {
        assert!(include_str!("../../../c/calls.c").contains(call), "c/calls.c does not make {call}");
        let promised = include_str!("../../../docs/PROMISES.md").contains(&format!("`{call}`"));
        assert!(promised, "docs/PROMISES.md does not name {call}");
    }
}

/// An entry point takes every input: none asks anything of its caller. The models' are those that the promises name.
#[test]
fn nothing_required() {
    assert!(!PROVED.contains("requires"), "crates/approach asks something of its caller");
    let promises = include_str!("../../../docs/PROMISES.md");
    let (named, _) = around(promises, "The entry points: ").1.split_once(", and for C").expect("those for C");
    let models: Vec<&str> = named.split('`').skip(1).step_by(2).collect();
    assert!(models.len() >= 9, "{models:?}");
    for model in models {
        let ((name, _), (_, function)) = model.split_once("::").zip(model.rsplit_once("::")).expect(model);
        let file = format!("{}/../../crates/{name}/src/lib.rt", env!("CARGO_MANIFEST_DIR"));
        let text = fs::read_to_string(&file).expect(&file);
        let beginning = format!("pub fn {function}(");
        let contract: Vec<&str> = around(&text, &beginning).1.lines().take_while(|line| line.trim() != "{").collect();
        assert!(contract.iter().any(|line| line.contains("ensures")), "{model} promises nothing");
        assert!(!contract.iter().any(|line| line.contains("requires")), "{model} asks something of its caller");
    }
}

/// Where the crates' names are not C's: a field's is one word, and their `Train`, `Coefficients` and `Inertia` are what C's records
/// stand for.
const NAMED_OTHERWISE: [(&str, &str); 5] = [
    ("EnteredCoefficients", "Coefficients"),
    ("EnteredInertia", "Inertia"),
    ("Entered", "Train"),
    ("pub weight: ", "pub braked_weight: "),
    ("pub top: ", "pub top_speed: "),
];

/// A text without comments, nor attributes that change no order.
fn bare(text: &str) -> String {
    let code: String = text.split("/*").map(|part| part.split_once("*/").map_or(part, |(_, code)| code)).collect();
    let lines = code.lines().filter_map(|line| line.split("//").next()).filter(|line| !line.starts_with("#[derive("));
    lines.map(|line| line.trim_end().to_string() + "\n").collect()
}

/// Every crate's first file in one text, with C's names: any of them may declare what crosses.
fn crates() -> String {
    let folder = concat!(env!("CARGO_MANIFEST_DIR"), "/../../crates");
    let files = fs::read_dir(folder).expect(folder).map(|entry| entry.expect("an entry").path().join("src/lib.rt"));
    let text: String = files.filter_map(|file| fs::read_to_string(file).ok()).map(|text| bare(&text)).collect();
    NAMED_OTHERWISE.iter().fold(text, |text, (of_crate, of_c)| text.replace(of_crate, of_c))
}

/// What stands on either side of a beginning that is there once: of two, the border might have the other.
fn around<'a>(text: &'a str, beginning: &str) -> (&'a str, &'a str) {
    assert_eq!(text.matches(beginning).count(), 1, "{beginning}");
    text.split_once(beginning).expect(beginning)
}

/// A declaration of C, `type name`, as Rust writes it; a `bool` is a byte. A type that is new at the border stays as it is, and so
/// is refused.
fn of_c(declaration: &str) -> String {
    let (kind, name) = declaration.split_at(declaration.rfind([' ', '*']).expect(declaration) + 1);
    let kind: &str = match kind.trim() {
        "bool" => "u8",
        "uint32_t" => "u32",
        "int32_t" => "i32",
        "size_t" => "usize",
        "const uint8_t *" => "*const u8",
        "const uint16_t *" => "*const u16",
        "const uint32_t *" => "*const u32",
        "const int16_t *" => "*const i16",
        "uint8_t *" => "*mut u8",
        "uint32_t *" => "*mut u32",
        other => match other.strip_prefix("struct approach_") {
            Some(named) => &(named[..1].to_uppercase() + &named[1..]),
            None => other,
        },
    };
    format!("{name}: {kind}")
}

/// A declaration of a crate as it crosses: a unit is its number, a list a pointer and how many lie behind it.
fn of_crate(crates: &str, declaration: &str) -> String {
    let (name, kind) = declaration.split_once(": ").expect(declaration);
    let unit = format!("#[repr(C)]\npub struct {kind}(pub ");
    let number = crates.contains(&unit).then(|| around(crates, &unit).1.split_once(");").expect(kind).0);
    let kind = number.unwrap_or(kind).replace("&mut [", "*mut ").replace("&[", "*const ");
    format!("{name}: {}", kind.replace(']', ", usize"))
}

/// The declarations of a list, in its order.
fn listed(list: &str, between: char) -> Vec<String> {
    let parts = list.split(between).map(|part| part.trim().trim_start_matches("pub "));
    parts.filter(|part| !part.is_empty()).map(str::to_string).collect()
}

/// A call's name with its answer, then its parameters, from the beginning of a declaration in Rust on.
fn call_of_rust(text: &str, beginning: &str, call: &str) -> Vec<String> {
    let (parameters, rest) = around(text, &format!("{beginning}{call}(")).1.split_once(") -> ").expect(call);
    let answer = rest.split([';', '\n']).next().expect(call);
    listed(&format!("{call}: {answer}, {parameters}"), ',')
}

fn call_of_c(header: &str, call: &str) -> Vec<String> {
    let (before, rest) = around(header, &format!(" {call}("));
    let (answer, (parameters, _)) = (before.lines().last().expect(call), rest.split_once(");").expect(call));
    let parameters = if parameters == "void" { "" } else { parameters };
    listed(&format!("{answer} {call}, {parameters}"), ',').iter().map(|part| of_c(part)).collect()
}

/// The same declarations in the same order, in C, Rust and crate. How many lie behind a pointer has no name in the crate.
fn assert_same(name: &str, of_c: Vec<String>, of_rust: Vec<String>, of_crate: Vec<String>) {
    assert_eq!(of_c, of_rust, "{name}: include/approach.h and raw.rs");
    let unnamed = |part: &String| if part.ends_with(": usize") { "usize".to_string() } else { part.clone() };
    let of_c: Vec<String> = of_c.iter().map(unnamed).collect();
    assert_eq!(of_c.join(", "), of_crate.join(", "), "{name}: include/approach.h and the crate");
}

/// A contract goes by names, so a proof holds in any order of parameters; C goes by the order.
#[test]
fn parameters_in_order() {
    let (header, raw, crates) = (bare(HEADER), bare(RAW), crates());
    let exported: Vec<&str> =
        PROVED.split("extern \"C\" fn ").skip(1).filter_map(|part| part.split('(').next()).collect();
    assert!(exported.len() >= 12, "{exported:?}");
    for call in exported {
        let proved = call_of_rust(&crates, "#[unsafe(no_mangle)]\npub extern \"C\" fn ", call);
        let proved = proved.iter().map(|part| of_crate(&crates, part)).collect();
        assert_same(call, call_of_c(&header, call), call_of_rust(&raw, "    fn ", call), proved);
    }
}

/// And any order of fields. What crosses is in raw.rs, since the test above compares what each call takes and answers.
#[test]
fn fields_in_order() {
    let (header, raw, crates) = (bare(HEADER), bare(RAW), crates());
    let fields = |text, beginning: &str, between| {
        let (list, _) = around(text, &format!("{beginning} {{")).1.split_once('}').expect(beginning);
        listed(list, between)
    };
    let begun = |line| str::strip_prefix(line, "pub struct ")?.strip_suffix(" {");
    let structs: Vec<&str> = raw.lines().filter_map(begun).collect();
    assert!(structs.len() >= 12, "{structs:?}");
    for name in structs {
        let of_rust = format!("#[repr(C)]\npub struct {name}");
        let of_header = fields(&header, &format!("struct approach_{}", name.to_lowercase()), ';');
        assert_same(
            name,
            of_header.iter().map(|part| of_c(part)).collect(),
            fields(&raw, &of_rust, ','),
            fields(&crates, &of_rust, ',').iter().map(|part| of_crate(&crates, part)).collect(),
        );
    }
}

#[test]
fn refusals() {
    let wanted = Refusal::ALL.map(|refusal| (name(refusal).to_string(), refusal.number()));
    assert_eq!(constants("APPROACH_REFUSED_"), wanted);
    assert_eq!(constants("APPROACH_ACCEPTED"), [(String::new(), 0)]);
}

#[test]
fn marks() {
    let wanted = Mark::ALL.map(|mark| (mark.to_string().to_uppercase(), mark.number()));
    assert_eq!(constants("APPROACH_MARK_"), wanted);
}

/// The header's initialiser goes by the order of the fields, which is the wrapper's by the test above.
#[test]
fn initialiser() {
    let value = HEADER.lines().find_map(|line| line.strip_prefix("#define APPROACH_FIRST_VALUES "));
    let raw::Coefficients { dt, h, kr, cr, nc, vc, inertia } = Coefficients::FIRST_VALUES.into();
    let raw::Inertia { ki1, ki2, ki3, i1, i2 } = inertia;
    let wanted = format!("{{{dt}, {h}, {kr}, {cr}, {nc}, {vc}, {{{ki1}, {ki2}, {ki3}, {i1}, {i2}}}}}");
    assert_eq!(value, Some(wanted.as_str()));
}

#[test]
fn sizes() {
    assert_eq!(defined("APPROACH_MOST_STRETCHES"), sheet::MOST_STRETCHES);
    assert_eq!(defined("APPROACH_MOST_SIGNALS"), sheet::MOST_SIGNALS);
    assert_eq!(defined("APPROACH_LONGEST_ROW"), LONGEST_ROW);
}

#[test]
fn no_stretch() {
    assert_eq!(defined("APPROACH_NO_STRETCH"), raw::NO_STRETCH as usize);
}
