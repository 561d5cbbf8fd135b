//! `include/kinchoyu.h`, docs/CAPI.md, the crate and the library say the same: functions, their
//! arguments, sizes, and what a refusal means.
use kinchoyu::{raw, Refusal, P, STACK_BYTES};
use std::collections::BTreeMap;
use std::fs::read_to_string;

fn read(path: &str) -> String {
    let whole = format!("{}/{path}", env!("CARGO_MANIFEST_DIR"));
    read_to_string(&whole).unwrap_or_else(|fault| panic!("{whole}: {fault}"))
}

fn header() -> String {
    read("../../include/kinchoyu.h")
}

/// Each macro and its value, without the wrapping of a 64-bit constant.
fn macros(header: &str) -> BTreeMap<&str, &str> {
    let lines = header.lines().filter_map(|line| line.strip_prefix("#define KINCHOYU_"));
    let value = |text: &'_ str| -> usize { text.find(' ').unwrap_or(text.len()) };
    lines
        .map(|line| line.split_at(value(line)))
        .map(|(name, text)| {
            let text = text.trim();
            (name, text.strip_prefix("UINT64_C(").map_or(text, |text| text.trim_end_matches(')')))
        })
        .collect()
}

/// Each function with its arguments, from declarations in C or in Rust: between `begin` and the
/// semicolon, written one way.
fn functions(text: &str, begin: &str) -> BTreeMap<String, Vec<String>> {
    text.split(begin)
        .skip(1)
        .filter_map(|rest| rest.split_once(';')?.0.split_once('('))
        .map(|(name, arguments)| {
            let arguments = arguments.rsplit_once(')').expect("arguments").0;
            let arguments = arguments.split(',').map(one_way).filter(|argument| argument != "void");
            (name.to_string(), arguments.filter(|argument| !argument.is_empty()).collect())
        })
        .collect()
}

/// An argument as C's header writes it, with one space between its parts.
fn one_way(argument: &str) -> String {
    let argument = argument.split_whitespace().collect::<Vec<_>>().join(" ");
    let Some((name, kind)) = argument.split_once(": ") else {
        return argument.replace("word", "uint64_t").replace("* ", "*");
    };
    let kind = match kind {
        "*const u64" => "const uint64_t *",
        "*mut u64" => "uint64_t *",
        "u64" => "uint64_t ",
        "usize" => "size_t ",
        _ => panic!("{kind}"),
    };
    format!("{kind}{name}")
}

#[test]
fn header_crate_and_document_declare_the_same_functions() {
    let header = functions(&header(), "\nuint64_t kinchoyu_");
    assert_eq!(header.len(), 17);
    assert_eq!(header["label"][3], "uint64_t *out");
    assert_eq!(header["state_words"].len(), 0);
    assert_eq!(functions(&read("src/c.rs"), "pub fn kinchoyu_"), header);
    assert_eq!(functions(&read("../../docs/CAPI.md"), "\nword kinchoyu_"), header);
}

#[test]
fn macros_are_what_the_library_answers() {
    let header = header();
    let macros = macros(&header);
    let said = |name: &str| -> u64 { macros[name].parse().expect("a number") };
    assert_eq!(said("PLAN_WORDS"), raw::plan_words() as u64);
    assert_eq!(said("STATE_WORDS"), raw::state_words() as u64);
    assert_eq!(said("REPRESENTATIVES_WORDS"), raw::REPRESENTATIVES_WORDS as u64);
    assert_eq!(said("STACK_BYTES"), STACK_BYTES as u64);
    assert_eq!(said("P"), P);
    let parts = ["MAJOR", "MINOR", "PATCH"].map(|part| macros[&*format!("VERSION_{part}")]);
    assert_eq!(parts.join("."), env!("CARGO_PKG_VERSION"));
    assert_eq!(macros["VERSION"].trim_matches('"'), env!("CARGO_PKG_VERSION"));

    // so many words of representatives are no refusal 10
    let mut out = vec![0; said("REPRESENTATIVES_WORDS") as usize];
    assert_eq!(raw::representatives(1, 1, &mut out), 0);
    assert_eq!(raw::representatives(1, 1, &mut out[1..]), Refusal::ShortBuffer.number());

    // so many parameters are no refusal 20, and so many gates of so many words no refusal 3
    let mut plan = vec![0; raw::plan_words()];
    let parameters = vec![0; said("PARAMETER_WORDS") as usize];
    assert_eq!(raw::plan(&parameters, &[], &mut plan), Refusal::Parameter.number());
    assert_eq!(raw::plan(&parameters[1..], &[], &mut plan), Refusal::Listing.number());
    let good = [1, 1, 0, 0, 0, 0, 0, 0];
    let gates = vec![9; (said("MOST_GATES") * said("GATE_WORDS")) as usize];
    assert_eq!(raw::plan(&good, &gates, &mut plan), Refusal::GateRecord.number());
    assert_eq!(raw::plan(&good, &gates[1..], &mut plan), Refusal::GateCount.number());
    let one_more = vec![9; gates.len() + said("GATE_WORDS") as usize];
    assert_eq!(raw::plan(&good, &one_more, &mut plan), Refusal::GateCount.number());
}

#[test]
fn the_header_has_the_same_sentences() {
    let header = header();
    let text = header.split_once("kinchoyu_refusal_text(uint64_t number)\n{").expect("sentences").1;
    let text = text.split_once("default:").expect("other numbers").0;
    let mut sentences = BTreeMap::new();
    for case in text.split("case ").skip(1) {
        let (number, rest) = case.split_once(':').expect("a number");
        let sentence: String = rest.split('"').skip(1).step_by(2).collect();
        sentences.insert(number.parse::<u64>().expect("a number"), sentence);
    }
    assert_eq!(sentences.remove(&0).as_deref(), Some("the call was accepted"));
    let own = Refusal::all().map(|refusal| (refusal.number(), refusal.sentence().to_string()));
    assert_eq!(sentences, own.collect());
}
