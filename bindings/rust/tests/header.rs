//! The crate beside the headers: every call of include/panel.h with its arguments, the sizes of a history, every sentence of
//! include/panel_words.h, and the size numbers of the port. A call, a sentence or a number that differs or is missing fails.

mod common;

use std::collections::BTreeMap;
use std::fs;

fn text(path: &str) -> String {
    let path = format!("{}/../../{}", env!("CARGO_MANIFEST_DIR"), path);
    fs::read_to_string(&path).unwrap_or_else(|error| panic!("{}: {}", path, error))
}

/// C without its comments, a line that goes on as one line.
fn plain(c: &str) -> String {
    let mut left = String::new();
    let mut rest = c;
    while let Some(open) = rest.find("/*") {
        left += &rest[..open];
        rest = &rest[open + rest[open..].find("*/").expect("a comment that ends") + 2..];
    }
    (left + rest).replace("\\\n", " ")
}

/// The words of a text: runs of letters, digits and lines below.
fn words(text: &str) -> impl Iterator<Item = &str> {
    text.split(|c: char| !c.is_alphanumeric() && c != '_').filter(|word| !word.is_empty())
}

/// The text with each word of `names` replaced.
fn replaced(text: &str, names: &[String], by: &[String]) -> String {
    let (mut out, mut word) = (String::new(), String::new());
    for c in text.chars().chain(Some(' ')) {
        if c.is_alphanumeric() || c == '_' {
            word.push(c);
        } else {
            out += names.iter().position(|name| *name == word).map_or(&word, |i| &by[i]);
            word.clear();
            out.push(c);
        }
    }
    out
}

/// What stands between the first bracket and the last, cut at the commas.
fn arguments(text: &str) -> Vec<String> {
    let inside = &text[text.find('(').expect("a bracket") + 1..text.rfind(')').expect("its end")];
    inside.split(',').map(|part| part.split_whitespace().collect::<Vec<_>>().join(" ")).collect()
}

/// The calls that a header declares, by itself or by a macro, with their C parameters.
fn declared(header: &str) -> Vec<(String, Vec<String>)> {
    let (mut macros, mut code) = (Vec::new(), String::new());
    for line in plain(header).lines() {
        if let Some(define) = line.trim().strip_prefix("#define ") {
            if let Some(body) = define.find("panel_answer") {
                let name = words(define).next().expect("a name").to_string();
                macros.push((name, arguments(&define[..body]), define[body..].to_string()));
            }
        } else if !line.trim_start().starts_with('#') {
            code += line;
            code.push('\n');
        }
    }
    let mut calls = Vec::new();
    for statement in code.split(';').map(str::trim) {
        let of = macros.iter().find(|(name, ..)| words(statement).next() == Some(name.as_str()));
        let statement = of.map_or(statement.to_string(), |(_, names, body)| replaced(body, names, &arguments(statement)));
        if statement.starts_with("panel_answer ") {
            calls.push((words(&statement).nth(1).expect("a name").to_string(), arguments(&statement)));
        }
    }
    calls
}

/// C parameters as the crate's table has them, without blanks: a pointer and its count are one slice.
fn as_rust(parameters: &[String]) -> String {
    let types: BTreeMap<_, _> =
        [("float", "f32"), ("int32_t", "i32"), ("uint32_t", "u32"), ("uint8_t", "u8"), ("size_t", "usize")].into();
    let mut rust = Vec::new();
    let mut rest = parameters.iter();
    while let Some(parameter) = rest.next() {
        let read_only = parameter.starts_with("const ");
        let mut parts = words(parameter).skip(read_only as usize);
        let (c, name) = (parts.next().expect("a type"), parts.next().expect("a name"));
        let number = types[c];
        if parameter.contains('*') {
            assert_eq!(rest.next(), Some(&format!("size_t {}_len", name)), "the count of {}", name);
            rust.push(format!("{}:&{}[{}]", name, if read_only { "" } else { "mut" }, number));
        } else {
            rust.push(format!("{}:{}", name, number));
        }
    }
    rust.join(",")
}

#[test]
fn every_call_of_the_header_is_here() {
    let header = text("include/panel.h");
    let declared: BTreeMap<_, _> = declared(&header).into_iter().map(|(name, c)| (name, as_rust(&c))).collect();
    let here: BTreeMap<_, _> =
        panel::CALLS.iter().map(|(name, rust)| (name.to_string(), rust.split_whitespace().collect::<String>())).collect();
    assert_eq!(here, declared);
    assert_eq!(here.len(), panel::CALLS.len(), "a call stands twice");
    // Nothing of the header was passed over: every name of a call in it is among those read.
    let code = plain(&header);
    let named = words(&code).filter(|word| word.starts_with("panel_") && *word != "panel_answer");
    for name in named {
        assert!(declared.contains_key(name), "{} is in the header and was not read", name);
    }
    println!("{} calls", here.len());
}

#[test]
fn every_call_is_tried() {
    let mut tried: Vec<_> = common::TABLE.iter().map(|entry| format!("panel_{}", entry.name)).collect();
    let mut here: Vec<_> = panel::CALLS.iter().map(|(name, _)| name.to_string()).collect();
    tried.sort();
    here.sort();
    assert_eq!(tried, here);
}

#[test]
fn the_memory_of_a_history_is_that_of_the_header() {
    let header = text("include/panel.h");
    let value = |name: &str| -> usize {
        let line = header.lines().find(|line| words(line).nth(1) == Some(name)).expect(name);
        words(line).nth(2).expect("a number").parse().expect("a number")
    };
    assert_eq!(panel::HISTORY_STEPS, value("PANEL_HISTORY_STEPS"));
    assert_eq!(panel::HISTORY_LEVELS, value("PANEL_HISTORY_LEVELS"));
    assert!(header.contains("PANEL_HISTORY_INDEX(width, rows) ((((width) + 3) / 4) * (((rows) + 3) / 4))"));
    for (width, rows) in [(4, 4), (5, 4), (7, 9), (8, 8), (1_919, 1_081), (65_536, 65_536)] {
        assert_eq!(panel::history_index(width, rows), ((width + 3) / 4) * ((rows + 3) / 4));
    }
    assert_eq!(panel::history_index(usize::MAX, usize::MAX), usize::MAX);
}

type Words = fn(u32) -> &'static str;

/// The sentences of a function of panel_words.h, and that of its default.
fn sentences(header: &str, function: &str) -> (BTreeMap<u32, String>, String) {
    let from = header.find(function).expect("the function");
    let body = &header[from..from + header[from..].find("\n}").expect("its end")];
    let (mut cases, mut default) = (BTreeMap::new(), None);
    for line in body.lines().filter(|line| line.contains("return")) {
        let sentence = &line[line.find('"').expect("a quote") + 1..line.rfind('"').expect("its end")];
        match words(line).nth(1).expect("a number").parse() {
            Ok(number) => assert!(cases.insert(number, sentence.to_string()).is_none(), "{} stands twice", number),
            Err(_) => assert!(default.replace(sentence.to_string()).is_none(), "two defaults"),
        }
    }
    (cases, default.expect("a default"))
}

#[test]
fn every_sentence_is_that_of_the_header() {
    let header = text("include/panel_words.h");
    let refusals: Words = panel::refusal_words;
    let slices: Words = panel::slice_words;
    for (function, here, least) in [("panel_refusal_words(", refusals, 16), ("panel_slice_words(", slices, 6)] {
        let (cases, default) = sentences(&header, function);
        assert!(cases.len() >= least, "{} sentences of {} were read", cases.len(), function);
        for number in (0..100).chain([u32::MAX]) {
            assert_eq!(here(number), cases.get(&number).unwrap_or(&default), "{} {}", function, number);
        }
    }
}

#[test]
fn a_refusal_says_its_sentences() {
    let refusal = panel::Refusal { number: 8, slice: 2, place: 19 };
    assert_eq!(
        refusal.to_string(),
        "A sample of the prediction or of the picture is out of range. It is the buffer of the prediction or of the picture. Place 19."
    );
}

/// The lines `pub const NAME: usize = N;` of a text.
fn constants(text: &str) -> Vec<(String, usize)> {
    let lines = text.lines().map(str::trim).filter(|line| line.starts_with("pub const ") && line.contains(": usize = "));
    lines.map(|line| (words(line).nth(2).unwrap().to_string(), words(line).nth(4).unwrap().parse().unwrap())).collect()
}

#[test]
fn the_sizes_are_those_of_the_port() {
    let here = constants(&text("bindings/rust/src/kinds.rs"));
    assert_eq!(here.len(), 25);
    assert_eq!(here, constants(&text("crates/tables/src/tx_size.rt")));
}

/// Where the compiler has `core::error::Error`, which build.rs finds out.
#[cfg(panel_core_error)]
#[test]
fn a_refusal_is_an_error() {
    let error: Box<dyn std::error::Error> = Box::new(panel::Refusal { number: 1, slice: 0, place: 0 });
    assert!(error.to_string().starts_with("The bit depth"));
}
