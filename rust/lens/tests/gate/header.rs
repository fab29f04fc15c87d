//! What this crate and include/lens.h both say, compared with the header's text. The header's numbers need no
//! comparison: build.rs takes them from there.
use crate::vectors::text_of;
use lens::{Job, Model, Refusal};
use std::collections::BTreeMap;

fn header() -> String {
    text_of("include/lens.h")
}

/// The whole numbers that the header defines.
fn defined() -> BTreeMap<String, u64> {
    let define = |line: &str| {
        let (name, rest) = line.strip_prefix("#define ")?.split_once(' ')?;
        Some((name.to_string(), rest.split_whitespace().next()?.parse().ok()?))
    };
    header().lines().filter_map(define).collect()
}

/// A name of the header's in Rust's way: NOT_FINITE is NotFinite.
fn in_camel_case(name: &str) -> String {
    let word = |word: &str| word[..1].to_string() + &word[1..].to_lowercase();
    name.split('_').map(word).collect()
}

#[test]
fn every_refusal_has_the_name_and_number_of_the_header() {
    let mut listed = 0;
    for (name, number) in defined() {
        if let Some(name) = name.strip_prefix("LENS_REFUSED_") {
            let refusal = Refusal::from_number(number as u8);
            assert_eq!(format!("{refusal:?}"), in_camel_case(name));
            assert_eq!(u64::from(refusal.number()), number);
            assert!(refusal.to_string().starts_with(&format!("refused {number}: ")));
            listed += 1;
        }
    }
    assert_eq!(listed, Refusal::ALL.len());
    for number in 0..=255 {
        assert_eq!(Refusal::from_number(number).number(), number);
    }
    assert!(Refusal::ALL.iter().all(|refusal| Refusal::from_number(refusal.number()) == *refusal));
}

#[test]
fn every_model_has_the_number_and_the_parameters_of_the_header() {
    let (text, numbers) = (header(), defined());
    let counts = numbers.keys().filter(|name| name.starts_with("LENS_") && name.ends_with("_COUNT"));
    let models = counts.filter(|name| numbers.contains_key(name.trim_end_matches("_COUNT"))).count();
    assert_eq!(models, Model::ALL.len());
    for model in Model::ALL {
        let name = format!("LENS_{}", model.name().to_uppercase());
        assert_eq!(numbers[&name], u64::from(model.number()));
        // the comment above the models: a name, and its parameters
        let mut lines = text.lines().map(|line| line.trim_matches([' ', '*', '/'].as_ref()).split_whitespace());
        let params = lines.find_map(|mut words| (words.next() == Some(&name)).then(|| words.collect::<Vec<_>>()));
        assert_eq!(params.as_deref(), Some(model.param_names()));
        assert_eq!(model.name().parse(), Ok(*model));
    }
    assert_eq!("fisheye".parse::<Model>(), Err(Refusal::UnknownModel));
}

#[test]
fn a_saved_job_has_the_bytes_of_the_header() {
    assert_eq!(Job::<i16>::BYTES as u64, defined()["LENS_JOB_BYTES"]);
}

/// A declaration of C in Rust's way.
fn in_rust(declaration: &str) -> String {
    let kind = |kind: &str| match kind {
        "uint8_t" => "u8",
        "uint32_t" => "u32",
        "uint64_t" => "u64",
        "int16_t" => "i16",
        "size_t" => "usize",
        "float" => "f32",
        "double" => "f64",
        other => panic!("{other} in {declaration}"),
    };
    let argument = |text: &str| {
        let (kind_of, name) = text.trim().rsplit_once(' ').unwrap();
        match (kind_of.strip_prefix("const "), name.strip_prefix('*')) {
            (Some(kind_of), Some(name)) => format!("{name}: *const {}", kind(kind_of)),
            (None, Some(name)) => format!("{name}: *mut {}", kind(kind_of)),
            (_, None) => format!("{name}: {}", kind(kind_of)),
        }
    };
    let (head, arguments) = declaration.trim_end_matches(");").split_once('(').unwrap();
    let (returned, name) = head.split_once(' ').unwrap();
    let arguments: Vec<String> = arguments.split(',').map(argument).collect();
    format!("fn {name}({}) -> {};", arguments.join(", "), kind(returned))
}

/// A text with one space where there are many, and none inside brackets.
fn in_one_line(text: &str) -> String {
    let words: Vec<&str> = text.split_whitespace().collect();
    words.join(" ").replace("( ", "(").replace(", )", ")")
}

#[test]
fn every_function_is_declared_as_in_the_header() {
    let text = header();
    let starts = ["uint8_t lens_", "double lens_"];
    let mut of_c: Vec<String> = Vec::new();
    let mut rest = text.as_str();
    while let Some(at) = starts.iter().filter_map(|start| rest.find(&format!("\n{start}"))).min() {
        let end = at + rest[at..].find(';').unwrap() + 1;
        of_c.push(in_rust(&in_one_line(&rest[at..end])));
        rest = &rest[end..];
    }
    assert_eq!(of_c.len(), 12);
    let sys = text_of("rust/lens/src/sys.rs");
    let block = sys.split_once("extern \"C\" {").unwrap().1.split_once("\n}").unwrap().0;
    let of_rust: Vec<String> = block.split_inclusive(';').map(in_one_line).filter(|line| !line.is_empty()).collect();
    assert_eq!(of_rust, of_c);
}
