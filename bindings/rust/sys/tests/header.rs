//! Compares the crate with the header that the C library has: each constant, each struct with its fields, and each function.
use cadwrelch_sys as sys;
use std::collections::BTreeMap;
use std::fs;
use std::path::{Path, PathBuf};

/// In a package the core is in the crate's folder; in the repository all languages share it.
fn header() -> String {
    let here = Path::new(env!("CARGO_MANIFEST_DIR"));
    let paths = ["core", "../../core"].map(|core| here.join(core).join("include/cadwrelch.h"));
    let path: PathBuf = paths
        .into_iter()
        .find(|path| path.is_file())
        .expect("the header is there");
    without(&fs::read_to_string(path).unwrap(), "/*", "*/")
}

fn source(name: &str) -> String {
    let path = Path::new(env!("CARGO_MANIFEST_DIR")).join("src").join(name);
    without(&fs::read_to_string(path).unwrap(), "//", "\n")
}

/// The text without what is between these two.
fn without(text: &str, begin: &str, end: &str) -> String {
    let mut kept = String::new();
    let mut rest = text;
    while let Some((before, after)) = rest.split_once(begin) {
        kept.push_str(before);
        kept.push(' ');
        rest = after.split_once(end).expect("a comment ends").1;
    }
    kept + rest
}

/// What follows each of these words, up to an end.
fn all<'t>(text: &'t str, begin: &str, end: &str) -> Vec<&'t str> {
    let parts = text.split(begin).skip(1);
    parts
        .map(|part| part.split_once(end).expect("it ends").0)
        .collect()
}

fn words(text: &str) -> String {
    text.split_whitespace().collect::<Vec<_>>().join(" ")
}

#[test]
fn constants() {
    let header = header();
    let mut expected = BTreeMap::new();
    for body in all(&header, "enum ", "}") {
        for constant in body
            .split_once('{')
            .expect("an enum has a body")
            .1
            .split(',')
        {
            let (name, number) = constant.split_once('=').expect("each has a number");
            let name = name.trim().strip_prefix("JC_").expect("each has a prefix");
            assert_eq!(expected.insert(name.to_string(), words(number)), None);
        }
    }
    let source = source("constants.rs");
    let found: BTreeMap<_, _> = all(&source, "pub const ", ";")
        .into_iter()
        .map(|constant| {
            let (name, kind_and_number) = constant.split_once(':').unwrap();
            let (_kind, number) = kind_and_number.split_once('=').unwrap();
            (name.to_string(), words(number))
        })
        .collect();
    assert!(expected.len() > 70, "{expected:?}");
    assert_eq!(found, expected);
}

/// The crate's name for a type of the header.
fn kind_of(c: &str) -> String {
    let plain = |name: &str| {
        match name {
            "uint8_t" => "u8",
            "uint32_t" => "u32",
            "uint64_t" => "u64",
            "size_t" => "usize",
            "bool" => "bool",
            "void" => "c_void",
            "jc_desk" => "Handle",
            "jc_shape" => "Shape",
            "jc_value" => "Value",
            "jc_key" => "Key",
            "jc_entry" => "Entry",
            "jc_out" => "Out",
            "jc_processed" => "Processed",
            "jc_flat_event" => "FlatEvent",
            "jc_statistics" => "Statistics",
            _ => panic!("an unknown type: {name}"),
        }
        .to_string()
    };
    match c.trim().strip_suffix('*') {
        None => plain(c.trim()),
        Some(to) => match to.trim().strip_prefix("const ") {
            Some(to) => format!("*const {}", plain(to.trim())),
            None => format!("*mut {}", plain(to.trim())),
        },
    }
}

/// A declaration of C as (name, type).
fn declared(text: &str) -> (String, String) {
    let text = words(text);
    let at = text.rfind([' ', '*']).expect("a type and a name") + 1;
    let (kind, name) = text.split_at(at);
    match name.split_once("[JC_") {
        None => (name.to_string(), kind_of(kind)),
        Some((name, length)) => {
            let length = length.strip_suffix(']').unwrap();
            (name.to_string(), format!("[{}; {length}]", kind_of(kind)))
        }
    }
}

type Fields = Vec<(String, String)>;

fn header_structs() -> BTreeMap<String, Fields> {
    let mut found = BTreeMap::new();
    for text in header().split("typedef struct ").skip(1) {
        let (name, rest) = text.split_once('{').unwrap();
        let (body, _) = rest.split_once('}').unwrap();
        let mut fields = Fields::new();
        for line in body.split(';').filter(|line| !line.trim().is_empty()) {
            // Several names may share a type.
            let mut names = line.split(',');
            let (first, kind) = declared(names.next().unwrap());
            fields.push((first, kind.clone()));
            fields.extend(names.map(|name| (name.trim().to_string(), kind.clone())));
        }
        found.insert(kind_of(name), fields);
    }
    found
}

/// Size and alignment of a type, by the rules of C on a target of 64 bits.
fn layout(kind: &str, structs: &BTreeMap<String, Fields>) -> (usize, usize) {
    if let Some(fields) = structs.get(kind) {
        return places(fields, structs).1;
    }
    if let Some(array) = kind.strip_prefix('[') {
        let (of, length) = array.strip_suffix(']').unwrap().split_once("; ").unwrap();
        let length = match length {
            "KEY_MAX" => sys::KEY_MAX,
            "VALUE_MAX" => sys::VALUE_MAX,
            _ => panic!("an unknown length: {length}"),
        };
        let (size, align) = layout(of, structs);
        return (size * length, align);
    }
    match kind {
        "u8" | "bool" => (1, 1),
        "u32" => (4, 4),
        "u64" | "usize" => (8, 8),
        _ if kind.starts_with('*') => (8, 8),
        _ => panic!("an unknown type: {kind}"),
    }
}

/// The fields with their places, and size and alignment of all.
fn places(
    fields: &Fields,
    structs: &BTreeMap<String, Fields>,
) -> (Vec<(String, usize)>, (usize, usize)) {
    let (mut end, mut most) = (0_usize, 1);
    let mut found = Vec::new();
    for (name, kind) in fields {
        let (size, align) = layout(kind, structs);
        let place = end.next_multiple_of(align);
        found.push((name.clone(), place));
        end = place + size;
        most = most.max(align);
    }
    (found, (end.next_multiple_of(most), most))
}

macro_rules! of_the_crate {
    ($($kind:ident { $($field:ident)* })*) => {
        BTreeMap::from([$((
            stringify!($kind).to_string(),
            (
                vec![$((stringify!($field).to_string(), std::mem::offset_of!(sys::$kind, $field))),*],
                (size_of::<sys::$kind>(), align_of::<sys::$kind>()),
            ),
        )),*])
    };
}

#[test]
fn places_of_fields() {
    let structs = header_structs();
    let expected: BTreeMap<_, _> = structs
        .iter()
        .map(|(name, fields)| (name.clone(), places(fields, &structs)))
        .collect();
    let found = of_the_crate! {
        Handle { at is_open }
        Shape { stripes capacity history read_through write_through keeps_events out_size }
        Value { len bytes }
        Key { len bytes }
        Entry { key value }
        Out { next reply code place shared moves number call value left victim evicted }
        Processed {
            load load_code effect code write write_code has_outcome loaded set outcome
        }
        FlatEvent {
            kind session call op is_shared shared_with reply reply_code cause key value other replied outside
        }
        Statistics { hits misses puts removals evictions }
    };
    assert_eq!(found, expected);
    assert_eq!(size_of::<sys::Out>(), sys::OUT_SIZE as usize);
}

#[test]
fn types_of_fields() {
    let source = source("structs.rs");
    let found: BTreeMap<String, Fields> = all(&source, "pub struct ", "}")
        .into_iter()
        .map(|text| {
            let (name, body) = text.split_once('{').unwrap();
            let fields = all(body, "pub ", ",\n").into_iter().map(|field| {
                let (name, kind) = field.split_once(':').unwrap();
                (name.to_string(), words(kind))
            });
            (name.trim().to_string(), fields.collect())
        })
        .collect();
    assert_eq!(found, header_structs());
}

#[test]
fn functions() {
    let header = header();
    let mut expected = BTreeMap::new();
    for line in header.split(";\n").flat_map(|text| text.split("\n\n")) {
        let Some((head, parameters)) = line.rsplit_once('(').filter(|it| it.0.contains(" jc_"))
        else {
            continue;
        };
        let (result, name) = words(head)
            .rsplit_once(' ')
            .map(|(r, n)| (r.to_string(), n.to_string()))
            .unwrap();
        let parameters = parameters.trim_end_matches(')').split(',');
        let parameters: Fields = parameters
            .filter(|it| *it != "void")
            .map(declared)
            .collect();
        expected.insert(name, (parameters, kind_of(&result)));
    }
    let source = source("functions.rs");
    let found: BTreeMap<_, _> = all(&source, "pub fn ", ";")
        .into_iter()
        .map(|text| {
            let (name, rest) = text.split_once('(').unwrap();
            let (parameters, result) = rest.rsplit_once(')').unwrap();
            let parameters: Fields = parameters
                .split(',')
                .filter(|it| !it.trim().is_empty())
                .map(|it| it.split_once(':').unwrap())
                .map(|(name, kind)| (name.trim().to_string(), words(kind)))
                .collect();
            let result = result.trim().strip_prefix("->").unwrap();
            (name.to_string(), (parameters, words(result)))
        })
        .collect();
    assert_eq!(found.len(), 20, "{found:?}");
    assert_eq!(found, expected);
}

#[test]
fn version() {
    // SAFETY: it has no requirement.
    assert_eq!(unsafe { sys::jc_version() } / 1000, sys::VERSION / 1000);
    let parts: Vec<u32> = env!("CARGO_PKG_VERSION")
        .split('.')
        .map(|part| part.parse().unwrap())
        .collect();
    assert_eq!(
        sys::VERSION,
        parts[0] * 1_000_000 + parts[1] * 1000 + parts[2]
    );
}
