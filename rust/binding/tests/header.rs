//! include/yolluvek.h beside the exports: the same functions with the same parameters in the same order, `const` exactly
//! where an export lends shared, and the same fields. The Rust declarations of begin and the steps write the same lists.
//! What a static library exports has the words of the function that it hands on to.

use std::collections::BTreeMap;
use std::fs;
use std::path::Path;

const EXPORTS: [&str; 6] = [
    "graph_export",
    "stg_export",
    "engine_export",
    "preview_export",
    "windows_export",
    "weak_export",
];

/// Begin and the steps, by the engine and by the preview.
const RUN_CALLS: [&str; 5] = ["begin", "fetch", "start", "complete", "release"];
const CALLERS: [&str; 2] = ["yolluvek_", "yolluvek_preview_"];

/// The same of weak jobs.
const WEAK: &str = "yolluvek_weak_";

fn stored(file: &str) -> String {
    let path = Path::new(env!("CARGO_MANIFEST_DIR")).join("../..").join(file);
    fs::read_to_string(&path).unwrap_or_else(|error| panic!("{}: {error}", path.display()))
}

fn source(name: &str) -> String {
    stored(&format!("crates/{name}/src/lib.rt"))
}

const EXPORTED: &str = "#[unsafe(no_mangle)]\n";

/// The exports of a static library, each from its first line to its last.
fn exports(source: &str) -> impl Iterator<Item = &str> {
    source.split(EXPORTED).skip(1)
}

/// The header without its comments.
fn header() -> String {
    let stored = stored("include/yolluvek.h");
    let mut pieces = stored.split("/*");
    let first = pieces.next().unwrap_or_default();
    let rest = pieces
        .filter_map(|piece| piece.split_once("*/"))
        .map(|(_, after)| after);
    std::iter::once(first).chain(rest).collect()
}

/// What stands between the two marks that come next.
fn between<'a>(text: &'a str, opening: &str, closing: &str) -> &'a str {
    let (_, rest) = text.split_once(opening).expect("the opening mark");
    rest.split_once(closing).expect("the closing mark").0
}

fn trimmed(list: &str) -> impl Iterator<Item = &str> {
    list.split(',').map(str::trim).filter(|item| !item.is_empty())
}

/// A parameter: C's type without `const`, the name, and whether words behind it may be written.
#[derive(Clone, Debug, PartialEq, Eq)]
struct Parameter {
    of: String,
    name: String,
    written: bool,
}

fn parameter(of: impl Into<String>, name: impl Into<String>, written: bool) -> Parameter {
    Parameter {
        of: of.into(),
        name: name.into(),
        written,
    }
}

/// A function's parameters, and what it answers.
type Functions = BTreeMap<String, (Vec<Parameter>, String)>;

/// A type of the exports as C has it.
fn in_c(of: &str) -> &'static str {
    match of {
        "u8" => "uint8_t",
        "u32" | "TaskId" | "WorkerId" => "uint32_t",
        "i32" => "int32_t",
        "usize" => "size_t",
        // a row is lent as its cell, the same memory
        "Row" | "RowCell" => "yolluvek_row",
        // so are a weak job's row and a copy
        "WeakRow" | "WeakRowCell" => "yolluvek_weak_row",
        "TaskCopy" | "CopyCell" => "yolluvek_copy",
        "WeakReply" => "yolluvek_weak_step_reply",
        "Reply" => "yolluvek_reply",
        "StepReply" => "yolluvek_step_reply",
        "ReadReply" => "yolluvek_read_reply",
        "WriteReply" => "yolluvek_write_reply",
        "Part" => "yolluvek_part",
        _ => panic!("the header has no type for {of}"),
    }
}

/// A parameter of an export; a list is a pointer and a length.
fn exported_parameter(item: &str) -> Vec<Parameter> {
    let (name, of) = item.split_once(": ").expect("a name and a type");
    let list = |elements: &str, written| {
        let of = in_c(elements.strip_suffix(']').expect("a list"));
        let pointer = parameter(format!("{of} *"), name, written);
        vec![pointer, parameter("size_t", format!("{name}_len"), false)]
    };
    match (of.strip_prefix("&mut ["), of.strip_prefix("&[")) {
        (Some(elements), _) => list(elements, true),
        (_, Some(elements)) => list(elements, false),
        _ => vec![parameter(in_c(of), name, false)],
    }
}

fn exported() -> Functions {
    let mut functions = Functions::new();
    for name in EXPORTS {
        for item in exports(&source(&format!("{name}_c"))) {
            let name = between(item, "pub extern \"C\" fn ", "(");
            let parameters = trimmed(between(item, "(", ")")).flat_map(exported_parameter);
            let answer = in_c(between(item, ") -> ", "\n").trim());
            functions.insert(String::from(name), (parameters.collect(), String::from(answer)));
        }
    }
    functions
}

fn declared_parameter(item: &str) -> Parameter {
    let (constant, rest) = match item.strip_prefix("const ") {
        Some(rest) => (true, rest),
        None => (false, item),
    };
    let start = rest.rfind([' ', '*']).expect("a type and a name") + 1;
    let (of, name) = rest.split_at(start);
    parameter(of.trim(), name, of.ends_with('*') && !constant)
}

fn declared() -> Functions {
    let header = header();
    let lines = header.lines().filter(|line| !line.starts_with('#'));
    let header: Vec<&str> = lines.collect();
    let header = header.join("\n");
    let mut functions = Functions::new();
    for item in header.split(';').filter(|item| item.trim_end().ends_with(')')) {
        let Some((before, parameters)) = item.split_once('(') else {
            continue;
        };
        let line = before.lines().last().unwrap_or_default();
        if let Some((answer, name)) = line.split_once(' ') {
            let parameters = trimmed(parameters.trim_end().trim_end_matches(')')).map(declared_parameter);
            functions.insert(String::from(name), (parameters.collect(), String::from(answer)));
        }
    }
    functions
}

/// Every export is declared, and nothing else; a list is `const` exactly if the export lends it shared.
#[test]
fn the_functions_are_the_exports() {
    let (exported, declared) = (exported(), declared());
    assert_eq!(exported.len(), 22);
    let names = |functions: &Functions| functions.keys().cloned().collect::<Vec<_>>();
    assert_eq!(names(&declared), names(&exported));
    for (name, function) in &exported {
        assert_eq!(&declared[name], function, "{name}");
    }
}

/// Parameters, answer and clauses are word for word those of the library's function of the same name.
#[test]
fn the_exports_are_the_library_s() {
    for name in EXPORTS.into_iter().chain(["ref_export"]) {
        let (library, linked) = (source(name), source(&format!("{name}_c")));
        let heads = |source: &str| {
            let heads = exports(source).map(|item| String::from(between(item, "", "\n{\n")));
            heads.collect::<Vec<_>>()
        };
        assert_eq!(heads(&linked), heads(&library), "{name}");
    }
}

/// The preview's calls have the engine's parameters, `const` where theirs are, and the engine's replies.
#[test]
fn the_preview_is_declared_as_the_engine() {
    let declared = declared();
    for call in RUN_CALLS {
        let [engine, preview] = CALLERS.map(|caller| &declared[&format!("{caller}{call}")]);
        assert_eq!(preview, engine, "{call}");
    }
}

/// The lists that a weak call writes, begin first.
const WEAK_WRITES: [&[&str]; 5] = [
    &[
        "succ_starts",
        "succs",
        "degrees",
        "fixed",
        "rings",
        "ends",
        "counters",
        "buffers",
        "executed",
        "run",
        "rows",
    ],
    &["ends", "run", "rows"],
    &["run", "rows"],
    &["degrees", "counters", "buffers", "executed", "run", "rows"],
    &["fixed", "rings", "ends", "counters", "run", "rows"],
];

/// A weak call has the plain one's parameters, with the fixed workers behind the degrees, and rings and rows of copies.
#[test]
fn the_weak_calls_are_declared_as_the_plain_ones() {
    let declared = declared();
    for (call, writes) in RUN_CALLS.into_iter().zip(WEAK_WRITES) {
        let (plain, answer) = &declared[&format!("yolluvek_{call}")];
        let mut expected = Vec::new();
        for one in plain {
            let of = match one.name.as_str() {
                "rings" => "yolluvek_copy *",
                "rows" => "yolluvek_weak_row *",
                _ => &one.of,
            };
            expected.push(parameter(of, &one.name, writes.contains(&one.name.as_str())));
            if one.name == "degrees_len" {
                expected.push(parameter("uint32_t *", "fixed", writes.contains(&"fixed")));
                expected.push(parameter("size_t", "fixed_len", false));
            }
        }
        let answer = answer.replace("step", "weak_step");
        assert_eq!(declared[&format!("{WEAK}{call}")], (expected, answer), "{call}");
    }
}

/// The Rust declarations of begin and the steps name which lists each writes, but for the five that all treat alike. The
/// header's are those of the exports.
#[test]
fn the_rust_declarations_write_what_the_exports_do() {
    let declared = declared();
    let [engine, preview] = CALLERS;
    let files: [(&str, &[&str]); 3] = [
        ("rust/binding/src/ffi.rs", &[engine, preview, WEAK]),
        ("rust/src/proved_engine.rs", &CALLERS),
        ("rust/src/proved_weak.rs", &[WEAK]),
    ];
    for (file, callers) in files {
        let stored = stored(file);
        let names = callers
            .iter()
            .flat_map(|caller| RUN_CALLS.map(|call| format!("{caller}{call}")));
        for name in names {
            let named = trimmed(between(&stored, &format!("{name}(\n"), ")"));
            let named: BTreeMap<&str, &str> = named.filter_map(|item| item.split_once(": ")).collect();
            let lists = declared[&name].0.iter().filter(|one| one.of.ends_with('*'));
            for Parameter {
                name: list, written, ..
            } in lists
            {
                let how = match list.as_str() {
                    "weights" | "pred_starts" | "preds" => "const",
                    "run" | "rows" => "mut",
                    list => named[list],
                };
                assert_eq!(how, if *written { "mut" } else { "const" }, "{file}: {list} of {name}");
            }
        }
    }
}

/// C's types and the names of the fields of a struct of the crate with C's layout, in order.
fn fields(source: &str, name: &str) -> Vec<(String, String)> {
    let opening = format!("pub struct {name} {{");
    let (before, _) = source.split_once(&opening).expect("the struct");
    let mut attributes = before.lines().rev().take_while(|line| line.starts_with("#["));
    assert!(attributes.any(|line| line == "#[repr(C)]"), "{name} has C's layout");
    let body = between(source, &opening, "}");
    let fields = trimmed(body).map(|field| field.strip_prefix("pub ").expect("a public field"));
    fields
        .map(|field| field.split_once(": ").expect("a name and a type"))
        .map(|(name, of)| (String::from(in_c(of)), String::from(name)))
        .collect()
}

/// The types and names of the fields of a type of the header, in order.
fn declared_fields(name: &str) -> Vec<(String, String)> {
    let header = header();
    let (before, _) = header.split_once(&format!("}} {name};")).expect("the type's end");
    let (_, body) = before.rsplit_once("typedef struct {").expect("the type's beginning");
    let fields = body.split(';').map(str::trim).filter(|field| !field.is_empty());
    fields
        .map(|field| field.split_once(' ').expect("a type and a name"))
        .map(|(of, name)| (String::from(of), String::from(name)))
        .collect()
}

#[test]
fn the_fields_are_the_exports() {
    for (name, of) in [
        ("Row", "task"),
        ("Reply", "replies"),
        ("StepReply", "replies"),
        ("ReadReply", "stg_export"),
        ("WriteReply", "stg_export"),
        ("Part", "graph_export"),
        ("TaskCopy", "weak_task"),
        ("WeakRow", "weak_task"),
        ("WeakReply", "weak_replies"),
    ] {
        assert_eq!(declared_fields(in_c(name)), fields(&source(of), name), "{name} of {of}");
    }
}

/// The macro's value.
fn defined(name: &str) -> usize {
    let header = header();
    let line = between(&header, &format!("#define {name} "), "\n");
    line.trim().parse().expect("a number")
}

#[test]
fn the_limits_are_the_binding_s() {
    use yolluvek::limits;
    assert_eq!(defined("YOLLUVEK_MAX_TASKS"), limits::MAX_TASKS);
    assert_eq!(defined("YOLLUVEK_MAX_EDGES"), limits::MAX_EDGES);
    assert_eq!(defined("YOLLUVEK_MAX_WEIGHT"), limits::MAX_WEIGHT as usize);
    assert_eq!(defined("YOLLUVEK_MAX_WORKERS"), limits::MAX_WORKERS);
    assert_eq!(defined("YOLLUVEK_MIN_SLOTS"), limits::MIN_SLOTS);
    assert_eq!(defined("YOLLUVEK_MAX_SLOTS"), limits::MAX_SLOTS);
    assert_eq!(defined("YOLLUVEK_PREVIEW_MAX_TASKS"), limits::PREVIEW_MAX_TASKS);
    assert_eq!(defined("YOLLUVEK_PREVIEW_MAX_EDGES"), limits::PREVIEW_MAX_EDGES);
    assert_eq!(defined("YOLLUVEK_PREVIEW_MAX_WORKERS"), limits::PREVIEW_MAX_WORKERS);
    assert_eq!(defined("YOLLUVEK_PREVIEW_MAX_SLOTS"), limits::PREVIEW_MAX_SLOTS);
    assert_eq!(defined("YOLLUVEK_MAX_TEXT"), limits::MAX_TEXT);
    assert_eq!(defined("YOLLUVEK_MAX_WRITTEN"), limits::MAX_WRITTEN);
    let most_results = limits::MAX_TASKS * (limits::MAX_WORKERS + 1);
    assert_eq!(defined("YOLLUVEK_MAX_RESULTS"), most_results);
}
