//! Compares the declarations with the header, by a C compiler: `cc`, or what CC names.
use mls_sys::*;
use std::collections::{BTreeMap, BTreeSet};
use std::mem::{size_of, MaybeUninit};
use std::path::PathBuf;
use std::process::Command;
use std::{env, fs};

const DECLARED: &str = include_str!("../src/lib.rs");
const HEADER: &str = include_str!("../../../include/mls.h");

/// The size of what a pointer points to.
fn size_at<T>(_: *const T) -> usize {
    size_of::<T>()
}

/// A type with its members, in order, and rows: its size, and the place and the size of each, by C's words for them.
struct Layout {
    name: &'static str,
    members: Vec<String>,
    rows: Vec<(String, i64)>,
}

macro_rules! layout {
    ($type:ident: $($member:ident)+) => {{
        let room = MaybeUninit::<$type>::uninit();
        let base = room.as_ptr();
        let mut rows = vec![(format!("sizeof({})", stringify!($type)), size_of::<$type>() as i64)];
        $(
            let at = unsafe { std::ptr::addr_of!((*base).$member) };
            let name = stringify!($member);
            rows.push((format!("offsetof({}, {name})", stringify!($type)), at as i64 - base as i64));
            rows.push((format!("sizeof((({} *)0)->{name})", stringify!($type)), size_at(at) as i64));
        )+
        Layout { name: stringify!($type), members: vec![$(stringify!($member).to_string()),+], rows }
    }};
}

fn layouts() -> Vec<Layout> {
    vec![
        layout!(mls_monitor: held monitor),
        layout!(mls_office: held hall serial count),
        layout!(mls_session: held place office number),
        layout!(mls_label: level categories),
        layout!(mls_labels: security integrity),
        layout!(mls_request: action mode subject other object security integrity),
        layout!(mls_answer: number reply object),
        layout!(mls_journal_entry: number session reply object request),
        layout!(mls_fault: kind number place),
        layout!(mls_subject_info: maximum current integrity trusted),
        layout!(mls_object_info: security integrity parent),
        layout!(mls_pair_info: permitted held),
        layout!(mls_counts: entries subjects objects next),
        layout!(mls_term: kind of label),
        layout!(mls_condition: reason holds also basis mode subject object parent first second third),
        layout!(mls_remedy: there label),
    ]
}

/// The constants of src/lib.rs that are numbers.
fn numbers() -> Vec<(String, i64)> {
    let lines = DECLARED.lines().filter_map(|line| line.strip_prefix("pub const MLS_"));
    let values = lines.filter_map(|line| {
        let (name, rest) = line.split_once(':')?;
        let value = rest.split_once('=')?.1.trim().trim_end_matches(';');
        value.parse().ok().map(|value| (format!("MLS_{name}"), value))
    });
    values.collect()
}

/// The header without its comments.
fn header() -> String {
    let parts = HEADER.split("/*").enumerate();
    parts.map(|(n, part)| if n == 0 { part } else { part.split_once("*/").unwrap().1 }).collect()
}

/// The names of the project in a text.
fn names(text: &str) -> BTreeSet<&str> {
    let words = text.split(|it: char| !it.is_ascii_alphanumeric() && it != '_');
    words.filter(|word| word.starts_with("mls_") || word.starts_with("MLS_")).collect()
}

/// The members of the header's types, by their names.
fn members() -> BTreeMap<String, Vec<String>> {
    let text = header();
    let structs = text.split("typedef struct {").skip(1).map(|part| {
        let (body, rest) = part.split_once('}').unwrap();
        let declared = body.split(';').filter(|it| !it.trim().is_empty());
        let found = declared.flat_map(|it| it.trim().split_once(' ').unwrap().1.split(','));
        let found = found.map(|it| it.trim().trim_start_matches('*').split('[').next().unwrap().to_string());
        (rest.split_once(';').unwrap().0.trim().to_string(), found.collect())
    });
    structs.collect()
}

/// A type of Rust in C's words, with the name of what has it.
fn in_c(rust: &str, name: &str) -> String {
    let (pointer, rust) = match rust.split_once(' ') {
        Some(("*mut", rust)) => ("*", rust),
        Some(("*const", rust)) => return in_c(&format!("*mut {rust}"), name).replacen("", "const ", 1),
        _ => ("", rust),
    };
    let word = match rust {
        "u8" => "uint8_t",
        "u16" => "uint16_t",
        "u32" => "uint32_t",
        "u64" => "uint64_t",
        "usize" => "size_t",
        "c_int" => "int",
        "c_char" => "char",
        other => other,
    };
    format!("{word} {pointer}{name}")
}

/// The calls of src/lib.rs as prototypes in C.
fn prototypes() -> Vec<String> {
    let body = DECLARED.split_once("extern \"C\" {").unwrap().1.split_once("\n}").unwrap().0;
    let calls = body.split(';').filter_map(|it| it.trim().strip_prefix("pub fn "));
    let written = calls.map(|call| {
        let (name, rest) = call.split_once('(').unwrap();
        let (taken, result) = rest.split_once(')').unwrap();
        let taken = taken.split(',').filter_map(|it| it.trim().split_once(": "));
        let taken: Vec<_> = taken.map(|(name, rust)| in_c(rust, name)).collect();
        let taken = if taken.is_empty() { "void".to_string() } else { taken.join(", ") };
        let result = result.trim().strip_prefix("-> ").unwrap_or("void");
        in_c(result, &format!("{name}({taken});"))
    });
    written.collect()
}

/// What a program in C prints, which includes the header; nothing where there is no C compiler.
fn said_by_c(name: &str, top: &str, body: &str) -> Option<String> {
    let folder = PathBuf::from(env!("CARGO_TARGET_TMPDIR"));
    let (source, program) = (folder.join(format!("{name}.c")), folder.join(name));
    let text = format!("#include \"mls.h\"\n#include <stdio.h>\n{top}\nint main(void) {{\n{body}return 0;\n}}\n");
    fs::write(&source, text).unwrap();
    let include = concat!(env!("CARGO_MANIFEST_DIR"), "/../../include");
    let compiler = env::var("CC").unwrap_or_else(|_| "cc".to_string());
    let words = ["-std=c99", "-Wall", "-Wextra", "-Werror", "-I", include, "-o"];
    let done = match Command::new(&compiler).args(words).arg(&program).arg(&source).output() {
        Ok(done) => done,
        Err(error) => {
            println!("{name}: skipped: {compiler}: {error}");
            return None;
        }
    };
    assert!(done.status.success(), "{}", String::from_utf8_lossy(&done.stderr));
    let done = Command::new(&program).output().unwrap();
    Some(String::from_utf8(done.stdout).unwrap())
}

#[test]
fn no_name_is_missing() {
    let text = header();
    let inline = text.lines().filter_map(|line| line.strip_prefix("MLS_INLINE ")?.split_once('('));
    let inline: BTreeSet<_> = inline.map(|(front, _)| front.rsplit([' ', '*']).next().unwrap()).collect();
    assert!(inline.contains("mls_get") && inline.contains("mls_request_of"));
    let left_out =
        |name: &str| ["MLS_H", "MLS_INLINE"].contains(&name) || name.ends_with("_t") || inline.contains(name);
    let (wanted, found) = (names(&text), names(DECLARED));
    let missing: Vec<_> = wanted.iter().filter(|name| !left_out(name) && !found.contains(**name)).collect();
    assert!(missing.is_empty(), "{missing:?}");
}

#[test]
fn members_are_those_of_the_header() {
    let found = layouts().into_iter().map(|it| (it.name.to_string(), it.members));
    assert_eq!(found.collect::<BTreeMap<_, _>>(), members());
}

#[test]
fn numbers_and_layouts_are_those_of_the_header() {
    let rows: Vec<_> = numbers().into_iter().chain(layouts().into_iter().flat_map(|it| it.rows)).collect();
    assert!(rows.len() > 180, "only {} rows", rows.len());
    let body: String = rows.iter().map(|(name, _)| format!("printf(\"%lld\\n\", (long long)({name}));\n")).collect();
    let told = match said_by_c("numbers", "", &body) {
        Some(told) => told,
        None => return,
    };
    let wanted = told.lines().map(|line| line.parse::<i64>().unwrap());
    let wanted: Vec<_> = rows.iter().map(|row| row.0.clone()).zip(wanted).collect();
    assert_eq!(rows, wanted);
}

#[test]
fn calls_are_those_of_the_header() {
    let declared = prototypes();
    assert!(
        declared.contains(&"int mls_check(mls_monitor *m, uint16_t subject, uint16_t object, uint8_t mode);".into())
    );
    assert!(declared.contains(&"const char *mls_version(void);".into()), "{declared:?}");
    // (a declaration of another type than the header's is refused)
    said_by_c("calls", &declared.join("\n"), "");
}
