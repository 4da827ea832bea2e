//! The functions that src/back_end/native/functions.rs declares are those of include/tagshards.h, argument by argument, and
//! src/back_end/native.rs calls them with what their arguments' names say. On a machine that cannot link them nothing
//! else would see a difference.
use std::collections::BTreeMap;

const HEADER: &str = include_str!("../../include/tagshards.h");
const NATIVE: &str = include_str!("../src/back_end/native/functions.rs");
const CALLS: &str = include_str!("../src/back_end/native.rs");

/// The arguments of each function that is declared: name and type, in order.
type Functions = BTreeMap<String, Vec<(String, String)>>;

/// The functions whose declarations begin with `before` and the name, each argument read by `read`.
fn functions(text: &str, before: &str, read: fn(&str) -> (String, String)) -> Functions {
    let starts = text.match_indices(before).map(|(at, _)| at + before.len());
    let declaration = |at: usize| {
        let (name, rest) = text[at..].split_once('(')?;
        let arguments = rest.split_once(')')?.0.split(',');
        let arguments = arguments.map(str::trim).filter(|it| !it.is_empty());
        Some((name.to_string(), arguments.map(read).collect()))
    };
    starts.filter_map(declaration).collect()
}

/// `const uint64_t *keys`
fn of_c(argument: &str) -> (String, String) {
    let (kind, name) = argument.rsplit_once([' ', '*']).expect("type and name");
    let element = kind.trim_start_matches("const ").trim();
    let element = match element {
        "uint64_t" => "u64",
        "uint8_t" => "u8",
        "size_t" => "usize",
        other => other,
    };
    let pointer = match (argument.contains('*'), argument.contains("const ")) {
        (false, _) => "",
        (true, true) => "*const ",
        (true, false) => "*mut ",
    };
    (name.to_string(), format!("{pointer}{element}"))
}

/// `keys: *const u64`
fn of_rust(argument: &str) -> (String, String) {
    let (name, kind) = argument.split_once(": ").expect("name and type");
    (name.to_string(), kind.to_string())
}

#[test]
fn declarations_are_the_headers() {
    let c = functions(HEADER, "\nuint64_t tagshards_", of_c);
    let rust = functions(NATIVE, "    pub fn tagshards_", of_rust);
    assert_eq!(c.len(), 6);
    assert_eq!(c["retransmit"].len(), 8);
    assert_eq!(c["turn"].len(), 35);
    assert_eq!(rust, c);
}

/// An argument of a call under the name that it is declared with: `self.keys.as_ptr()` is `keys`, `self.keys.len()` is
/// `keys_count`.
fn name(argument: &str) -> String {
    let argument = match argument {
        "hosts.ats.len()" => "n_or_ats.len()",
        other => other,
    };
    let argument = argument.replace("hosts.lens", "address_lens");
    let path = argument.trim_end_matches("()");
    let (slice, method) = path.rsplit_once('.').unwrap_or((path, ""));
    let slice = slice.rsplit('.').next().unwrap_or_default();
    match method {
        "len" => format!("{slice}_count"),
        "as_ptr" | "as_mut_ptr" | "is_some" => slice.to_string(),
        _ => path.rsplit('.').next().unwrap_or_default().to_string(),
    }
}

#[test]
fn calls_have_the_arguments() {
    let functions = functions(HEADER, "\nuint64_t tagshards_", of_c);
    let mut seen = 0;
    for (function, arguments) in functions {
        let before = format!("            tagshards_{function}(\n");
        let (_, call) = CALLS.split_once(&before).expect("it is called");
        let (call, _) = call.split_once("\n            )").expect("the call ends");
        let given: Vec<&str> = call.split(',').map(str::trim).collect();
        let given: Vec<String> = (given.iter().filter(|it| !it.is_empty()))
            .map(|it| name(it))
            .collect();
        assert_eq!(given.len(), arguments.len(), "{function}");
        for (given, (want, _)) in given.iter().zip(&arguments) {
            // The length of the list is given twice: as that of a slice, and by itself.
            let is_n = given == "n_or_ats_count" && ["n", "ats_count"].contains(&want.as_str());
            assert!(
                given == want || is_n,
                "{function}: {given} is given for {want}"
            );
            seen += 1;
        }
    }
    assert_eq!(seen, 37 + 26 + 26 + 8 + 35 + 26);
}
