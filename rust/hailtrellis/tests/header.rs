//! `include/hailtrellis.h` says what the wrapper says: the refusals by name, number and words, the limits, the reply's fields, and each
//! function's parameters in their order. The proved code's own list of refusals has the same names and words in the same order.

use hailtrellis::{Desk, Engine, Refusal, Stamp, Van, Vertex};
use std::collections::BTreeMap;
use std::path::Path;

/// A file of the repository.
fn file(name: &str) -> String {
    let path = Path::new(env!("CARGO_MANIFEST_DIR"))
        .join("../..")
        .join(name);
    std::fs::read_to_string(&path).unwrap_or_else(|error| panic!("{}: {error}", path.display()))
}

/// What stands between two pieces of a text, the first that comes.
fn between<'a>(text: &'a str, from: &str, to: &str) -> &'a str {
    let start = text.find(from).unwrap_or_else(|| panic!("no {from}")) + from.len();
    let end = text[start..].find(to).unwrap_or_else(|| panic!("no {to}"));
    &text[start..start + end]
}

/// The constants of the header's enums: name, number, and the words of the comment beside it.
fn constants(header: &str) -> BTreeMap<String, (u32, String)> {
    let lines = header.lines().map(str::trim);
    let constants = lines.filter_map(|line| {
        let (name, rest) = line.strip_prefix("HAILTRELLIS_")?.split_once(" = ")?;
        let digits: String = rest.chars().take_while(char::is_ascii_digit).collect();
        let words = match rest.contains("/*") {
            true => between(rest, "/*", "*/").trim().to_string(),
            false => String::new(),
        };
        Some((name.to_string(), (digits.parse().unwrap(), words)))
    });
    constants.collect()
}

/// A name in capitals, its words apart.
fn capitals(name: &str) -> String {
    let mut text = String::new();
    for (place, letter) in name.chars().enumerate() {
        if letter.is_uppercase() && place > 0 {
            text.push('_');
        }
        text.extend(letter.to_uppercase());
    }
    text
}

/// The functions that a text declares, each with its parameters as Rust writes them.
fn functions(text: &str, parameter: fn(&str) -> String) -> BTreeMap<String, Vec<String>> {
    let mut functions = BTreeMap::new();
    for declared in text.split("hailtrellis_").skip(1) {
        let name: String = declared
            .chars()
            .take_while(|&letter| letter.is_alphabetic() || letter == '_')
            .collect();
        if declared[name.len()..].starts_with('(') {
            let inside = between(declared, "(", ")").split(',').map(str::trim);
            let parameters = inside.filter(|one| !one.is_empty()).map(parameter);
            functions.insert(name, parameters.collect());
        }
    }
    functions
}

/// A parameter of the header, as Rust writes it.
fn from_c(parameter: &str) -> String {
    let (kind, name) = parameter
        .rsplit_once([' ', '*'])
        .expect("a type and a name");
    let pointer = parameter.contains('*');
    let kind = kind.trim_end_matches(['*', ' ']);
    let (constant, kind) = match kind.strip_prefix("const ") {
        Some(kind) => (true, kind),
        None => (false, kind),
    };
    let kind = match kind {
        "uint8_t" => "u8",
        "uint32_t" => "u32",
        "size_t" => "usize",
        other => panic!("no type of the interface: {other}"),
    };
    let pointer = match (pointer, constant) {
        (true, true) => "*const ",
        (true, false) => "*mut ",
        (false, _) => "",
    };
    format!("{name}: {pointer}{kind}")
}

#[test]
fn the_refusals_have_the_wrappers_names_and_numbers() {
    let header = file("include/hailtrellis.h");
    let mut constants = constants(&header);
    assert_eq!(constants.remove("ACCEPTED").unwrap().0, 0);
    for limit in ["VANS", "DESKS", "MOST_LISTED"] {
        constants.remove(limit).expect(limit);
    }
    let wrapper = file("rust/hailtrellis/src/refusal.rs");
    for refusal in Refusal::ALL {
        let name = format!("{refusal:?}");
        let (number, words) = constants.remove(&capitals(&name)).expect(&name);
        assert_eq!(number, refusal.number(), "{name}");
        let documented = format!(
            "/// {number}: {}.\n    {name} = {number},",
            words.replace('*', "×")
        );
        assert!(wrapper.contains(&documented), "{documented}");
    }
    assert!(constants.is_empty(), "the wrapper has no {constants:?}");
}

#[test]
fn the_refusals_have_the_cores_names_and_words_in_its_order() {
    let code = file("crates/answers/src/lib.rt");
    let cases = between(&code, "pub enum Refusal {", "\n}");
    let lines: Vec<&str> = cases.lines().map(str::trim).collect();
    let core: Vec<(String, String)> = lines
        .windows(2)
        .filter_map(|pair| Some((pair[0].strip_prefix("// ")?, pair[1].strip_suffix(',')?)))
        .map(|(words, name)| (capitals(name), words.replace('×', "*")))
        .collect();
    let mut refusals: Vec<(u32, String, String)> = constants(&file("include/hailtrellis.h"))
        .into_iter()
        .filter(|(_, (_, words))| !words.is_empty())
        .map(|(name, (number, words))| (number, name, words))
        .collect();
    refusals.sort();
    assert_eq!(refusals.len(), Refusal::ALL.len());
    let in_order: Vec<(String, String)> = refusals
        .into_iter()
        .map(|(_, name, words)| (name, words))
        .collect();
    assert_eq!(in_order, core);
}

#[test]
fn the_reply_has_the_cores_fields_in_its_order() {
    let fields = |name: &str, from: &str, before: &str, after: &str| -> Vec<String> {
        let text = file(name);
        let lines = between(&text, from, "\n}").lines().map(str::trim);
        let fields = lines.filter_map(|line| line.strip_prefix(before)?.split_once(after));
        fields.map(|(field, _)| field.to_string()).collect()
    };
    let core = fields(
        "crates/hailtrellis_c/src/lib.rt",
        "pub struct HailtrellisReply {",
        "pub ",
        ": u32,",
    );
    let wrapper = fields(
        "rust/hailtrellis/src/sys.rs",
        "pub struct Reply {",
        "pub ",
        ": u32,",
    );
    let header = fields(
        "include/hailtrellis.h",
        "typedef struct hailtrellis_reply {",
        "uint32_t ",
        ";",
    );
    assert_eq!(core, ["code", "value"]);
    assert_eq!(wrapper, core);
    assert_eq!(header, core);
}

#[test]
fn the_functions_have_the_wrappers_parameters_in_their_order() {
    let header = functions(&file("include/hailtrellis.h"), from_c);
    let wrapper = functions(&file("rust/hailtrellis/src/sys.rs"), str::to_string);
    let core = file("crates/hailtrellis_c/src/lib.rt");
    assert_eq!(header.len(), core.matches("pub extern \"C\" fn").count());
    assert_eq!(header, wrapper);
}

#[test]
fn the_limits_are_the_cores() {
    let constants = constants(&file("include/hailtrellis.h"));
    let limit = |name: &str| constants[name].0;
    let mut engine = Engine::open(&hailtrellis::small_map(), 0).unwrap();
    let out_of_range = Err(Refusal::OutOfRange);
    let mut add = |van| engine.add(Van(van), Vertex(0), Vertex(1), 0);
    assert_eq!(add(limit("VANS") - 1), Ok(Stamp(1)));
    assert_eq!(add(limit("VANS")), out_of_range);
    let mut claim = |desk| engine.claim(Van(limit("VANS") - 1), Stamp(1), Desk(desk));
    assert_eq!(claim(limit("DESKS") + 1), out_of_range);
    assert_eq!(claim(limit("DESKS")), Ok(Stamp(2)));
    assert_eq!(limit("MOST_LISTED"), hailtrellis::MOST_LISTED);
    assert!(engine.question(Vertex(0), limit("MOST_LISTED")).is_ok());
    let more = engine.question(Vertex(0), limit("MOST_LISTED") + 1);
    assert_eq!(more, Err(Refusal::OutOfRange));
}
