//! Holds what is written by hand on both sides of the boundary to the engine's own source: the header and this crate
//! against the struct, the constants and the exported functions of the Rattle crates, and against the linked archive.

use harukdalis::{linked, Answer, Dependence, Event, Op, Outcome, Record, Refusal, Scheme};
use std::collections::{BTreeMap, BTreeSet};
use std::mem::{offset_of, size_of, size_of_val};

const PREFIX: &str = "HARUKDALIS_";

/// A file of the repository, without comments.
fn source(path: &str) -> String {
    let path = format!("{}/../{path}", env!("CARGO_MANIFEST_DIR"));
    let text = std::fs::read_to_string(&path).unwrap_or_else(|error| panic!("{path}: {error}"));
    let mut rest = &text[..];
    let mut bare = String::new();
    while let Some(at) = rest.find('/') {
        let (before, comment) = rest.split_at(at);
        bare.push_str(before);
        rest = if comment.starts_with("//") {
            &comment[comment.find('\n').expect("a line's end")..]
        } else if comment.starts_with("/*") {
            &comment[comment.find("*/").expect("a comment's end") + 2..]
        } else {
            bare.push('/');
            &comment[1..]
        };
    }
    bare + rest
}

fn between<'a>(text: &'a str, start: &str, end: &str) -> &'a str {
    let (_, from) = text.split_once(start).unwrap_or_else(|| panic!("no `{start}`"));
    from.split_once(end).unwrap_or_else(|| panic!("no `{end}` after `{start}`")).0
}

fn number(text: &str) -> u64 {
    let digits = text.trim().trim_end_matches('u').replace('_', "");
    digits.parse().unwrap_or_else(|_| panic!("`{text}` is not a plain number"))
}

/// `pub const NAME: TYPE = VALUE;`, where the value is a number, or a constant before it as another type.
fn constants(source: &str) -> BTreeMap<String, u64> {
    let mut found: BTreeMap<String, u64> = BTreeMap::new();
    for line in source.lines().filter_map(|line| line.trim().strip_prefix("pub const ")) {
        let (name, rest) = line.split_once(':').expect("a constant's type");
        let (_, value) = rest.split_once('=').expect("a constant's value");
        let value = value.trim().trim_end_matches(';');
        let value = match value.split_once(" as ") {
            Some((other, _)) => found[other],
            None => number(value),
        };
        found.insert(name.trim().into(), value);
    }
    found
}

/// `#define HARUKDALIS_NAME VALUE`, by the name without its prefix.
fn defines() -> BTreeMap<String, u64> {
    let header = source("include/harukdalis.h");
    let lines = header.lines().filter_map(|line| line.strip_prefix("#define ")?.strip_prefix(PREFIX));
    let mut found = BTreeMap::new();
    for (name, value) in lines.filter_map(|line| line.split_once(' ')) {
        assert_eq!(found.insert(name.into(), number(value)), None, "{name} is defined twice");
    }
    found
}

/// This crate's constants that are limits, by name.
fn limits() -> BTreeMap<String, u64> {
    let all = [
        ("TOP", harukdalis::TOP as u64),
        ("MOST_CELLS", harukdalis::MOST_CELLS as u64),
        ("MOST_OPERATIONS", harukdalis::MOST_OPERATIONS as u64),
        ("MOST_FRAGMENTS", harukdalis::MOST_FRAGMENTS as u64),
        ("MOST_COORDINATOR", harukdalis::MOST_COORDINATOR as u64),
        ("DEPTH", harukdalis::DEPTH as u64),
        ("MOST_LIVE", harukdalis::MOST_LIVE as u64),
        ("MOST_ENTRIES", harukdalis::MOST_ENTRIES as u64),
        ("LEAST_ROOM", harukdalis::LEAST_ROOM as u64),
        ("ANSWER_WORDS", harukdalis::ANSWER_WORDS as u64),
        ("EVENT_WORDS", harukdalis::EVENT_WORDS as u64),
        ("RECORD_BYTES", harukdalis::RECORD_BYTES as u64),
    ];
    all.map(|(name, value)| (name.to_string(), value)).into()
}

/// What this crate's events and answers have where the header names a place, a code, a kind or a flag.
fn words_of_this_crate() -> BTreeMap<String, u64> {
    let mut found = BTreeMap::new();
    let mut put = |name: &str, value: usize| assert_eq!(found.insert(name.to_string(), value as u64), None);

    let codes = [
        ("READ", Op::read(0)),
        ("SET", Op::set(0, 1)),
        ("ADD", Op::add(0, 1)),
        ("TAKE", Op::take(0, 1)),
        ("NEED", Op::need(0, 1)),
        ("MATCH", Op::match_(0, 1)),
        ("RAISE", Op::raise(0, 1)),
        ("LOWER", Op::lower(0, 1)),
    ];
    for (name, op) in codes {
        put(name, op.code() as usize);
    }

    // A word that stands nowhere else in the event tells its place.
    let event = Event::fragment(91, true, true, 92, &[Op::raise(93, 94), Op::lower(95, 96)]).words();
    let place = |word: u32| {
        let at: Vec<_> = (0..event.len()).filter(|&at| event[at] == word).collect();
        assert_eq!(at.len(), 1, "{word} stands once in {event:?}");
        at[0]
    };
    let (single, multi) = (Event::single(91, &[Op::read(0); 4]).words(), Event::multi(91, 92, false, &[]).words());
    let places = |a: &[u32], b: &[u32]| (0..a.len()).filter(|&at| a[at] != b[at]).collect::<Vec<_>>();
    let kind = places(&Event::commit(91).words(), &Event::abort(91).words());
    put("EVENT_KIND", kind[0]);
    put("EVENT_NUMBER", place(91));
    put("EVENT_COORDINATOR", place(92));
    let no_flag = Event::fragment(91, false, false, 92, &[]).words();
    let flags = places(&multi, &no_flag);
    put("EVENT_FLAGS", flags[0]);
    put("EVENT_COUNT", places(&multi, &Event::multi(91, 92, false, &[Op::read(0)]).words())[0]);
    put("EVENT_OPERATIONS", place(7));
    put("OPERATION_CODE", place(7) - place(7));
    put("OPERATION_CELL", place(93) - place(7));
    put("OPERATION_AMOUNT", place(94) - place(7));
    put("OPERATION_WORDS", place(8) - place(7));
    put("FRAGMENT", event[kind[0]] as usize);
    put("COMMIT", Event::commit(91).words()[kind[0]] as usize);
    put("ABORT", Event::abort(91).words()[kind[0]] as usize);
    put("MULTI", multi[flags[0]] as usize);
    put("LAST", single[flags[0]] as usize);

    // An answer's places are where a word makes a difference.
    let with = |at: usize, word: u32| {
        let mut words = [0; harukdalis::ANSWER_WORDS];
        words[at] = word;
        Answer::from_words(words)
    };
    let all = || 0..harukdalis::ANSWER_WORDS;
    let only = |test: &dyn Fn(usize) -> bool| {
        let at: Vec<_> = all().filter(|&at| test(at)).collect();
        assert_eq!(at.len(), 1, "{at:?}");
        at[0]
    };
    put("ANSWER_TRANSACTION", only(&|at| with(at, 7).transaction() == 7));
    let named = |transaction, attempt| Some(Dependence { transaction, attempt });
    let dependence = only(&|at| with(at, 7).dependence() == named(7, 0));
    put("ANSWER_DEPENDENCE", dependence);
    put("ANSWER_ATTEMPT", only(&|at| with(at, 7).attempt() == 7));
    let of_dependence = |at: usize| {
        let mut words = with(dependence, 7).words();
        words[at] = 9;
        Answer::from_words(words).dependence() == named(7, 9)
    };
    put("ANSWER_DEPENDENCE_ATTEMPT", only(&of_dependence));
    // Without a dependence it has no attempt, whatever stands there.
    assert!(all().filter(|&at| at != dependence).all(|at| with(at, 7).dependence().is_none()));
    let place = only(&|at| with(at, 7).outcome() == Outcome::Failed { place: 7, found: 0 });
    put("ANSWER_PLACE", place);
    let count = only(&|at| with(at, 7).outcome() == Outcome::Numbers(&[0; 7]));
    put("ANSWER_COUNT", count);
    let first = |at: usize| {
        let mut words = with(count, 1).words();
        words[at] = 7;
        at != count && Answer::from_words(words).outcome() == Outcome::Numbers(&[7])
    };
    put("ANSWER_NUMBERS", only(&first));
    // What a failed one found stands where the first number does.
    let of_failed = |at: usize| {
        let mut words = with(place, 7).words();
        words[at] = 9;
        Answer::from_words(words).outcome() == Outcome::Failed { place: 7, found: 9 }
    };
    assert_eq!(only(&of_failed), only(&first));
    found
}

/// `UnsoundRecord` as the header has it, `UNSOUND_RECORD`.
fn in_capitals(name: &str) -> String {
    let mut capitals = String::new();
    for letter in name.chars() {
        if letter.is_uppercase() && !capitals.is_empty() {
            capitals.push('_');
        }
        capitals.extend(letter.to_uppercase());
    }
    capitals
}

fn refusals() -> BTreeMap<String, u64> {
    let named = Refusal::ALL.iter().map(|refusal| (in_capitals(&format!("{refusal:?}")), refusal.number() as u64));
    named.chain([("ACCEPTED".to_string(), 0)]).collect()
}

#[test]
fn the_limits_are_the_models() {
    let mut model = constants(&source("crates/model/src/lib.rt"));
    model
        .entry("RECORD_BYTES".into())
        .or_insert_with(|| 4 * rattle_fields().iter().map(|(_, words)| words).sum::<u64>());
    assert_eq!(limits(), model, "this crate and the model");
    let header = defines();
    for (name, value) in model {
        assert_eq!(header.get(&name), Some(&value), "{PREFIX}{name} of the header and the model");
    }
}

#[test]
fn the_header_has_this_crates_words_and_refusals_and_nothing_else() {
    let header = defines();
    let (limits, words, refusals) = (limits(), words_of_this_crate(), refusals());
    assert_eq!(refusals.len(), 15);
    let mut known = BTreeSet::new();
    for (name, value) in limits.iter().chain(&words).chain(&refusals) {
        assert!(known.insert(name.clone()), "{name} stands for two things");
        assert_eq!(header.get(name), Some(value), "{PREFIX}{name}");
    }
    assert_eq!(header.into_keys().collect::<BTreeSet<_>>(), known);
}

#[test]
fn the_schemes_are_the_models_with_a_function_each() {
    let model = source("crates/model/src/lib.rt");
    let cases = between(&model, "pub enum Scheme {", "}").split(',').map(str::trim).filter(|case| !case.is_empty());
    assert_eq!(Scheme::ALL.map(|scheme| format!("{scheme:?}")).to_vec(), cases.collect::<Vec<_>>());
    // A call by each, with the same parameters, so that a host changes over by the name alone.
    let functions = rattle_functions();
    assert_eq!(functions.keys().filter(|name| name.starts_with("harukdalis_call")).count(), Scheme::ALL.len());
    assert_eq!(functions["harukdalis_call"], functions["harukdalis_call_blocking"]);
}

/// The fields of a struct of the Rattle source, which must be laid out as in C: name and type.
fn fields_of(source: &str, name: &str) -> Vec<(String, String)> {
    let start = format!("pub struct {name} {{");
    let (before, _) = source.split_once(&start).unwrap_or_else(|| panic!("no {name}"));
    let attributes: Vec<_> =
        before.lines().rev().map(str::trim).take_while(|l| l.is_empty() || l.starts_with("#[")).collect();
    assert!(attributes.contains(&"#[repr(C)]"), "{name} is not #[repr(C)]");
    let fields = between(source, &start, "}").lines().map(str::trim).filter(|line| !line.is_empty());
    fields
        .map(|field| {
            let field = field.strip_prefix("pub ").expect("a public field").trim_end_matches(',');
            let (name, kind) = field.split_once(':').expect("a field's type");
            (name.trim().into(), kind.trim().into())
        })
        .collect()
}

/// The record's fields and their words in the Rattle source. Its counts are one struct there and four fields in C, where
/// the number of cells is called `count`.
fn rattle_fields() -> Vec<(String, u64)> {
    let source = source("crates/record/src/lib.rt");
    let lengths = constants(&source);
    let mut found = Vec::new();
    for (name, kind) in fields_of(&source, "Record") {
        if kind == "Counts" {
            for (name, kind) in fields_of(&source, "Counts") {
                assert_eq!(kind, "u32", "{name}");
                found.push((if name == "cells" { "count".into() } else { name }, 1));
            }
        } else {
            found.push((name, lengths[between(&kind, "[u32;", "]").trim()]));
        }
    }
    found
}

/// The same in the header.
fn header_fields() -> Vec<(String, u64)> {
    let header = source("include/harukdalis.h");
    let fields = between(&header, "typedef struct harukdalis_record {", "} harukdalis_record;").split(';');
    let fields = fields.map(str::trim).filter(|field| !field.is_empty());
    fields
        .map(|field| {
            let field = field.strip_prefix("uint32_t ").unwrap_or_else(|| panic!("`{field}` is no field of 32 bits"));
            match field.split_once('[') {
                Some((name, words)) => (name.into(), number(words.trim_end_matches(']'))),
                None => (field.into(), 1),
            }
        })
        .collect()
}

/// The same in this crate, with each field's offset in bytes.
fn crate_fields() -> Vec<(String, u64, usize)> {
    let record = Record::empty();
    macro_rules! field {
        ($name:ident) => {
            (stringify!($name).into(), size_of_val(&record.$name) as u64 / 4, offset_of!(Record, $name))
        };
    }
    vec![field!(count), field!(largest), field!(uncommitted), field!(waiting), field!(live), field!(runs), field!(undo)]
}

#[test]
fn the_record_is_the_same_struct_everywhere() {
    let rattle = rattle_fields();
    assert_eq!(header_fields(), rattle, "the header and the Rattle source");
    let ours = crate_fields();
    let named: Vec<_> = ours.iter().map(|(name, words, _)| (name.clone(), *words)).collect();
    assert_eq!(named, rattle, "this crate and the Rattle source");
    let mut offset = 0;
    for ((name, words), (_, _, ours)) in rattle.iter().zip(&ours) {
        assert_eq!(*ours as u64, offset, "the offset of {name}");
        offset += 4 * words;
    }
    assert_eq!(size_of::<Record>() as u64, offset, "this crate's record and the sum of the fields");
    assert_eq!(defines()["RECORD_BYTES"], offset, "the header's size and the sum of the fields");
    assert_eq!(linked::record_bytes() as u64, offset, "the archive's size and the sum of the fields");
    assert_eq!(std::mem::align_of::<Record>(), 4);
}

#[test]
fn the_archive_has_the_same_constants() {
    let header = defines();
    let archive = [
        ("RECORD_BYTES", linked::record_bytes()),
        ("EVENT_WORDS", linked::event_words()),
        ("ANSWER_WORDS", linked::answer_words()),
        ("LEAST_ROOM", linked::least_room()),
        ("MOST_CELLS", linked::most_cells()),
    ];
    for (name, value) in archive {
        assert_eq!(limits()[name], value as u64, "{name} of this crate");
        assert_eq!(header[name], value as u64, "{name} of the header");
    }
}

/// A function as C sees it: what it returns, and its parameters as name and type.
type Function = (String, Vec<(String, String)>);

fn parameters(text: &str) -> impl Iterator<Item = (String, String)> + '_ {
    let each = text.split(',').map(str::trim).filter(|parameter| !parameter.is_empty());
    each.map(|parameter| {
        let (name, kind) = parameter.split_once(':').unwrap_or_else(|| panic!("`{parameter}` has no type"));
        (name.trim().to_string(), kind.trim().to_string())
    })
}

/// The exported functions of the Rattle source. A slice is a pointer and a length, whose name is the header's own; the
/// one record may have any name.
fn rattle_functions() -> BTreeMap<String, Function> {
    let source = source("crates/boundary/src/lib.rt");
    let mut found = BTreeMap::new();
    let pieces: Vec<_> = source.split("pub extern \"C\" fn ").collect();
    for (before, piece) in pieces.iter().zip(&pieces[1..]) {
        let (name, rest) = piece.split_once('(').expect("parameters");
        assert!(before.trim_end().ends_with("#[unsafe(no_mangle)]"), "{name} is not exported by its name");
        let (list, rest) = rest.split_once(')').expect("the parameters' end");
        let returns = rest.trim_start().strip_prefix("->").expect("a returned type").split_whitespace().next();
        assert_eq!(returns, Some("u32"), "{name}");
        let mut c = vec![];
        for (name, kind) in parameters(list) {
            let any = String::new;
            match &kind[..] {
                "&mut Record" | "&mut record::Record" => c.push((any(), "harukdalis_record *".into())),
                "&mut [u32]" => c.extend([(name, "uint32_t *".into()), (any(), "size_t".into())]),
                "&[u32]" => c.extend([(name, "const uint32_t *".into()), (any(), "size_t".into())]),
                "&mut u32" => c.push((name, "uint32_t *".into())),
                "u32" => c.push((name, "uint32_t".into())),
                other => panic!("{name}: `{other}` does not cross to C"),
            }
        }
        found.insert(name.into(), ("uint32_t".into(), c));
    }
    found
}

/// The prototypes of the header.
fn header_functions() -> BTreeMap<String, Function> {
    let header = source("include/harukdalis.h");
    let after = &header[header.find("uint32_t harukdalis_start").expect("the first function")..];
    let (prototypes, _) = after.rsplit_once("#ifdef __cplusplus").expect("functions, then the end of extern \"C\"");
    let mut found = BTreeMap::new();
    for prototype in prototypes.split(';').map(str::trim).filter(|prototype| !prototype.is_empty()) {
        let (head, list) = prototype.split_once('(').expect("a prototype");
        let (returns, name) = head.rsplit_once(' ').expect("a returned type");
        let list = list.strip_suffix(')').expect("the parameters' end");
        let each = list.split(',').map(|parameter| parameter.split_whitespace().collect::<Vec<_>>().join(" "));
        let each = each.filter(|parameter| parameter != "void").map(|parameter| {
            let at = parameter.rfind([' ', '*']).expect("a parameter's name") + 1;
            (parameter[at..].to_string(), parameter[..at].trim().to_string())
        });
        found.insert(name.into(), (returns.into(), each.collect()));
    }
    found
}

/// What this crate links.
fn crate_functions() -> BTreeMap<String, Function> {
    let source = source("rust/src/linked.rs");
    let in_c = |kind: &str| match kind {
        "*mut Record" => "harukdalis_record *".to_string(),
        "*mut u32" => "uint32_t *".to_string(),
        "*const u32" => "const uint32_t *".to_string(),
        "usize" => "size_t".to_string(),
        "u32" => "uint32_t".to_string(),
        other => panic!("`{other}` does not cross to C"),
    };
    let mut found = BTreeMap::new();
    for declared in between(&source, "extern \"C\" {", "}").split(';').map(str::trim).filter(|text| !text.is_empty()) {
        let (name, rest) = declared.strip_prefix("fn ").and_then(|text| text.split_once('(')).expect("a function");
        let (list, returns) = rest.split_once(')').expect("the parameters' end");
        let returns = in_c(returns.trim().strip_prefix("->").expect("a returned type").trim());
        found.insert(name.into(), (returns, parameters(list).map(|(name, kind)| (name, in_c(&kind))).collect()));
    }
    found
}

#[test]
fn the_functions_are_the_boundarys() {
    let (rattle, header, ours) = (rattle_functions(), header_functions(), crate_functions());
    assert_eq!(rattle.len(), 8);
    assert_eq!(header, ours, "the header and this crate");
    // Names too where the source has them: cells and room are of one type, and a swap of them must show.
    let mut named = header;
    for (name, (_, parameters)) in &mut named {
        let (_, source) = rattle.get(name).unwrap_or_else(|| panic!("{name} is not in the Rattle source"));
        for ((ours, _), (theirs, _)) in parameters.iter_mut().zip(source) {
            if theirs.is_empty() {
                ours.clear();
            }
        }
    }
    assert_eq!(named, rattle, "the header and the Rattle source");
}
