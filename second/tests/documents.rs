//! The documents stay true: docs/RULES.md quotes every sentence of document 01's rules, in its order; what it and
//! docs/DECISIONS.md name exists; no document names a crate, a module, a function or a definition that is not there;
//! README.md shows what is printed.

use std::collections::HashSet;
use std::fs;
use std::path::{Path, PathBuf};

use second::json::Json;
use second::session::{self, Ending};

fn root() -> PathBuf {
    Path::new(env!("CARGO_MANIFEST_DIR")).join("..")
}

fn read(path: &str) -> String {
    fs::read_to_string(root().join(path)).unwrap_or_else(|error| panic!("{path}: {error}"))
}

/// The four cells of each row of the tables in docs/RULES.md, without their heads.
fn rules() -> Vec<[String; 4]> {
    let text = read("docs/RULES.md");
    let rows = text.lines().filter(|line| line.starts_with("| \""));
    let cells = |line: &str| -> [String; 4] {
        let inner = line.strip_prefix("| ").and_then(|line| line.strip_suffix('|')).expect("a row");
        let cells: Vec<String> = inner.split(" |").map(|cell| cell.trim().to_string()).collect();
        cells.try_into().unwrap_or_else(|cells| panic!("not four cells: {cells:?}"))
    };
    rows.map(cells).collect()
}

fn quotes() -> Vec<String> {
    let unquoted = |cell: String| cell.strip_prefix('"').and_then(|cell| cell.strip_suffix('"')).map(str::to_string);
    rules().into_iter().map(|[cell, ..]| unquoted(cell.clone()).unwrap_or_else(|| panic!("no quote: {cell}"))).collect()
}

/// What stands between backquotes.
fn spans(cell: &str) -> Vec<&str> {
    cell.split('`').skip(1).step_by(2).collect()
}

#[test]
fn the_quotes_stand_in_document_01_in_order() {
    let (document, mut at) = (read("docs/document-01.md"), 0);
    let quotes = quotes();
    assert!(quotes.len() > 140, "{} quotes", quotes.len());
    for quote in quotes {
        let found = document[at..].find(&quote);
        at += found.unwrap_or_else(|| panic!("not in document 01, or out of order: {quote}"));
    }
}

/// The sentences of document 01, without its headings, table heads, examples and the quotes that name a form's place.
fn sentences() -> Vec<String> {
    let document = read("docs/document-01.md");
    // The page of the worked session and the table's head are no sentences.
    let without_page = document.split("```").step_by(2).collect::<Vec<_>>().join("");
    let lines = without_page.lines().filter(|line| {
        !line.is_empty() && !line.starts_with(['#']) && !line.starts_with("|---") && !line.starts_with("| No.")
    });
    let mut sentences = Vec::new();
    for line in lines {
        let line = line.split_once("\": ").filter(|_| line.starts_with("- \"")).map_or(line, |(_, form)| form);
        let line = line.split_once("(02): ").map_or(line, |(_, form)| form);
        let mut start = 0;
        for (place, _) in line.match_indices(". ") {
            // A period before a lower-case letter is in the middle of a sentence (". ? !").
            if line[place + 2..].starts_with(|letter: char| !letter.is_lowercase() && letter != '?') {
                sentences.push(line[start..=place].to_string());
                start = place + 2;
            }
        }
        sentences.push(line[start..].to_string());
    }
    sentences
}

#[test]
fn no_sentence_of_document_01_is_missing() {
    let (sentences, quotes) = (sentences(), quotes());
    assert!(sentences.len() > 100, "{} sentences", sentences.len());
    for sentence in sentences {
        assert!(quotes.iter().any(|quote| sentence.contains(quote.as_str())), "no row quotes: {sentence}");
    }
}

/// Whether a file of definitions declares a name.
fn declares(text: &str, name: &str) -> bool {
    text.lines().any(|line| {
        let mut rest = line.trim_start();
        while let Some(shorter) =
            ["abbrev ", "unfoldable ", "pub ", "data ", "record "].iter().find_map(|word| rest.strip_prefix(word))
        {
            rest = shorter;
        }
        rest.strip_prefix(name).is_some_and(|behind| behind.starts_with(" :") || behind.starts_with(" ("))
    })
}

/// The file of a module in a crate's definitions, with the one of that name in its proofs, which may have its laws.
fn module_text(crate_name: &str, module: &str) -> String {
    let file = |part| root().join(format!("crates/{crate_name}/{part}/{module}.antt"));
    ["specs", "proofs"].iter().filter_map(|part| fs::read_to_string(file(part)).ok()).collect()
}

#[test]
fn the_definitions_exist() {
    let mut named = 0;
    for [quote, definitions, theorem, _] in rules() {
        for span in spans(&definitions).into_iter().chain(spans(&theorem)) {
            let (crate_name, place) = span.split_once('/').unwrap_or(("rules", span));
            let Some((module, name)) = place.split_once('.') else { continue };
            if !module.starts_with(|letter: char| letter.is_uppercase()) {
                continue;
            }
            let text = module_text(crate_name, module);
            assert!(declares(&text, name), "{quote}: {span} is not declared");
            named += 1;
        }
    }
    assert!(named > 200, "{named} definitions");
}

/// The names of all vectors.
fn vectors() -> HashSet<String> {
    let mut names = HashSet::new();
    for entry in fs::read_dir(root().join("tests/vectors")).expect("tests/vectors") {
        let text = fs::read_to_string(entry.expect("an entry").path()).expect("a vector file");
        for line in text.lines().filter(|line| !line.trim().is_empty()) {
            if let Some(Json::Text(name)) = Json::parse(line).expect("a vector").get("name") {
                names.insert(name.clone());
            }
        }
    }
    names
}

/// The names in a text that look like those of vectors: R, S or M and a number.
fn vector_names(text: &str) -> Vec<&str> {
    let words = text.split(|letter: char| !letter.is_ascii_alphanumeric() && letter != '.');
    let words = words.map(|word| word.trim_end_matches('.'));
    words
        .filter(|word| {
            let number = word.strip_prefix(['R', 'S', 'M']).unwrap_or_default();
            number.len() >= 2 && number.starts_with(|letter: char| letter.is_ascii_digit())
        })
        .collect()
}

#[test]
fn the_vectors_exist() {
    let names = vectors();
    let known = |wanted: &str| {
        names
            .iter()
            .any(|name| name.strip_prefix(wanted).is_some_and(|rest| rest.is_empty() || rest.starts_with(['.', ' '])))
    };
    let mut shown = 0;
    for [quote, _, cell, _] in rules() {
        for wanted in vector_names(&cell) {
            assert!(known(wanted), "{quote}: no vector {wanted}");
            shown += 1;
        }
        for wanted in cell.split('"').skip(1).step_by(2) {
            assert!(names.contains(wanted), "{quote}: no vector named {wanted}");
            shown += 1;
        }
        for span in spans(&cell).into_iter().filter(|span| span.contains('/') && span.contains("tests")) {
            assert!(root().join(span).exists(), "{quote}: no file {span}");
        }
    }
    assert!(shown > 150, "{shown} vectors");
    let decisions = read("docs/DECISIONS.md");
    let cited = vector_names(&decisions);
    assert!(cited.len() > 200, "{} vectors in docs/DECISIONS.md", cited.len());
    for wanted in cited {
        assert!(known(wanted), "docs/DECISIONS.md: no vector {wanted}");
    }
}

/// The edits that the tables name, by crate and name, are there.
#[test]
fn the_edits_exist() {
    let mut named = 0;
    for [quote, _, cell, _] in rules() {
        for span in spans(&cell) {
            // A name with a period is that of a definition.
            if let Some((crate_name, edit)) = span.split_once('/').filter(|(_, edit)| !edit.contains('.')) {
                let folder = root().join("crates").join(crate_name);
                if folder.is_dir() {
                    let there =
                        ["edits", "must-fail"].iter().any(|of| folder.join(of).join(format!("{edit}.edit")).exists());
                    assert!(there, "{quote}: no edit {span}");
                    named += 1;
                }
            }
        }
    }
    assert!(named > 5, "{named} edits");
}

/// The functions that the tables name are there, in the crate and the module named.
#[test]
fn the_functions_exist() {
    let mut named = 0;
    for [quote, _, _, functions] in rules() {
        for span in spans(&functions) {
            let (path, function) = span.rsplit_once("::").unwrap_or_else(|| panic!("{quote}: {span}"));
            let (crate_name, module) = path.split_once("::").unwrap_or((path, "lib"));
            let text = read(&format!("crates/{crate_name}/src/{module}.rt"));
            let there = ["(", "<"].iter().any(|next| text.contains(&format!("fn {function}{next}")));
            assert!(there, "{quote}: no function {span}");
            named += 1;
        }
    }
    assert!(named > 100, "{named} functions");
}

/// The documents of the repository, but for document 01.
const DOCUMENTS: [&str; 8] = [
    "README.md",
    "docs/ARCHITECTURE.md",
    "docs/DECISIONS.md",
    "docs/PERFORMANCE.md",
    "docs/PROOFS.md",
    "docs/RECORD.md",
    "docs/RULES.md",
    "tests/README.md",
];

/// Whether a path of code, as `crate::module::name`, is one: its crate, its module if it has one, and what it declares.
fn is_code(path: &str) -> bool {
    let parts: Vec<&str> = path.split("::").collect();
    let source = |crate_name: &str, file: &str| {
        fs::read_to_string(root().join(format!("crates/{crate_name}/src/{file}.rt"))).unwrap_or_default()
    };
    let declared = |text: &str, name: &str| {
        ["fn", "struct", "enum", "const", "mod"].iter().any(|word| {
            let start = format!("{word} {name}");
            text.match_indices(&start)
                .any(|(at, _)| !text[at + start.len()..].starts_with(|c: char| c.is_alphanumeric() || c == '_'))
        })
    };
    match parts[..] {
        [crate_name, name] => declared(&source(crate_name, "lib"), name),
        [crate_name, module, name] => declared(&source(crate_name, module), name),
        _ => false,
    }
}

/// Whether a path of definitions, as `crate/Module/File.name` or `crate/File`, is one.
fn is_definition(path: &str) -> bool {
    let (file, name) = path.split_once('.').map_or((path, None), |(file, name)| (file, Some(name)));
    let Some((crate_name, file)) = file.split_once('/') else { return false };
    let text = module_text(crate_name, file);
    !text.is_empty() && name.is_none_or(|name| declares(&text, name))
}

/// What the documents name by a path that begins with a crate, or with a folder of the repository, is there.
#[test]
fn the_paths_exist() {
    let mut named = 0;
    for document in DOCUMENTS {
        let text = read(document);
        // What stands between fences, or indented, is no prose.
        let prose: Vec<&str> =
            text.split("```").step_by(2).flat_map(str::lines).filter(|line| !line.starts_with("    ")).collect();
        for span in spans(&prose.join("\n")) {
            let is_crate = |name: &str| root().join("crates").join(name).is_dir();
            let first = span.split(['/', ':']).next().unwrap_or_default();
            let there = if span.contains(char::is_whitespace) || span.contains(['*', '{', '=']) {
                continue;
            } else if span.contains("::") && first.starts_with(|letter: char| letter.is_lowercase()) {
                is_code(span)
            } else if is_crate(first)
                && span[first.len()..].starts_with('/')
                && span[first.len() + 1..].starts_with(char::is_uppercase)
            {
                is_definition(span)
            } else if ["crates", "docs", "tests", "bench", "second", "examples", "include"].contains(&first)
                && span.contains('/')
            {
                span.contains("NAME") || span.contains("/out/") || root().join(span).exists()
            } else {
                continue;
            };
            assert!(there, "{document}: there is no {span}");
            named += 1;
        }
    }
    assert!(named > 400, "{named} paths");
}

/// The service sheet in examples/ has three pages of 66 rows, and README.md shows the first rows of them.
#[test]
fn the_service_sheet_has_three_pages() {
    let (pages, ending) = session::pages(read("examples/service-sheet.nr").as_bytes());
    assert_eq!(ending, Ending::Done);
    let pages = String::from_utf8(pages).expect("printed bytes");
    assert_eq!(pages.lines().count(), 3 * 66);
    let readme = read("README.md");
    let shown = readme.split("```\n").nth(1).expect("the first rows");
    assert!(!shown.is_empty() && pages.starts_with(shown), "README.md shows other rows");
}
