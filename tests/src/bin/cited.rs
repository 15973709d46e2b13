//! What the documents cite, against the repository: paths, our own names in backticks, must-fail edits, links with their anchors, and the lines of the
//! files that are believed; and that README's map has every crate. docs/landings/, docs/PORT*.md and docs/DESIGN-PASS.md are left out: those notes
//! say how things stood.
//! Usage: cited, from the repository's root

use std::collections::HashSet;
use std::fs;
use std::path::Path;

/// A citation that starts so is a path, from the root; of the second list from another folder.
const ROOTS: [&str; 8] = ["crates/", "tests/", "docs/", "examples/", "office/", "bench/", "vectors/", "include/"];
const BELOW: [(&str, &str); 3] = [("specs/", "crates/model/"), ("proofs/", "crates/model/"), ("src/", "tests/")];

/// Files whose words are names of ours, and the other files that are cited by their name alone.
const SOURCES: [&str; 6] = ["rt", "antt", "rs", "c", "h", "edit"];
const OTHERS: [&str; 2] = ["md", "txt"];

/// The one source that names things which are nowhere else, and a name that is not ours.
const ITSELF: &str = "tests/src/bin/cited.rs";
const NOT_OURS: &str = "cargo";

/// A file by its path from the root, and its words, where it is a source.
struct File {
    path: String,
    words: HashSet<String>,
}

fn is_word(c: char) -> bool {
    c.is_alphanumeric() || "_-'".contains(c)
}

/// The words of a text, `fn name` for each function, `name :` for each theorem or definition, and `refused: name` for each wrong line of an edit that
/// holds several.
fn words_of(text: &str) -> HashSet<String> {
    let word = |rest: &str| rest.split(|c| !is_word(c)).next().unwrap_or("").to_string();
    let mut words: HashSet<String> = text.split(|c| !is_word(c)).map(|word| word.trim_matches('-').to_string()).collect();
    for mark in ["fn ", "refused: "] {
        words.extend(text.split(mark).skip(1).map(|rest| format!("{mark}{}", word(rest))));
    }
    let stated = text.lines().filter_map(|line| line.split_once(" : ")).map(|(name, _)| name.trim_start().trim_start_matches("pub "));
    words.extend(stated.filter(|name| name.chars().all(is_word)).map(|name| format!("{name} :")));
    words
}

fn extension(name: &str) -> &str {
    name.rsplit_once('.').map_or("", |(_, end)| end)
}

/// Whether a path from the root is a folder of what is made, or git's own.
fn is_made(path: &str) -> bool {
    let is_out = || path.strip_prefix("crates/").and_then(|inside| inside.split_once('/')).is_some_and(|(_, folder)| folder == "out");
    ["target", ".git", "tests/target"].contains(&path) || is_out()
}

/// The files below a folder but for what is made and git's own.
fn files(folder: &Path, out: &mut Vec<File>) {
    for entry in fs::read_dir(folder).expect("a folder").map(|entry| entry.expect("an entry").path()) {
        let path = entry.to_str().expect("a name").trim_start_matches("./").to_string();
        if entry.is_dir() {
            if !is_made(&path) {
                files(&entry, out);
            }
        } else {
            let source = SOURCES.contains(&extension(&path)) && path != ITSELF;
            let words = if source { words_of(&fs::read_to_string(&entry).expect("a text")) } else { HashSet::new() };
            out.push(File { path, words });
        }
    }
}

/// What is left of a file's path after a cited one, in which `*` stands for any letters of one name.
fn rest_of<'a>(file: &'a str, cited: &str) -> Option<&'a str> {
    let Some((before, after)) = cited.split_once('*') else { return file.strip_prefix(cited) };
    let (name, rest) = file.strip_prefix(before)?.split_once(after)?;
    (!name.contains('/')).then_some(rest)
}

/// The repository, and what was found of the documents.
struct Citations {
    files: Vec<File>,
    words: HashSet<String>,
    missing: Vec<String>,
    counts: [usize; 5],
}

/// Which of the counts.
const PATHS: usize = 0;
const NAMES: usize = 1;
const EDITS: usize = 2;
const LINKS: usize = 3;
const LINES: usize = 4;

impl Citations {
    fn new() -> Self {
        let mut all = Vec::new();
        files(Path::new("."), &mut all);
        let mut words: HashSet<String> = all.iter().flat_map(|file| file.words.iter().cloned()).collect();
        for part in all.iter().flat_map(|file| file.path.split('/')) {
            words.insert(part.split('.').next().unwrap_or(part).to_string());
        }
        Citations { files: all, words, missing: Vec::new(), counts: [0; 5] }
    }

    fn note(&mut self, kind: usize, right: bool, place: &str, what: &str) {
        self.counts[kind] += 1;
        if !right {
            self.missing.push(format!("{place}: {what}"));
        }
    }

    /// The files that a path means: the file, with or without its ending, and those below it.
    fn meant(&self, path: &str) -> Vec<&File> {
        let is = |rest: &str| rest.is_empty() || rest.starts_with('/') || [".antt", ".rt", ".rs"].contains(&rest);
        self.files.iter().filter(|file| rest_of(&file.path, path.trim_end_matches('/')).is_some_and(is)).collect()
    }

    fn path(&mut self, place: &str, path: &str) {
        let found = !self.meant(path).is_empty();
        self.note(PATHS, found, place, &format!("no path {path}"));
    }

    /// A name that is said to stand at a path, where that is a source or has some below it.
    fn name_at(&mut self, place: &str, name: &str, path: &str) {
        let last = name.rsplit("::").next().unwrap_or(name);
        let sources: Vec<&File> = self.meant(path).into_iter().filter(|file| !file.words.is_empty()).collect();
        if !sources.is_empty() {
            let found = sources.iter().any(|file| file.words.contains(last));
            self.note(NAMES, found, place, &format!("no {name} in {path}"));
        }
    }

    /// A name in backticks: a word of ours, `module::word` or `crate::module::word`, or the name of a file.
    fn name(&mut self, place: &str, name: &str) {
        let parts: Vec<&str> = name.split("::").collect();
        let found = match parts[..] {
            [word] => word == NOT_OURS || self.words.contains(word),
            [first, ..] if is_crate(first) => {
                let sources = self.meant(&format!("crates/{first}/src"));
                parts[1..].iter().all(|part| sources.iter().any(|file| file.words.contains(*part)))
            }
            _ => parts.iter().all(|part| self.words.contains(*part)),
        };
        self.note(NAMES, found, place, &format!("no name {name}"));
    }

    fn file_name(&mut self, place: &str, name: &str) {
        let found = self.files.iter().any(|file| file.path == name || file.path.ends_with(&format!("/{name}")));
        self.note(PATHS, found, place, &format!("no file {name}"));
    }

    /// A must-fail edit of one of these crates, or a wrong line of one that holds several.
    fn edit(&mut self, place: &str, of: &[&str], name: &str) {
        let line = format!("refused: {name}");
        let is = |file: &File, of: &str| {
            let edit = file.path.strip_prefix(&format!("crates/{of}/must-fail/")).and_then(|file| file.strip_suffix(".edit"));
            edit.is_some_and(|edit| edit == name || file.words.contains(&line))
        };
        let found = of.iter().any(|of| self.files.iter().any(|file| is(file, of)));
        self.note(EDITS, found, place, &format!("no edit {name} of {}", of.join(" or ")));
    }

    /// A function or a theorem of one of these crates, or of the one that it names itself.
    fn promise(&mut self, place: &str, section: &[&str], name: &str) {
        let own = name.split("::").next().filter(|first| is_crate(first)).map(|first| vec![first]);
        let of = own.as_deref().unwrap_or(section);
        let last = name.rsplit("::").next().unwrap_or(name);
        let stands = |of: &str, part: &str, words: &str| self.meant(&format!("crates/{of}/{part}")).iter().any(|file| file.words.contains(words));
        let found = of.iter().any(|of| stands(of, "src", &format!("fn {last}")) || stands(of, "proofs", &format!("{last} :")));
        self.note(NAMES, found, place, &format!("no function or theorem {name} in {}", of.join(" or ")));
    }
}

fn is_crate(name: &str) -> bool {
    Path::new("crates").join(name).is_dir()
}

/// The texts between backticks, each with the place where it opens and the place after it.
fn quoted(line: &str) -> Vec<(usize, usize, &str)> {
    let ticks: Vec<usize> = line.match_indices('`').map(|(at, _)| at).collect();
    ticks.chunks_exact(2).map(|pair| (pair[0], pair[1] + 1, &line[pair[0] + 1..pair[1]])).collect()
}

/// `name`, `name-of-ours`, `crate::module::name`: two letters at least.
fn is_name(text: &str) -> bool {
    let part = |part: &str| part.starts_with(|c: char| c.is_alphabetic() || c == '_') && part.chars().all(is_word) && !part.ends_with('-');
    text.len() > 1 && text.split("::").all(part)
}

/// A word of a longer text that can only be ours: `some_name` or `someName`.
fn is_ours(word: &str) -> bool {
    let bytes = word.as_bytes();
    is_name(word) && (word.contains('_') || bytes.windows(2).any(|two| two[0].is_ascii_lowercase() && two[1].is_ascii_uppercase()))
}

/// The paths of a line, each with the place where it starts and the place after it.
fn paths(line: &str) -> Vec<(usize, usize, String)> {
    let part = |c: char| c.is_ascii_alphanumeric() || "_./*\\-".contains(c);
    let mut out = Vec::new();
    let mut at = 0;
    for run in line.split(|c| !part(c)) {
        let start = line[at..].find(run).expect("a part of the line") + at;
        at = start + run.len();
        let cited = run.trim_end_matches(['.', '-']);
        let root = ROOTS.iter().find(|root| cited.starts_with(**root)).map(|_| "");
        let below = BELOW.iter().find(|(start, _)| cited.starts_with(start)).map(|(_, base)| *base);
        if let Some(base) = root.or(below) {
            out.push((start, start + cited.len(), format!("{base}{}", cited.replace('\\', ""))));
        }
    }
    out
}

/// The names that a path is cited for, but for crates: before it, "`a`, `b` and `c`, PATH" or "`a` (PATH)", and after it, "PATH (`a`; `b`)".
fn beside(line: &str, start: usize, end: usize) -> Vec<&str> {
    let mut out = Vec::new();
    let mut before = line[..start].strip_suffix('`').unwrap_or(&line[..start]);
    let mut joins: &[&str] = &[", ", " in ", " ("];
    while let Some((rest, name)) = joins.iter().find_map(|join| before.strip_suffix(join)?.strip_suffix('`')?.rsplit_once('`')) {
        out.push(name);
        before = rest;
        joins = &[", ", " and "];
    }
    let after = line[end..].strip_prefix('`').unwrap_or(&line[end..]);
    if let Some((inside, _)) = after.strip_prefix(" (").and_then(|rest| rest.split_once(')')) {
        out.extend(quoted(inside).into_iter().map(|(_, _, name)| name));
    }
    out.into_iter().filter(|name| is_name(name) && !is_crate(name)).collect()
}

/// Paths, and the names beside them.
fn check_paths(all: &mut Citations, place: &str, line: &str) {
    for (start, end, path) in paths(line) {
        all.path(place, &path);
        for name in beside(line, start, end) {
            all.name_at(place, name, &path);
        }
    }
}

fn check_names(all: &mut Citations, place: &str, line: &str) {
    for (_, _, text) in quoted(line) {
        if is_name(text) {
            all.name(place, text);
        } else if SOURCES.iter().chain(&OTHERS).any(|end| extension(text) == *end) && text.chars().all(|c| is_word(c) || c == '.') {
            all.file_name(place, text);
        } else {
            for word in text.split(|c| !is_word(c)).filter(|word| is_ours(word)) {
                all.name(place, word);
            }
        }
    }
}

/// The edits of a table's cell, each with its crate: "`a`, `b` (`crate`)", "`a` of `crate`"; those up to a semicolon without one are of the section's.
fn check_edits(all: &mut Citations, place: &str, cell: &str, section: &[&str]) {
    for part in cell.split(';').filter(|part| !part.contains("would not be proved")) {
        let mut waiting: Vec<&str> = Vec::new();
        let mut last_end = 0;
        for (start, end, name) in quoted(part) {
            let between = &part[last_end..start];
            last_end = end;
            if !is_crate(name) {
                waiting.push(name);
            } else if between.ends_with('(') || between.ends_with(" of ") {
                for edit in waiting.drain(..).filter(|edit| is_name(edit)) {
                    all.edit(place, &[name], edit);
                }
            }
        }
        for edit in waiting.into_iter().filter(|edit| is_name(edit)) {
            all.edit(place, section, edit);
        }
    }
}

/// The cells of a table's row; a bar with `\` before it is none.
fn cells(line: &str) -> Vec<String> {
    let hidden = line.replace("\\|", "\u{1}");
    hidden.trim().trim_matches('|').split('|').map(|cell| cell.trim().replace('\u{1}', "\\|")).collect()
}

/// The tables of a document: edits, functions and theorems by the headings of their columns, and lines of the files that are believed.
fn check_tables(all: &mut Citations, document: &str, text: &str) {
    let mut headings: Vec<String> = Vec::new();
    let mut section: Vec<&str> = Vec::new();
    for (number, line) in (1..).zip(text.lines()) {
        let place = format!("{document} {number}");
        if line.starts_with('#') {
            section = quoted(line).into_iter().map(|(_, _, name)| name).filter(|name| is_crate(name)).collect();
        }
        if !line.starts_with('|') {
            headings.truncate(if line.is_empty() { headings.len() } else { 0 });
            continue;
        }
        let row = cells(line);
        if headings.is_empty() {
            headings = row;
            continue;
        }
        for (heading, cell) in headings.iter().zip(&row) {
            match heading.as_str() {
                "edit (must-fail/)" => check_edits(all, &place, cell, &["model"]),
                "must-fail edit" | "edits that show it" if !cell.contains("those ") => check_edits(all, &place, cell, &section),
                "contract" if cell.starts_with('`') => {
                    let (_, _, name) = quoted(cell)[0];
                    if is_name(name) {
                        all.promise(&place, &section, name);
                    }
                }
                _ => (),
            }
        }
        check_lines(all, &place, &row);
    }
}

/// A row of a file that is believed, and of how many lines it has.
fn check_lines(all: &mut Citations, place: &str, row: &[String]) {
    let [file, lines, ..] = row else { return };
    let file = file.trim_matches('`');
    if let (true, Ok(said)) = (extension(file) == "antt", lines.parse::<usize>()) {
        let counted = fs::read_to_string(format!("crates/model/specs/{file}")).map_or(0, |text| text.lines().count());
        all.note(LINES, said == counted, place, &format!("{file} has {counted} lines and not {said}"));
    }
}

/// The anchors of a document's headings, as they are made from their words.
fn anchors(text: &str) -> HashSet<String> {
    let slug = |heading: &str| {
        let kept = heading.trim_start_matches('#').trim().to_lowercase();
        kept.chars().filter(|c| c.is_alphanumeric() || " -_".contains(*c)).map(|c| if c == ' ' { '-' } else { c }).collect()
    };
    text.lines().filter(|line| line.starts_with('#')).map(slug).collect()
}

/// Links, but not in backticks, where `](` may be a rule's.
fn check_links(all: &mut Citations, document: &str, place: &str, line: &str) {
    let outside: String = line.split('`').step_by(2).collect();
    for target in outside.split("](").skip(1).filter_map(|rest| rest.split_once(')')).map(|(target, _)| target) {
        if target.contains("://") {
            continue;
        }
        let (file, anchor) = target.split_once('#').map_or((target, None), |(file, anchor)| (file, Some(anchor)));
        let folder = Path::new(document).parent().unwrap_or(Path::new(""));
        let path = if file.is_empty() { Path::new(document).to_path_buf() } else { folder.join(file) };
        let found = match anchor {
            Some(anchor) => fs::read_to_string(&path).is_ok_and(|text| anchors(&text).contains(anchor)),
            None => path.exists(),
        };
        all.note(LINKS, found, place, &format!("no link {target}"));
    }
}

/// One document: its paths; if its backticks hold our names, those; its links and tables.
fn check(all: &mut Citations, document: &str, named: bool) {
    let text = fs::read_to_string(document).unwrap_or_else(|e| panic!("{document}: {e}"));
    for (number, line) in (1..).zip(text.lines()) {
        let place = format!("{document} {number}");
        check_paths(all, &place, line);
        if named && !line.starts_with("    ") {
            check_names(all, &place, line);
        }
        if extension(document) == "md" {
            check_links(all, document, &place, line);
        }
    }
    check_tables(all, document, &text);
}

/// The map of README.md has every crate.
fn check_map(all: &mut Citations) {
    let map = fs::read_to_string("README.md").expect("README.md");
    for entry in fs::read_dir("crates").expect("crates").map(|entry| entry.expect("an entry").path()) {
        let row = format!("| `{}` |", entry.to_str().expect("a name"));
        all.note(PATHS, map.contains(&row), "README.md", &format!("no row of the map that begins {row}"));
    }
}

fn main() {
    let mut all = Citations::new();
    check_map(&mut all);
    let mut documents: Vec<String> = ["README.md", "tests/README.md", "vectors/README.md", "include/lavumbishe.h"].map(String::from).to_vec();
    let docs = fs::read_dir("docs").expect("docs").map(|entry| entry.expect("an entry").path());
    let cited = docs.filter(|path| path.is_file()).map(|path| path.to_str().expect("a name").to_string());
    documents.extend(cited.filter(|path| path.ends_with(".md") && !path.starts_with("docs/PORT") && path != "docs/DESIGN-PASS.md"));
    documents.sort();
    for document in &documents {
        // What is in backticks in these is mostly rules and texts.
        check(&mut all, document, !["docs/RULES.md", "include/lavumbishe.h"].contains(&document.as_str()));
    }
    for missing in &all.missing {
        println!("cited: {missing}");
    }
    let [paths, names, edits, links, lines] = all.counts;
    let (of, wrong) = (documents.len(), all.missing.len());
    println!("cited: {paths} paths, {names} names, {edits} edits, {links} links and {lines} numbers of lines in {of} documents, {wrong} wrong");
    std::process::exit(i32::from(!all.missing.is_empty()));
}
