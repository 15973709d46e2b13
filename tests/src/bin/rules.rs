//! The examples of docs/RULES.md against the independent program. A table of them is an indented block: its first line names the columns, of which the
//! first is the rule, and two blanks or more stand between the cells. In a text `\n` stands for byte 10. Usage: rules docs/RULES.md

use outside_checks::independent::{build, depth, ends, image, parse, states, writing, LONGEST_IMAGE};

/// What the independent program gives for a column of a rule's row, or nothing where the column is for the reader alone.
fn computed(rule: &[u8], text: Option<&str>, column: &str) -> Option<String> {
    let tree = parse(rule).unwrap_or_default();
    match column {
        "plain writing" => Some(String::from_utf8(writing(&tree)).expect("plain bytes")),
        "states" => Some(states(&tree).to_string()),
        "depth" => Some(depth(&tree).to_string()),
        "words" => Some(image(&tree).len().to_string()),
        "number" => Some(build(rule, LONGEST_IMAGE).number.to_string()),
        "place" => Some(build(rule, LONGEST_IMAGE).place.to_string()),
        "ends" => {
            let text = text.expect("a text").replace("\\n", "\n");
            let places: Vec<String> = ends(&tree, text.as_bytes()).iter().map(u32::to_string).collect();
            Some(if places.is_empty() { "none".to_string() } else { places.join(", ") })
        }
        "rule" | "text" | "why" => None,
        _ => panic!("no column {column}"),
    }
}

fn cells(line: &str) -> Vec<&str> {
    line.split("  ").map(str::trim).filter(|cell| !cell.is_empty()).collect()
}

/// How many cells of a row were compared; a row that ends before its last column has nothing to say there.
fn row(place: usize, columns: &[&str], line: &str) -> usize {
    let given = cells(line);
    let text = columns.iter().position(|column| *column == "text").map(|at| given[at]);
    let mut compared = 0;
    for (column, cell) in columns.iter().zip(&given) {
        if let Some(right) = computed(given[0].as_bytes(), text, column) {
            assert_eq!(*cell, right, "line {place}: {column} of {}", given[0]);
            compared += 1;
        }
    }
    assert!(columns.contains(&"number") || build(given[0].as_bytes(), LONGEST_IMAGE).number == 0, "line {place}: {} is refused", given[0]);
    compared
}

fn main() {
    let file = std::env::args().nth(1).expect("docs/RULES.md");
    let (mut columns, mut rows, mut compared) = (Vec::new(), 0, 0);
    let whole = std::fs::read_to_string(&file).expect("the document");
    for (place, line) in (1..).zip(whole.lines()) {
        let Some(line) = line.strip_prefix("    ") else {
            columns.clear();
            continue;
        };
        if columns.is_empty() && line.starts_with("rule  ") {
            columns = cells(line);
        } else if !columns.is_empty() {
            rows += 1;
            compared += row(place, &columns, line);
        }
    }
    assert!(rows > 0, "no table in {file}");
    println!("rules: {rows} examples of {file}, {compared} answers that agree with the independent program");
}
