//! What each row refuses stands in the crate alone; the C header and docs/FORMAT.md have its words.

use wegbaro::Refusal;

/// The rows, from 1.
fn rows() -> Vec<String> {
    let meaning = |row| Refusal { row, place: 0 }.meaning();
    let rows = (1..).map(meaning).take_while(|meaning| *meaning != "no row has this number");
    rows.map(String::from).collect()
}

/// The table of the header: a row's words may go on below it, and its place stands behind them.
fn of_header(header: &str) -> Vec<String> {
    let title = header.find(" *    number  refused because").expect("the table");
    let title_line = header[title..].lines().next().unwrap();
    let [words, place] = ["refused", "place"].map(|word| title_line.find(word).unwrap());
    let mut rows: Vec<String> = vec![];
    for line in header[title..].lines().skip(1).take_while(|line| line.len() > 2) {
        let part = line.get(words..place.min(line.len())).unwrap_or_default().trim();
        let number = line.get(..words).unwrap_or_default().trim_matches([' ', '*']);
        match number.parse::<usize>() {
            Ok(number) => {
                assert_eq!(number, rows.len() + 1, "{line}");
                rows.push(part.to_string());
            }
            Err(_) => *rows.last_mut().unwrap() += &format!(" {part}"),
        }
    }
    rows.into_iter().map(|row| row.trim_end().to_string()).collect()
}

/// The first table of the document whose lines are rows.
fn of_document(document: &str) -> Vec<String> {
    let title = document.find("| row | refused if | place |\n").expect("the table");
    let lines = document[title..].lines().skip(2).take_while(|line| line.starts_with('|'));
    let mut rows = vec![];
    for line in lines {
        let cells: Vec<&str> = line.split('|').map(str::trim).collect();
        assert_eq!(cells[1], (rows.len() + 1).to_string(), "{line}");
        rows.push(cells[2].to_string());
    }
    rows
}

#[test]
fn the_rows_of_the_header() {
    let header = include_str!("../../include/wegbaro.h");
    assert_eq!(of_header(header), rows());
}

#[test]
fn the_rows_of_the_format() {
    let document = include_str!("../../docs/FORMAT.md");
    assert_eq!(of_document(document), rows());
    assert_eq!(rows().len(), 16);
}

/// Rows with several causes have them in a table of their own.
#[test]
fn the_causes_of_the_format() {
    let document = include_str!("../../docs/FORMAT.md");
    let title = document.find("| row | cause | place |\n").expect("the table");
    let lines = document[title..].lines().skip(2).take_while(|line| line.starts_with('|'));
    let numbers: Vec<&str> = lines.map(|line| line.split('|').nth(1).unwrap().trim()).collect();
    let mut once = numbers.clone();
    once.dedup();
    assert_eq!(once, ["3", "4", "5", "7", "9", "12", "13", "16"]);
    assert!(once.iter().all(|row| numbers.iter().filter(|other| *other == row).count() > 1));
}
