//! The table of who gets what: a line for each kind, a column for RSVP-TE, for the general set and
//! for each group of applications with equal sets.
use crate::layout::{padded, widest, wrap};
use crate::library::{Application, Fact};
use crate::names::{self, Kind};
use crate::report::Facts;
use crate::values::{self, Value};

/// The kind stands in so many characters, with the blanks in front.
const LABEL: usize = 16;
/// A column can be so narrow, and no narrower.
const NARROW: usize = 9;
/// So many columns go into a line of so many characters: four groups into 80, eight into 120.
const WIDTHS: [(usize, usize); 2] = [(6, 80), (10, 120)];

/// What stands in one place of the table.
#[derive(Clone, Debug, Default, PartialEq, Eq)]
struct Cell {
    text: String,
    /// The note with the whole value, where it is too long for its column.
    note: Option<usize>,
}

/// The table.
pub struct Table {
    kinds: Vec<&'static Kind>,
    /// The first application of each column, and how many more there are.
    heads: Vec<[String; 2]>,
    /// A row for each kind.
    rows: Vec<Vec<Cell>>,
    notes: Vec<String>,
    legend: Vec<String>,
}

impl Table {
    pub fn of(facts: &Facts) -> Table {
        let kinds = facts.kinds();
        let mut notes = Vec::new();
        let mut rows = Vec::new();
        for kind in &kinds {
            let mut row = Vec::new();
            for block in facts.columns.chunks(WIDTHS[1].0) {
                let (most, _) = measures(block.len());
                for column in block {
                    let fact = facts.all[column[0]].facts.iter().find(|f| f.kind == *kind);
                    row.push(cell(fact, most, &mut notes));
                }
            }
            rows.push(row);
        }
        let heads = facts.columns.iter().map(|c| [head(facts, c), more(c)]).collect();
        Table { kinds, heads, rows, notes, legend: legend(facts) }
    }

    pub fn is_empty(&self) -> bool {
        self.kinds.is_empty()
    }

    /// What is shown of a kind in a column, with the note if there is one.
    pub fn shown(&self, code: u16, column: usize) -> Option<&str> {
        let row = self.kinds.iter().position(|k| k.code == code)?;
        let cell = self.rows[row].get(column)?;
        Some(cell.note.map_or(&cell.text, |n| &self.notes[n]))
    }

    pub fn lines(&self) -> Vec<String> {
        let mut lines = Vec::new();
        let columns: Vec<usize> = (0..self.heads.len()).collect();
        for block in columns.chunks(WIDTHS[1].0) {
            lines.extend(self.block(block));
        }
        for text in &self.legend {
            hang(&mut lines, "    ", text);
        }
        for (i, note) in self.notes.iter().enumerate() {
            hang(&mut lines, &format!("    [{}] ", i + 1), note);
        }
        lines
    }

    /// The lines of columns that stand side by side.
    fn block(&self, columns: &[usize]) -> Vec<String> {
        let (_, blanks) = measures(columns.len());
        let of = |column: usize| {
            let head = self.heads[column].iter().map(String::as_str);
            let cells = self.rows.iter().map(move |row| row[column].text.as_str());
            head.chain(cells)
        };
        let labels = self.kinds.iter().map(|k| format!("  {} {}", k.code, k.short));
        let labels = ["  who gets what".to_string(), String::new()].into_iter().chain(labels);
        let mut lines: Vec<String> = labels.map(|label| padded(&label, LABEL)).collect();
        for column in columns {
            let width = widest(of(*column));
            for (line, text) in lines.iter_mut().zip(of(*column)) {
                *line += &" ".repeat(blanks);
                *line += &padded(text, width);
            }
        }
        let lines = lines.iter().map(|line| line.trim_end().to_string());
        lines.filter(|line| !line.is_empty()).collect()
    }
}

/// How wide a column may be, and how many blanks stand before it.
fn measures(columns: usize) -> (usize, usize) {
    let fits = WIDTHS.iter().find(|(most, _)| columns <= *most).unwrap_or(&WIDTHS[1]);
    let each = (fits.1 - LABEL) / columns;
    let blanks = if each >= NARROW + 2 { 2 } else { 1 };
    (each - blanks, blanks)
}

/// A text in lines under each other, behind a front.
fn hang(lines: &mut Vec<String>, front: &str, text: &str) {
    for (i, line) in wrap(text, WIDTHS[0].1 - front.len()).into_iter().enumerate() {
        let front = if i == 0 { front.to_string() } else { " ".repeat(front.len()) };
        lines.push(format!("{front}{line}"));
    }
}

fn head(facts: &Facts, column: &[usize]) -> String {
    names::short(facts.all[column[0]].whom)
}

fn more(column: &[usize]) -> String {
    match column.len() {
        1 => String::new(),
        n => format!("and {}", n - 1),
    }
}

/// Whom the columns of several applications stand for.
fn legend(facts: &Facts) -> Vec<String> {
    let several = facts.columns.iter().filter(|c| c.len() > 1);
    let text = |column: &Vec<usize>| {
        let members: Vec<Application> = column.iter().map(|i| facts.named[i - 2]).collect();
        let all = names::applications(&members).join(", ");
        format!("{} {}: {all}", head(facts, column), more(column))
    };
    several.map(text).collect()
}

/// A value in at most so many characters; a longer one becomes a note.
fn cell(fact: Option<&Fact>, most: usize, notes: &mut Vec<String>) -> Cell {
    let Some((kind, value)) = fact.and_then(|f| Some((f.kind, f.value.as_ref()?))) else {
        return Cell { text: "-".into(), note: None };
    };
    let text = values::text(kind, value);
    let text = text.strip_prefix("bits ").unwrap_or(&text);
    if text.chars().count() <= most {
        return Cell { text: text.into(), note: None };
    }
    let note = match value {
        Value::Srlgs(all) => values::numbers(all, " "),
        _ => text.into(),
    };
    let number = notes.iter().position(|n| *n == note).unwrap_or_else(|| {
        notes.push(note);
        notes.len() - 1
    });
    let mark = format!("[{}]", number + 1);
    let about = match value {
        Value::Bandwidth(bits) => values::about(*bits).map(|about| format!("{about}{mark}")),
        _ => None,
    };
    let text = about.filter(|text| text.len() <= most).unwrap_or(mark);
    Cell { text, note: Some(number) }
}
