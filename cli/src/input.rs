//! Text files of links: which bytes stand in which run, and which lines are faulty.
use crate::dump::{self, Dump};
use std::fmt;

/// The runs that a line can belong to.
#[derive(Clone, Copy, Debug, PartialEq, Eq, Hash)]
pub enum RunName {
    A,
    B,
    C,
    BgpLs,
}

/// The words at the front of a line, in small letters and without dashes.
const LABELS: [(&str, RunName); 4] =
    [("a", RunName::A), ("b", RunName::B), ("c", RunName::C), ("bgpls", RunName::BgpLs)];

impl fmt::Display for RunName {
    fn fmt(&self, f: &mut fmt::Formatter<'_>) -> fmt::Result {
        f.write_str(match self {
            RunName::A => "A",
            RunName::B => "B",
            RunName::C => "C",
            RunName::BgpLs => "BGP-LS",
        })
    }
}

/// The bytes of a run, and the line of the file that each part of it came from.
#[derive(Clone, Debug, PartialEq, Eq)]
pub struct Run {
    pub name: RunName,
    pub bytes: Vec<u8>,
    /// The offset of the first byte of each line, and the line's number.
    lines: Vec<(usize, usize)>,
}

impl Run {
    fn new(name: RunName) -> Run {
        Run { name, bytes: Vec::new(), lines: Vec::new() }
    }

    fn add(&mut self, bytes: &[u8], line: usize) {
        self.lines.push((self.bytes.len(), line));
        self.bytes.extend_from_slice(bytes);
    }

    /// The line of the byte at an offset.
    pub fn line_of(&self, offset: usize) -> Option<usize> {
        let of = self.lines.iter().rev().find(|(first, _)| *first <= offset);
        of.map(|(_, line)| *line)
    }
}

/// What stands between one `link` line and the next.
#[derive(Clone, Debug, PartialEq, Eq)]
pub struct Entry {
    /// What the link is called; none where no line names it.
    pub name: Option<String>,
    /// The line where it begins.
    pub line: usize,
    pub runs: Vec<Run>,
    /// What is wrong with its lines. If anything is, its bytes are not known.
    pub faults: Vec<Fault>,
}

impl Entry {
    fn new(name: Option<String>, line: usize) -> Entry {
        Entry { name, line, runs: Vec::new(), faults: Vec::new() }
    }

    /// Its name, or the file's where it has none.
    pub fn title(&self, file: &str) -> String {
        match &self.name {
            Some(name) => plain(name),
            None => format!("of {}", plain(file)),
        }
    }

    pub fn run(&self, name: RunName) -> Option<&Run> {
        self.runs.iter().find(|r| r.name == name)
    }

    /// The bytes of a run; none is as good as an empty one.
    pub fn bytes(&self, name: RunName) -> &[u8] {
        self.run(name).map_or(&[], |r| &r.bytes)
    }

    fn run_mut(&mut self, name: RunName) -> &mut Run {
        match self.runs.iter().position(|r| r.name == name) {
            Some(i) => &mut self.runs[i],
            None => {
                self.runs.push(Run::new(name));
                self.runs.last_mut().expect("one was added")
            }
        }
    }
}

/// A name without what a terminal would obey.
pub fn plain(name: &str) -> String {
    let shown = |c: char| match c.is_control() {
        true => c.escape_default().to_string(),
        false => c.to_string(),
    };
    name.chars().map(shown).collect()
}

/// What is wrong with a line, and where: line and column are counted from 1.
#[derive(Clone, Debug, PartialEq, Eq)]
pub struct Fault {
    pub line: usize,
    pub column: usize,
    pub what: String,
}

/// What a file holds.
#[derive(Clone, Debug, Default, PartialEq, Eq)]
pub struct File {
    pub entries: Vec<Entry>,
}

impl File {
    /// What is wrong with its lines.
    pub fn faults(&self) -> impl Iterator<Item = &Fault> {
        self.entries.iter().flat_map(|e| &e.faults)
    }
}

/// What is wrong in a line: the column, counted from 0 in bytes, and words.
pub(crate) type Wrong = (usize, String);

/// Reads a file.
pub fn read(text: &[u8]) -> File {
    let mut reader = Reader::default();
    if text.starts_with(&[0xFF, 0xFE]) || text.starts_with(&[0xFE, 0xFF]) {
        reader.fault(1, &[], (0, "this is UTF-16: save the file as UTF-8".into()));
        return reader.file;
    }
    let text = text.strip_prefix(b"\xEF\xBB\xBF").unwrap_or(text);
    for (i, line) in text.split(|b| *b == b'\n').enumerate() {
        let line = line.strip_suffix(b"\r").unwrap_or(line);
        if let Err(wrong) = reader.line(i + 1, line) {
            reader.fault(i + 1, line, wrong);
        }
    }
    reader.file
}

#[derive(Default)]
struct Reader {
    file: File,
    /// The run that a line without a word of its own goes on with.
    current: Option<RunName>,
    /// The hex dump that a line may go on with.
    dump: Option<Dump>,
}

impl Reader {
    fn fault(&mut self, number: usize, line: &[u8], (at, what): Wrong) {
        // Columns are counted in characters, as editors do.
        let before = line.get(..at).unwrap_or(line);
        let column = String::from_utf8_lossy(before).chars().count() + 1;
        self.entry(number).faults.push(Fault { line: number, column, what });
        self.dump = None;
    }

    fn entry(&mut self, line: usize) -> &mut Entry {
        if self.file.entries.is_empty() {
            self.file.entries.push(Entry::new(None, line));
        }
        self.file.entries.last_mut().expect("there is one")
    }

    fn line(&mut self, number: usize, line: &[u8]) -> Result<(), Wrong> {
        let start = blanks(line);
        if matches!(line.get(start), None | Some(b'#')) {
            return Ok(());
        }
        let (word, rest) = front_word(line, start);
        if word.eq_ignore_ascii_case("link") {
            return self.link(number, line, rest);
        }
        let plain = word.to_ascii_lowercase().replace(['-', '_'], "");
        if let Some((_, name)) = LABELS.iter().find(|(label, _)| *label == plain) {
            self.current = Some(*name);
            self.dump = None;
            self.entry(number).run_mut(*name);
            return self.bytes(number, line, rest);
        }
        if !dump::may_begin(&line[start..]) {
            let words = "a line begins with A, B, C, BGP-LS, link or #, or is hex";
            return Err((start, format!("{words}, and here stands {}", shown(line, start))));
        }
        self.bytes(number, line, start)
    }

    fn link(&mut self, number: usize, line: &[u8], rest: usize) -> Result<(), Wrong> {
        let end = line.iter().position(|b| *b == b'#').unwrap_or(line.len());
        let name = String::from_utf8_lossy(&line[rest..end.max(rest)]);
        let name = Some(name.trim()).filter(|n| !n.is_empty());
        let entry = Entry::new(name.map(String::from), number);
        self.file.entries.push(entry);
        self.current = None;
        self.dump = None;
        Ok(())
    }

    fn bytes(&mut self, number: usize, line: &[u8], from: usize) -> Result<(), Wrong> {
        let (bytes, dump) = dump::line(line, from, self.dump.as_ref())?;
        self.dump = dump;
        let name = *self.current.get_or_insert(RunName::A);
        self.entry(number).run_mut(name).add(&bytes, number);
        Ok(())
    }
}

/// How many blanks stand at the front.
pub(crate) fn blanks(line: &[u8]) -> usize {
    line.iter().take_while(|b| b.is_ascii_whitespace()).count()
}

/// The word at the front of a line, if `:`, `=`, a blank or the end is behind it, and where the line goes on.
fn front_word(line: &[u8], start: usize) -> (&str, usize) {
    let ends = |b: &u8| b.is_ascii_whitespace() || matches!(b, b':' | b'=' | b'#');
    let len = line[start..].iter().position(ends).unwrap_or(line.len() - start);
    let word = std::str::from_utf8(&line[start..start + len]).unwrap_or("");
    let mut rest = start + len;
    rest += blanks(&line[rest..]);
    if matches!(line.get(rest), Some(b':' | b'=')) {
        rest += 1;
    }
    (word, rest)
}

/// The character at a place of a line.
pub(crate) fn shown(line: &[u8], at: usize) -> String {
    let end = line.len().min(at + 4);
    let rest = &line[at..end];
    let valid = match std::str::from_utf8(rest) {
        Ok(text) => text,
        Err(e) => std::str::from_utf8(&rest[..e.valid_up_to()]).unwrap_or(""),
    };
    match (valid.chars().next(), rest.first()) {
        (Some(c), _) => format!("'{}'", c.escape_debug()),
        (None, Some(byte)) => format!("the byte {byte:02X}"),
        (None, None) => "the end".into(),
    }
}

#[cfg(test)]
mod tests {
    use super::*;

    fn bytes(text: &str, name: RunName) -> Vec<u8> {
        let file = read(text.as_bytes());
        assert_eq!(file.faults().next(), None, "{text}");
        file.entries[0].bytes(name).to_vec()
    }

    #[test]
    fn labels_in_any_form() {
        for text in
            ["A 12 03", "a: 12 03", "A=1203", "  A : 12:03", "A\n12 03", "\u{FEFF}A 12 03\r\n"]
        {
            assert_eq!(bytes(text, RunName::A), [0x12, 3], "{text}");
        }
        assert_eq!(bytes("bgpls 0444", RunName::BgpLs), [4, 0x44]);
        assert_eq!(bytes("BGP-LS: 0444", RunName::BgpLs), [4, 0x44]);
        assert_eq!(bytes("12 03", RunName::A), [0x12, 3]);
    }

    #[test]
    fn a_line_without_a_word_goes_on() {
        let text = "link x\nA 01\nB 02\n03 04\nlink y\n05\n";
        let file = read(text.as_bytes());
        assert_eq!(file.entries[0].bytes(RunName::B), [2, 3, 4]);
        assert_eq!(file.entries[1].bytes(RunName::A), [5]);
        let run = file.entries[0].run(RunName::B).unwrap();
        assert_eq!((run.line_of(0), run.line_of(2)), (Some(3), Some(4)));
    }

    #[test]
    fn names_are_utf_8_and_end_at_a_comment() {
        let file = read("LINK Zürich – Genève # old\nA 00 00\nlink\nA".as_bytes());
        assert_eq!(file.entries[0].name.as_deref(), Some("Zürich – Genève"));
        assert_eq!(file.entries[1].name, None);
    }

    #[test]
    fn every_faulty_line_is_told() {
        let text = "link x\nA 12 0G\nD 12\nlink y\nA 12 03\nlink z\nÄ 00\nC 1\n";
        let file = read(text.as_bytes());
        let places: Vec<(usize, usize)> = file.faults().map(|f| (f.line, f.column)).collect();
        assert_eq!(places, [(2, 7), (3, 1), (7, 1), (8, 3)]);
        let faulty: Vec<bool> = file.entries.iter().map(|e| !e.faults.is_empty()).collect();
        assert_eq!(faulty, [true, false, true]);
    }

    #[test]
    fn columns_are_counted_in_characters() {
        let file = read("A 12 é".as_bytes());
        let fault = file.faults().next().unwrap();
        assert_eq!((fault.line, fault.column), (1, 6));
        assert!(fault.what.contains("'é'"));
    }
}
