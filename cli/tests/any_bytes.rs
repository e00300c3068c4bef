//! Any bytes as input: something is shown or told, lines keep to their widths, and JSON is JSON.
mod common;

use common::{file_of, file_of_run, shown, some_link, some_run, with_stack};
use differential::random::Random;
use inspect::input;
use inspect::library::Subject;
use inspect::options::Mode;
use inspect::report::{self, Report};
use inspect::show::Status;

const MODES: [Mode; 5] =
    [Mode::Text, Mode::Brief, Mode::Json, Mode::BgpLs, Mode::Why(Subject::Standard(1), None)];

/// Random bytes, random words of a file, or a file that is damaged.
fn some_text(case: u64) -> Vec<u8> {
    let random = &mut Random::new(9, case);
    let words = [
        "link ",
        "A ",
        "B: ",
        "c=",
        "BGP-LS ",
        "\n",
        "\r\n",
        "# x\n",
        "12 03 00 00 0A",
        "0x",
        "10 08 01 00 40 ",
        "0000  ",
        "00000000: ",
        "*",
        " .....",
        "\u{FEFF}",
        "Zürich",
        "\0",
        "EE 19 ",
        "\u{1B}[31m",
        "  ",
        "|",
    ];
    match case % 3 {
        0 => {
            let length = random.below(200);
            random.bytes(length)
        }
        1 => {
            let picked: Vec<&str> = (0..random.below(40)).map(|_| random.pick(&words)).collect();
            picked.concat().into_bytes()
        }
        _ => {
            let mut text = file_of(&some_link(case)).into_bytes();
            for _ in 0..random.between(1, 5) {
                let at = random.below(text.len());
                text[at] = random.byte();
            }
            text
        }
    }
}

#[test]
fn nothing_panics() {
    with_stack(|| {
        for case in 0..20_000 {
            let text = some_text(case);
            for mode in MODES {
                let (out, errors, status) = shown(mode, &text);
                let told = !out.is_empty() || !errors.is_empty();
                assert!(told, "{text:?}");
                assert_eq!(status == Status::Faulty, !errors.is_empty(), "{errors}");
                assert!(!out.contains('\u{1B}') && !errors.contains('\u{1B}'), "{text:?}");
            }
        }
    });
}

/// How many groups of applications a file's link has; none where it is refused.
fn groups(file: &str) -> usize {
    let read = input::read(file.as_bytes());
    let report = Report::of(report::items("random", &read.entries[0]).remove(0));
    report.facts.map_or(0, |facts| facts.columns.len() - 2)
}

#[test]
fn lines_keep_to_their_widths() {
    with_stack(|| {
        let links = (0..3000).map(|case| file_of(&some_link(case)));
        let runs = (0..1000).map(|case| file_of_run(&some_run(case)));
        let mut wide = 0;
        for file in links.chain(runs) {
            let most = if groups(&file) <= 4 { 80 } else { 120 };
            wide += usize::from(most == 120);
            // The first line is one line, however long.
            let (out, _, _) = shown(Mode::Text, file.as_bytes());
            assert!(out.lines().skip(1).all(|l| l.chars().count() <= most), "{out}");
        }
        assert!(wide > 10, "few links have more than four groups: {wide}");
    });
}

#[test]
fn documents_are_json() {
    with_stack(|| {
        for case in 0..2000 {
            for file in [file_of(&some_link(case)), file_of_run(&some_run(case))] {
                for line in shown(Mode::Json, file.as_bytes()).0.lines() {
                    let mut rest = line;
                    assert!(value(&mut rest) && rest.is_empty(), "{line}");
                }
            }
        }
    });
}

/// Takes a JSON value from the front of a text.
fn value(rest: &mut &str) -> bool {
    for word in ["null", "true", "false"] {
        if let Some(behind) = rest.strip_prefix(word) {
            *rest = behind;
            return true;
        }
    }
    match rest.as_bytes().first() {
        Some(b'"') => text(rest),
        Some(b'[') => items(rest, ']', value),
        Some(b'{') => items(rest, '}', |rest| text(rest) && take(rest, ':') && value(rest)),
        _ => number(rest),
    }
}

fn take(rest: &mut &str, c: char) -> bool {
    match rest.strip_prefix(c) {
        Some(behind) => {
            *rest = behind;
            true
        }
        None => false,
    }
}

fn items(rest: &mut &str, end: char, item: fn(&mut &str) -> bool) -> bool {
    *rest = &rest[1..];
    if take(rest, end) {
        return true;
    }
    while item(rest) {
        if take(rest, end) {
            return true;
        }
        if !take(rest, ',') {
            return false;
        }
    }
    false
}

fn text(rest: &mut &str) -> bool {
    let mut escaped = false;
    for (i, c) in rest.char_indices().skip(1) {
        match c {
            _ if escaped => escaped = false,
            '\\' => escaped = true,
            '"' => {
                *rest = &rest[i + 1..];
                return true;
            }
            c if c < ' ' => return false,
            _ => {}
        }
    }
    false
}

fn number(rest: &mut &str) -> bool {
    let end =
        rest.find(|c: char| !c.is_ascii_digit() && !"-.eE+".contains(c)).unwrap_or(rest.len());
    let digits = &rest[..end];
    *rest = &rest[end..];
    digits.parse::<f64>().is_ok()
}
