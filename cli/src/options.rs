//! The command line.
use crate::library::Subject;
use crate::names::{parse_subject, Kind};

/// What is to be shown.
#[derive(Clone, Debug, PartialEq, Eq)]
pub enum Mode {
    Text,
    Brief,
    Json,
    BgpLs,
    /// A capture file of this name.
    Pcap(String),
    Why(Subject, Option<u16>),
}

/// What a command line asks for.
#[derive(Clone, Debug, PartialEq, Eq)]
pub enum Request {
    Help,
    Version,
    Show { mode: Mode, files: Vec<String> },
}

pub const HELP: &str = "\
inspect shows the links and BGP-LS runs of text files: every element and what
becomes of it, who gets what and why, and the exports.

  inspect FILE..                     everything; - is standard input
  inspect --brief FILE..             one line for each link
  inspect --why APP [CODE] FILE..    why APP gets what it gets, one line a fact;
                                     APP: sr-policy, lfa, flex-algo, rsvp-te,
                                     general, standard-6, user-5; CODE: 1092
  inspect --json FILE..              one JSON document a link, in one line
  inspect --bgpls FILE..             the exports as a file to be read again
  inspect --pcap CAPTURE FILE..      the exports as BGP UPDATEs for Wireshark
  inspect --help | --version

A line of a file is one of these; # begins a comment:
  link NAME                  the lines that follow are this link's
  A 12 03 00 00 0A           its sub-TLVs (of TLV 22 and the like), in hex
  B EE 19 ..                 its TLVs 238, whole
  C 00 00 00 64              its legacy SRLG values, four bytes each
  BGP-LS 0444 0004 ..        a BGP-LS run, the TLVs of a link's attribute 29
Lines of a run are joined. Small letters, 'A:', bytes as 12:03, 12-03, 12,03,
0x12 or 1203 are read too, and so are the dumps of xxd, hexdump -C, od -t x1
and Wireshark. A line of hex alone goes on with the run before it, or is A.

Status: 0, 1 if something was refused, 2 for a wrong command line or file.
";

/// Reads the arguments behind the program's name.
pub fn parse(arguments: impl IntoIterator<Item = String>) -> Result<Request, String> {
    let mut rest: std::collections::VecDeque<String> = arguments.into_iter().collect();
    let mut modes = Vec::new();
    let mut files = Vec::new();
    while let Some(argument) = rest.pop_front() {
        match argument.as_str() {
            "--help" | "-h" => return Ok(Request::Help),
            "--version" | "-V" => return Ok(Request::Version),
            "--brief" => modes.push(Mode::Brief),
            "--json" => modes.push(Mode::Json),
            "--bgpls" => modes.push(Mode::BgpLs),
            "--pcap" => {
                let file = rest.pop_front().ok_or("--pcap needs the name of a file to write")?;
                modes.push(Mode::Pcap(file));
            }
            "--why" => modes.push(why(&mut rest)?),
            "--" => files.extend(rest.drain(..)),
            other if other.starts_with('-') && other != "-" => {
                return Err(format!("there is no option {other}"));
            }
            _ => files.push(argument),
        }
    }
    if modes.len() > 1 {
        return Err("--brief, --json, --bgpls, --pcap and --why do not go together".into());
    }
    let mode = modes.pop().unwrap_or(Mode::Text);
    Ok(Request::Show { mode, files })
}

/// An application, and the code behind it if there is one.
fn why(rest: &mut std::collections::VecDeque<String>) -> Result<Mode, String> {
    let name =
        rest.pop_front().ok_or("--why needs an application: sr-policy, lfa, user-5, general ..")?;
    let whom = parse_subject(&name).ok_or(format!(
        "{name} is no application: sr-policy, lfa, standard-0 to 63, user-0 to 31, general .."
    ))?;
    let is_number = |text: &String| !text.is_empty() && text.bytes().all(|b| b.is_ascii_digit());
    let Some(text) = rest.front().filter(|t| is_number(t)).cloned() else {
        return Ok(Mode::Why(whom, None));
    };
    rest.pop_front();
    let code = text.parse().ok().filter(|code| Kind::of_code(*code).is_some());
    match code {
        Some(code) => Ok(Mode::Why(whom, Some(code))),
        None => Err(format!("{text} is no code of a kind: 1088 to 1092, 1096, 1114 to 1120, 1173")),
    }
}

#[cfg(test)]
mod tests {
    use super::*;

    fn of(line: &str) -> Result<Request, String> {
        parse(line.split_whitespace().map(String::from))
    }

    fn show(mode: Mode, files: &[&str]) -> Result<Request, String> {
        Ok(Request::Show { mode, files: files.iter().map(|f| f.to_string()).collect() })
    }

    #[test]
    fn modes_and_files() {
        assert_eq!(of("x.link - y.link"), show(Mode::Text, &["x.link", "-", "y.link"]));
        assert_eq!(of("--json x"), show(Mode::Json, &["x"]));
        assert_eq!(of("x --brief"), show(Mode::Brief, &["x"]));
        assert_eq!(of("--pcap out.pcap x"), show(Mode::Pcap("out.pcap".into()), &["x"]));
        assert_eq!(of("-- --json"), show(Mode::Text, &["--json"]));
        assert_eq!(of("--help --nonsense"), Ok(Request::Help));
    }

    #[test]
    fn why_takes_an_application_and_perhaps_a_code() {
        let sr = Subject::Standard(1);
        assert_eq!(of("--why sr-policy x"), show(Mode::Why(sr, None), &["x"]));
        assert_eq!(of("--why sr-policy 1092 x"), show(Mode::Why(sr, Some(1092)), &["x"]));
        assert!(of("--why sr-policy 1093 x").is_err());
        assert!(of("--why nobody x").is_err());
        assert!(of("--why").is_err());
    }

    #[test]
    fn what_is_not_known_is_refused() {
        assert!(of("--nonsense").is_err());
        assert!(of("-x").is_err());
        assert!(of("--json --brief x").is_err());
        assert!(of("--pcap").is_err());
    }

    #[test]
    fn the_help_fits_80_columns() {
        assert!(HELP.lines().all(|line| line.chars().count() <= 80));
    }
}
