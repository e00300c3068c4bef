//! Files read and shown, one after another.
use crate::input::{self, plain, Entry};
use crate::json;
use crate::library::{self, Refusal};
use crate::names::ranges;
use crate::options::Mode;
use crate::pcap::Capture;
use crate::reasons;
use crate::refusals;
use crate::report::{self, Item, Report};
use crate::text;
use std::fs::File;
use std::io::{self, BufWriter, Read, Write};

/// How it went: all is shown, something was refused, or a file is faulty. The worst counts.
#[derive(Clone, Copy, Debug, PartialEq, Eq, PartialOrd, Ord)]
pub enum Status {
    Fine = 0,
    Refused = 1,
    Faulty = 2,
}

/// Where things are shown, and how it went so far.
pub struct Show<'o> {
    mode: Mode,
    out: &'o mut dyn Write,
    errors: &'o mut dyn Write,
    capture: Option<Capture<BufWriter<File>>>,
    room: Vec<u8>,
    status: Status,
}

impl<'o> Show<'o> {
    /// Opens the capture file if there is to be one.
    pub fn new(
        mode: Mode,
        out: &'o mut dyn Write,
        errors: &'o mut dyn Write,
    ) -> Result<Show<'o>, String> {
        let capture = match &mode {
            Mode::Pcap(name) => {
                let told = |e: io::Error| format!("{name}: {}", reason(&e));
                let file = File::create(name).map_err(told)?;
                Some(Capture::new(BufWriter::new(file)).map_err(told)?)
            }
            _ => None,
        };
        Ok(Show { mode, out, errors, capture, room: library::room(), status: Status::Fine })
    }

    /// Reads and shows a file; `-` is standard input. An error is one of writing.
    pub fn file(&mut self, name: &str) -> io::Result<()> {
        let mut bytes = Vec::new();
        let read = match name {
            "-" => io::stdin().lock().read_to_end(&mut bytes),
            _ => File::open(name).and_then(|mut file| file.read_to_end(&mut bytes)),
        };
        let name = if name == "-" { "standard input" } else { name };
        match read {
            Ok(_) => self.bytes(name, &bytes),
            Err(e) => self.fault(&format!("{}: {}", plain(name), reason(&e))),
        }
    }

    /// Shows what a file holds.
    pub fn bytes(&mut self, name: &str, bytes: &[u8]) -> io::Result<()> {
        if let Some(at) = bytes.iter().position(|b| *b == 0) {
            let what = format!(
                "no text: a zero byte stands at offset {at}; inspect reads hex, as xxd prints it"
            );
            return self.fault(&format!("{}: {what}", plain(name)));
        }
        let file = input::read(bytes);
        for fault in file.faults() {
            let place = format!("{}:{}:{}", plain(name), fault.line, fault.column);
            self.fault(&format!("{place}: {}", fault.what))?;
        }
        if file.entries.is_empty() {
            self.fault(&format!("{}: no link in it", plain(name)))?;
        }
        for entry in &file.entries {
            if entry.faults.is_empty() {
                for item in report::items(name, entry) {
                    self.item(item)?;
                }
            } else {
                self.unread(name, entry)?;
            }
        }
        Ok(())
    }

    /// Ends the capture, and tells how it went.
    pub fn finish(mut self) -> io::Result<Status> {
        if let (Some(capture), Mode::Pcap(name)) = (self.capture.take(), &self.mode) {
            let links = capture.links;
            match capture.finish() {
                Ok(()) => {
                    let s = if links == 1 { "" } else { "s" };
                    writeln!(self.errors, "inspect: {name}: {links} UPDATE{s}")?;
                }
                Err(e) => {
                    let told = format!("{name}: {}", reason(&e));
                    self.fault(&told)?;
                }
            }
        }
        self.out.flush()?;
        Ok(self.status)
    }

    fn fault(&mut self, what: &str) -> io::Result<()> {
        self.status = Status::Faulty;
        writeln!(self.errors, "inspect: {what}")
    }

    /// An entry with a faulty line: what its bytes are is not known.
    fn unread(&mut self, file: &str, entry: &Entry) -> io::Result<()> {
        let name = entry.title(file);
        let mut lines: Vec<usize> = entry.faults.iter().map(|f| f.line).collect();
        lines.dedup();
        let s = if lines.len() == 1 { "" } else { "s" };
        let what = format!("{name}: not read, for faults in line{s} {}", ranges(&lines).join(", "));
        match self.mode {
            Mode::Text | Mode::Brief => writeln!(self.out, "link {what}"),
            Mode::Why(..) => writeln!(self.out, "{what}"),
            Mode::BgpLs => writeln!(self.out, "# {what}"),
            Mode::Json => writeln!(self.out, "{}", json::faulty(file, entry)),
            Mode::Pcap(_) => writeln!(self.errors, "inspect: {what}"),
        }
    }

    fn item(&mut self, item: Item) -> io::Result<()> {
        let report = Report::of(item);
        if report.facts.is_err() {
            self.status = self.status.max(Status::Refused);
        }
        let mut room = std::mem::take(&mut self.room);
        let export = report.item.source.export(&mut room).ok();
        let shown = self.report(&report, export);
        self.room = room;
        shown
    }

    fn report(&mut self, report: &Report, export: Option<&[u8]>) -> io::Result<()> {
        match self.mode {
            Mode::Text => text::write(self.out, report, export),
            Mode::Brief => writeln!(self.out, "{}", text::brief(report, export)),
            Mode::Json => writeln!(self.out, "{}", json::document(report, export)),
            Mode::BgpLs => bgp_ls(self.out, report, export),
            Mode::Pcap(_) => self.update(report, export),
            Mode::Why(whom, code) => match &report.facts {
                Ok(_) => text::lines(self.out, &reasons::lines(report, whom, code)),
                Err(refusal) => writeln!(self.out, "{}", refused(report, refusal)),
            },
        }
    }

    fn update(&mut self, report: &Report, export: Option<&[u8]>) -> io::Result<()> {
        let title = report.item.title();
        if let Err(refusal) = &report.facts {
            return writeln!(self.errors, "inspect: {}: left out", refused(report, refusal));
        }
        let (Some(bytes), Some(capture)) = (export, &mut self.capture) else {
            return Ok(());
        };
        match capture.add(bytes) {
            Ok(true) => Ok(()),
            Ok(false) => {
                let what = "too long for one BGP message: left out";
                writeln!(self.errors, "inspect: {title}: {} bytes, {what}", bytes.len())
            }
            Err(e) => self.fault(&format!("{title}: {}", reason(&e))),
        }
    }
}

fn refused(report: &Report, refusal: &Refusal) -> String {
    format!("{}: {}", report.item.title(), refusals::sentence(refusal))
}

/// An export in the form of a file of links; a refused link is a comment there.
fn bgp_ls(out: &mut dyn Write, report: &Report, export: Option<&[u8]>) -> io::Result<()> {
    if let Err(refusal) = &report.facts {
        return writeln!(out, "# {}", refused(report, refusal));
    }
    let name = report.item.entry.name.as_deref().map(plain).unwrap_or_default();
    writeln!(out, "{}", format!("link {name}").trim_end())?;
    let bytes = export.unwrap_or(&[]);
    if bytes.is_empty() {
        return writeln!(out, "BGP-LS");
    }
    for line in bytes.chunks(32) {
        writeln!(out, "BGP-LS {}", crate::values::hex(line))?;
    }
    Ok(())
}

/// Why a file cannot be read or written.
fn reason(error: &io::Error) -> String {
    match error.kind() {
        io::ErrorKind::NotFound => "there is no such file".into(),
        io::ErrorKind::IsADirectory => "this is a folder".into(),
        io::ErrorKind::PermissionDenied => "it may not be opened".into(),
        _ => error.to_string(),
    }
}
