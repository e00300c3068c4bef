//! The program: its command line, its streams and its status.
use inspect::options::{self, Mode, Request, HELP};
use inspect::show::{Show, Status};
use std::io::{self, BufWriter, IsTerminal, Write};
use std::process::ExitCode;

/// A question about SRLGs of a long BGP-LS run takes up to 2 MiB of stack.
const STACK: usize = 16 << 20;

fn main() -> ExitCode {
    let arguments: Result<Vec<String>, _> =
        std::env::args_os().skip(1).map(|a| a.into_string()).collect();
    let Ok(arguments) = arguments else {
        return wrong("an argument is not UTF-8");
    };
    let request = match options::parse(arguments) {
        Ok(request) => request,
        Err(what) => return wrong(&what),
    };
    let (mode, mut files) = match request {
        Request::Help => return printed(HELP),
        Request::Version => return printed(concat!("inspect ", env!("CARGO_PKG_VERSION"), "\n")),
        Request::Show { mode, files } => (mode, files),
    };
    if files.is_empty() && io::stdin().is_terminal() {
        eprint!("{HELP}");
        return ExitCode::from(2);
    }
    if files.is_empty() {
        files.push("-".into());
    }
    let work = std::thread::Builder::new().stack_size(STACK).spawn(move || show(mode, &files));
    match work.map(std::thread::JoinHandle::join) {
        Ok(Ok(code)) => code,
        _ => ExitCode::from(2),
    }
}

fn show(mode: Mode, files: &[String]) -> ExitCode {
    let mut out = BufWriter::with_capacity(1 << 16, io::stdout().lock());
    let mut errors = io::stderr();
    let mut show = match Show::new(mode, &mut out, &mut errors) {
        Ok(show) => show,
        Err(what) => return wrong(&what),
    };
    let done = files.iter().try_for_each(|name| show.file(name)).and_then(|()| show.finish());
    match done {
        Ok(status) => ExitCode::from(status as u8),
        Err(e) => unwritten(&e),
    }
}

fn printed(text: &str) -> ExitCode {
    match io::stdout().write_all(text.as_bytes()) {
        Ok(()) => ExitCode::from(Status::Fine as u8),
        Err(e) => unwritten(&e),
    }
}

/// Whoever closes the pipe has seen enough.
fn unwritten(error: &io::Error) -> ExitCode {
    if error.kind() == io::ErrorKind::BrokenPipe {
        return ExitCode::SUCCESS;
    }
    let _ = writeln!(io::stderr(), "inspect: cannot write: {error}");
    ExitCode::from(2)
}

fn wrong(what: &str) -> ExitCode {
    let _ = writeln!(io::stderr(), "inspect: {what}\nTry inspect --help.");
    ExitCode::from(2)
}
