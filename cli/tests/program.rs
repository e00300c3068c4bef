//! The program as it is called: streams and statuses.
use std::io::{Read, Write};
use std::path::Path;
use std::process::{Command, Output, Stdio};

const M_Z_G: &str =
    "link M Z G\nA 12 03 00 00 0A\nA 10 03 81 00 40\nA 10 07 00 00 12 03 00 00 1E\n";

fn program(arguments: &[&str]) -> Command {
    let mut command = Command::new(env!("CARGO_BIN_EXE_inspect"));
    command.args(arguments).stdin(Stdio::piped()).stdout(Stdio::piped()).stderr(Stdio::piped());
    command
}

/// What it prints on both streams, given something to read, and its status.
fn run(arguments: &[&str], input: &str) -> (String, String, Option<i32>) {
    let mut child = program(arguments).spawn().unwrap();
    // A program that does not read closes the pipe, which is no fault of it.
    let _ = child.stdin.take().unwrap().write_all(input.as_bytes());
    let Output { stdout, stderr, status } = child.wait_with_output().unwrap();
    (String::from_utf8(stdout).unwrap(), String::from_utf8(stderr).unwrap(), status.code())
}

#[test]
fn all_is_shown() {
    let (out, errors, status) = run(&["-"], M_Z_G);
    assert!(out.starts_with("link M Z G: A 19, B 0, C 0 bytes; names SR Policy; export 44 bytes\n"));
    assert!(out.contains("the ASLA at A 5 names it with the L-flag, byte A 7, so legacy"));
    assert_eq!((errors.as_str(), status), ("", Some(0)));
    assert_eq!(run(&[], M_Z_G).0, out);
}

#[test]
fn a_refusal_is_status_1() {
    let text = "link x\nA 12 03 00 00 0A 12 03 00 00 0B 10 08 00 00 12 04 01 02 03 04\n";
    let (out, errors, status) = run(&["--brief"], text);
    let expected = "refused 4, run A at 14: TE metric (type 18) has length 4, must be 3 (line 2)\n";
    assert!(out.ends_with(expected), "{out}");
    assert_eq!((errors.as_str(), status), ("", Some(1)));
}

#[test]
fn a_kind_twice_is_told_with_both_places() {
    let (out, _, status) = run(&["--brief"], "A 10 0D 01 00 40 12 03 00 00 14\nA 12 03 00 00 15\n");
    let expected = "refused 8, run A at 10: TE metric (type 18) stands twice in its ASLA, first at 5 (line 2)\n";
    assert!(out.ends_with(expected), "{out}");
    assert_eq!(status, Some(1));
    let run_text = "BGP-LS 0462 0010 04000000 40000000 0448 0000 0448 0000\n";
    let (out, _, status) = run(&["--brief"], run_text);
    let expected = "refused 8, run BGP-LS at 16: SRLG (type 1096) stands twice in its ASLA, first at 12 (line 1)\n";
    assert!(out.ends_with(expected), "{out}");
    assert_eq!(status, Some(1));
}

#[test]
fn a_faulty_line_is_status_2_and_the_rest_is_shown() {
    let text = format!("link x\nA 12 0G\n{M_Z_G}");
    let (out, errors, status) = run(&["--brief"], &text);
    assert_eq!(out.lines().count(), 2);
    assert!(out.contains("link M Z G: A 19"));
    assert_eq!(errors, "inspect: standard input:2:7: no hex digit: here stands 'G'\n");
    assert_eq!(status, Some(2));
}

#[test]
fn bytes_that_are_no_text_are_one_fault() {
    let (out, errors, status) = run(&["-"], "A 12 03\0\nnothing\n");
    assert_eq!((out.as_str(), status), ("", Some(2)));
    assert_eq!(errors.lines().count(), 1, "{errors}");
    assert!(errors.contains("a zero byte stands at offset 7"), "{errors}");
}

#[test]
fn faulty_lines_are_told_in_ranges() {
    let (out, errors, status) = run(&["--brief", "-"], "link x\nq\nq\nA 12\nq\n");
    assert_eq!((out.as_str(), status), ("link x: not read, for faults in lines 2-3, 5\n", Some(2)));
    assert_eq!(errors.lines().count(), 3, "{errors}");
}

#[test]
fn a_wrong_command_line_is_status_2() {
    for arguments in [&["--nonsense"][..], &["--why"], &["--why", "nobody"], &["--json", "--brief"]]
    {
        let (out, errors, status) = run(arguments, "");
        assert_eq!((out.as_str(), status), ("", Some(2)), "{arguments:?}");
        assert!(errors.starts_with("inspect: "), "{errors}");
    }
    let (_, errors, status) = run(&["no-such-file.link"], "");
    assert_eq!(errors, "inspect: no-such-file.link: there is no such file\n");
    assert_eq!(status, Some(2));
}

#[test]
fn help_and_version() {
    let (out, _, status) = run(&["--help"], "");
    assert!(out.contains("--why APP [CODE]"));
    assert_eq!(status, Some(0));
    assert_eq!(run(&["--version"], "").0, concat!("inspect ", env!("CARGO_PKG_VERSION"), "\n"));
}

#[test]
fn why_tells_one_fact_a_line() {
    let (out, _, status) = run(&["--why", "sr-policy", "1092", "-"], M_Z_G);
    let expected = "M Z G: SR Policy: 1092 TE metric: 10: \
        the ASLA at A 5 names it with the L-flag, byte A 7, so legacy; value at A 2\n";
    assert_eq!((out.as_str(), status), (expected, Some(0)));
}

#[test]
fn the_general_set_of_rsvp_te_is_told_as_such() {
    let g = "link G\nA 10 07 00 00 12 03 00 00 1E\n";
    let (out, _, status) = run(&["--why", "rsvp-te", "1092", "-"], g);
    let expected = "G: RSVP-TE: 1092 TE metric: 30: \
        no ASLA names it and legacy has none of its kinds, so the general ASLA at A 0; value at A 6\n";
    assert_eq!((out.as_str(), status), (expected, Some(0)));
    let note = "\"note\":\"general: for all not named, RSVP-TE too\"";
    assert!(run(&["--json", "-"], g).0.contains(note));
    let shut_out = format!("{g}A 03 04 00 00 00 05\n");
    assert!(run(&["--json", "-"], &shut_out).0.contains("\"note\":\"general: for all not named\""));
}

#[test]
fn retired_bits_are_told_as_ignored() {
    let text =
        "A 10 0F 00 08 04 00 00 00 00 00 00 81 12 03 00 00 14 10 08 01 05 00 00 00 00 00 80\n";
    let (out, _, status) = run(&["--json", "-"], text);
    let names = "\"note\":\"names user 5 (retired user bits 56, 63 ignored)\"";
    let neither = "\"note\":\"neither (retired user bit 32 ignored): its masks have no other bit";
    assert!(out.contains(names) && out.contains(neither), "{out}");
    assert!(
        out.contains("\"named\":[\"user 5\"]") && out.contains("\"retired_user_bits\":[56,63]")
    );
    assert_eq!(status, Some(0));
}

#[test]
fn a_closed_pipe_is_quiet() {
    let many = M_Z_G.repeat(2000);
    let mut child = program(&[]).spawn().unwrap();
    let mut input = child.stdin.take().unwrap();
    let writer = std::thread::spawn(move || {
        let _ = input.write_all(many.as_bytes());
    });
    let mut first = [0; 10];
    child.stdout.take().unwrap().read_exact(&mut first).unwrap();
    let Output { stderr, status, .. } = child.wait_with_output().unwrap();
    writer.join().unwrap();
    assert_eq!((String::from_utf8(stderr).unwrap().as_str(), status.code()), ("", Some(0)));
}

#[test]
fn a_capture_is_written() {
    let file = Path::new(env!("CARGO_TARGET_TMPDIR")).join("m-z-g.pcap");
    let (out, errors, status) = run(&["--pcap", file.to_str().unwrap(), "-"], M_Z_G);
    assert_eq!((out.as_str(), status), ("", Some(0)));
    assert!(errors.ends_with("m-z-g.pcap: 1 UPDATE\n"), "{errors}");
    let bytes = std::fs::read(&file).unwrap();
    assert_eq!(bytes[..4], 0xA1B2_C3D4u32.to_le_bytes());
    assert_eq!(bytes.len(), 24 + 16 + 40 + 165);
}
