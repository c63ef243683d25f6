//! The program as it is run: what it prints where, and what it ends with.

use std::process::{Command, Output, Stdio};

fn run(words: &[&str]) -> Output {
    Command::new(env!("CARGO_BIN_EXE_show")).args(words).output().unwrap()
}

fn ends(words: &[&str], status: i32, told: &str) {
    let output = run(words);
    assert_eq!(output.status.code(), Some(status), "{words:?}");
    assert!(output.stdout.is_empty(), "{words:?}");
    let error = String::from_utf8(output.stderr).unwrap();
    assert!(error.starts_with(told) && error.lines().count() == 1, "{words:?}: {error}");
}

#[test]
fn a_listing_goes_to_standard_output() {
    let output = run(&["36", "--pps"]);
    assert!(output.status.success() && output.stderr.is_empty());
    assert_eq!(String::from_utf8(output.stdout).unwrap(), include_str!("../stored/36_w_pps.txt"));
    assert!(run(&["--help"]).stdout.starts_with(b"usage: "));
}

#[test]
fn a_refusal_ends_with_1_and_bad_usage_with_2() {
    let refused = "show: refused (3): the cable carries less than 1 A, or more than 5 A";
    ends(&["36", "--cable", "0.99"], 1, refused);
    ends(&["36", "--cable", "2.255"], 2, "show: '2.255' is not a number of amperes");
    ends(&["7.3"], 2, "show: '7.3' is not a number of watts");
    ends(&["36", "x"], 2, "show: 'x' is not a number of watts");
}

#[cfg(unix)]
#[test]
fn words_that_are_not_utf_8_are_bad_usage() {
    use std::ffi::OsStr;
    use std::os::unix::ffi::OsStrExt;
    let odd = OsStr::from_bytes(b"\xFF36");
    let output = Command::new(env!("CARGO_BIN_EXE_show")).arg(odd).output().unwrap();
    assert_eq!(output.status.code(), Some(2));
}

#[cfg(unix)]
#[test]
fn a_reader_that_goes_away_is_no_failure() {
    use std::os::fd::OwnedFd;
    use std::os::unix::net::UnixStream;
    let (reader, writer) = UnixStream::pair().unwrap();
    drop(reader);
    let child = Command::new(env!("CARGO_BIN_EXE_show"))
        .stdout(OwnedFd::from(writer))
        .stderr(Stdio::piped())
        .spawn()
        .unwrap();
    let output = child.wait_with_output().unwrap();
    assert!(output.status.success() && output.stderr.is_empty(), "{output:?}");
}

#[cfg(target_os = "linux")]
#[test]
fn an_output_that_is_full_is_a_failure() {
    let full = std::fs::OpenOptions::new().write(true).open("/dev/full").unwrap();
    let output = Command::new(env!("CARGO_BIN_EXE_show"))
        .stdout(full)
        .stderr(Stdio::piped())
        .spawn()
        .unwrap()
        .wait_with_output()
        .unwrap();
    assert_eq!(output.status.code(), Some(1));
    assert!(output.stderr.starts_with(b"show: cannot write: "));
}
