//! The built program `verdict` on input that cannot be read whole and on output that cannot be written: it never judges a part of a trace,
//! and it says on standard error what failed. `rt run` in `crates/verdict` builds the program.

use std::fs::File;
use std::io::Write;
use std::net::{TcpListener, TcpStream};
use std::os::fd::OwnedFd;
use std::os::unix::net::UnixStream;
use std::path::PathBuf;
use std::process::{Command, Output, Stdio};

const PROGRAM: &str = concat!(env!("CARGO_MANIFEST_DIR"), "/../crates/verdict/out/verdict");
const ROWS: &[u8] =
    b"process,kind,file,offset,length,message\r\n0,write,1,0,10,\r\n0,commit,1,,,\r\n0,send,,,,7\r\n1,recv,,,,7\r\n1,wait,,,,7\r\n";
const LAST_ROW: &[u8] = b"1,read,1,5,10,\r\n";
const FREE: &[u8] = b"model,verdict,earlier,later\r\nposix,free,,\r\ncommit,free,,\r\nsession,free,,\r\nmpiio,free,,\r\n";
const RACES: &[u8] = b"model,verdict,earlier,later\r\nposix,free,,\r\ncommit,free,,\r\nsession,race,1,6\r\nmpiio,race,1,6\r\n";

/// Runs the program on these two descriptors.
fn run(stdin: Stdio, stdout: Stdio) -> Output {
    Command::new(PROGRAM).stdin(stdin).stdout(stdout).stderr(Stdio::piped()).output().expect("the program runs: rt run builds it")
}

/// Nothing on standard output, and one line on standard error that names the stream.
fn assert_failed(output: &Output, stream: &str, case: &str) {
    assert_eq!(output.stdout, b"", "{case}: standard output");
    let said = String::from_utf8_lossy(&output.stderr).into_owned();
    assert!(said.starts_with(&format!("verdict: {stream}: ")), "{case}: said {said:?}");
    assert_eq!(said.matches('\n').count(), 1, "{case}: one line");
}

/// Two ends of a connection over loopback.
fn connection() -> (TcpStream, TcpStream) {
    let listener = TcpListener::bind("127.0.0.1:0").expect("a port");
    let near = TcpStream::connect(listener.local_addr().expect("its address")).expect("a connection");
    let (far, _) = listener.accept().expect("the other end");
    (near, far)
}

#[test]
fn a_connection_that_ends_is_read_whole() {
    let (near, mut far) = connection();
    far.write_all(ROWS).expect("sent");
    far.write_all(LAST_ROW).expect("sent");
    drop(far);
    let output = run(Stdio::from(OwnedFd::from(near)), Stdio::piped());
    assert_eq!(output.stdout, RACES);
    assert_eq!(output.stderr, b"");
}

/// A peer that closes a connection with bytes that it has not read resets it: the rows arrive, and then the error.
#[test]
fn a_connection_that_is_reset_is_not_judged() {
    let (mut near, mut far) = connection();
    near.write_all(b"never read").expect("sent");
    far.write_all(ROWS).expect("sent");
    std::thread::sleep(std::time::Duration::from_millis(50));
    drop(far);
    let output = run(Stdio::from(OwnedFd::from(near)), Stdio::piped());
    assert_failed(&output, "standard input", "a reset connection");
}

#[test]
fn a_local_socket_that_is_reset_is_not_judged() {
    let (mut near, mut far) = UnixStream::pair().expect("a pair");
    near.write_all(b"never read").expect("sent");
    far.write_all(ROWS).expect("sent");
    drop(far);
    let output = run(Stdio::from(OwnedFd::from(near)), Stdio::piped());
    assert_failed(&output, "standard input", "a reset socket");
}

/// A slow writer at a descriptor that does not wait: the rows that came are not the trace.
#[test]
fn input_that_does_not_wait_is_not_judged() {
    let (near, mut far) = UnixStream::pair().expect("a pair");
    near.set_nonblocking(true).expect("a descriptor that does not wait");
    far.write_all(ROWS).expect("sent");
    let output = run(Stdio::from(OwnedFd::from(near)), Stdio::piped());
    assert_failed(&output, "standard input", "a descriptor that does not wait");
}

#[test]
fn a_directory_is_no_empty_trace() {
    let folder = File::open(env!("CARGO_MANIFEST_DIR")).expect("a directory");
    assert_failed(&run(Stdio::from(folder), Stdio::piped()), "standard input", "a directory");
}

#[test]
fn a_closed_input_is_no_empty_trace() {
    let output = Command::new("sh").args(["-c", &format!("exec {PROGRAM} <&-")]).output().expect("the shell runs");
    assert_failed(&output, "standard input", "a closed input");
}

/// A pipe whose writer stops within a row has ended: the row is refused, and no row before it is judged.
#[test]
fn a_pipe_that_is_closed_within_a_row_is_refused() {
    for cut in 1..LAST_ROW.len() - 2 {
        let mut child =
            Command::new(PROGRAM).stdin(Stdio::piped()).stdout(Stdio::piped()).stderr(Stdio::piped()).spawn().expect("the program starts");
        let mut pipe = child.stdin.take().expect("a pipe");
        pipe.write_all(ROWS).expect("written");
        pipe.write_all(&LAST_ROW[..cut]).expect("written");
        drop(pipe);
        let output = child.wait_with_output().expect("the program ends");
        let said = String::from_utf8_lossy(&output.stdout).into_owned();
        assert!(said.starts_with("refused,") && said.ends_with(",6\r\n"), "{cut} bytes of the last row: {said:?}");
    }
}

#[test]
fn a_full_device_is_told() {
    let full = File::options().write(true).open("/dev/full").expect("/dev/full");
    let output = run(Stdio::null(), Stdio::from(full));
    assert_failed(&output, "standard output", "a full device");
}

#[test]
fn a_closed_output_is_told() {
    let output = Command::new("sh").args(["-c", &format!("exec {PROGRAM} </dev/null >&-")]).output().expect("the shell runs");
    assert_failed(&output, "standard output", "a closed output");
}

/// A reader that is gone: the program says so. It ignores SIGPIPE, whether or not whoever starts it does.
#[test]
fn an_output_that_nobody_reads_is_told() {
    let (near, far) = UnixStream::pair().expect("a pair");
    drop(far);
    let output = run(Stdio::null(), Stdio::from(OwnedFd::from(near)));
    assert_failed(&output, "standard output", "an output that nobody reads");
    let (near, far) = UnixStream::pair().expect("a pair");
    drop(far);
    let output = Command::new("sh")
        .args(["-c", &format!("trap '' PIPE; exec {PROGRAM} </dev/null")])
        .stdout(Stdio::from(OwnedFd::from(near)))
        .stderr(Stdio::piped())
        .output()
        .expect("the shell runs");
    assert_failed(&output, "standard output", "an output that nobody reads");
}

/// A C library whose `read` and `write` answer an error at a given call, loaded before the system's.
fn shim() -> PathBuf {
    let folder = PathBuf::from(env!("CARGO_TARGET_TMPDIR"));
    let (source, library) = (folder.join("failing_calls.c"), folder.join("failing_calls.so"));
    std::fs::write(&source, include_str!("failing_calls.c")).expect("the source is written");
    let status = Command::new("cc").args(["-shared", "-fPIC", "-o"]).arg(&library).arg(&source).arg("-ldl").status().expect("cc runs");
    assert!(status.success(), "the shim is compiled");
    library
}

/// Reads come in parts of 40 bytes, and some of them are interrupted or fail.
#[test]
fn interrupted_calls_are_made_again_and_failed_ones_told() {
    let library = shim();
    let trace = PathBuf::from(env!("CARGO_TARGET_TMPDIR")).join("failing_calls.csv");
    std::fs::write(&trace, [ROWS, LAST_ROW].concat()).expect("the trace is written");
    let run = |read: &str, write: &str| {
        Command::new(PROGRAM)
            .env("LD_PRELOAD", &library)
            .env("FAILING_READ", read)
            .env("FAILING_WRITE", write)
            .stdin(File::open(&trace).expect("the trace"))
            .output()
            .expect("the program runs")
    };
    assert_eq!(run("", "").stdout, RACES, "no call fails");
    for call in 1..=5 {
        let interrupted = run(&format!("{call} 4"), &format!("{call} 4"));
        assert_eq!(interrupted.stdout, RACES, "call {call} is interrupted");
        assert_eq!(interrupted.stderr, b"", "call {call} is interrupted");
        assert_failed(&run(&format!("{call} 5"), ""), "standard input", &format!("read {call} fails"));
    }
    let said = String::from_utf8_lossy(&run("", "2 5").stderr).into_owned();
    assert!(said.starts_with("verdict: standard output: "), "write 2 fails: {said:?}");
}

#[test]
fn the_rows_before_a_failure_alone_would_be_free() {
    let mut child = Command::new(PROGRAM).stdin(Stdio::piped()).stdout(Stdio::piped()).spawn().expect("the program starts");
    child.stdin.take().expect("a pipe").write_all(ROWS).expect("written");
    assert_eq!(child.wait_with_output().expect("the program ends").stdout, FREE);
}
