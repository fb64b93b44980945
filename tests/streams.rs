//! The program `mend` on streams that fail, for good or for a while: it must say so, or go on as if nothing had been.

use crate::ledger::{differ, Ledger};
use outside::oracle::text::printed;
use outside::sheet::{EXAMPLE_FILE, EXAMPLE_TEXT};
use std::fs::File;
use std::io::{pipe, PipeReader, PipeWriter, Read, Write};
use std::os::fd::AsRawFd;
use std::os::unix::process::ExitStatusExt;
use std::path::{Path, PathBuf};
use std::process::{Child, Command, Stdio};
use std::thread::{scope, sleep};
use std::time::{Duration, Instant};

const UNREADABLE: &str = "mend: the input cannot be read\n";
const UNWRITTEN: &str = "mend: the output cannot be written\n";
const REFUSED: &str = "refused 20\n";

/// A wait that the program must ride out: it tries for a second at least.
const A_WHILE: Duration = Duration::from_millis(250);
/// A run that fails for good tries at most four times, for little more than two seconds each.
const LONGEST_RUN: Duration = Duration::from_secs(15);

type Case = fn(&str);

/// Most runs wait for a second or two, so they go side by side; those that must be through in time only when the others have ended.
pub fn runs(ledger: &mut Ledger, path: &str) {
    let fail: [Case; 12] = [
        full_device,
        full_device_and_no_error_output,
        closed_output,
        output_that_nobody_reads,
        output_that_nobody_reads_without_a_signal,
        full_pipe,
        room_for_a_part,
        closed_input,
        directory_as_input,
        memory_that_is_not_there,
        pipe_without_data,
        nothing_works,
    ];
    let recover: [Case; 4] = [pipe_that_is_drained, room_for_a_part_at_first, data_in_pieces, long_data_in_pieces];
    for cases in [&fail[..], &recover] {
        scope(|scope| cases.iter().for_each(|case| drop(scope.spawn(|| case(path)))));
        cases.iter().for_each(|_| ledger.count_run());
    }
}

// ---- output that fails

fn full_device(path: &str) {
    let run = start(program(path).stdin(example()).stdout(full()));
    hold("a full device as output", run, "", UNWRITTEN);
}

fn full_device_and_no_error_output(path: &str) {
    let run = start(shell(path, "exec \"$0\" 2>&-").stdin(example()).stdout(full()));
    hold("a full device as output, error output closed", run, "", "");
}

fn closed_output(path: &str) {
    let run = start(shell(path, "exec \"$0\" >&-").stdin(example()));
    hold("closed output", run, "", UNWRITTEN);
}

/// The system's signal does not end the program, since each Rattle program begins by ignoring it: the write fails like any other.
fn output_that_nobody_reads(path: &str) {
    let run = start(program(path).stdin(example()).stdout(unread()));
    hold("a pipe that nobody reads", run, "", UNWRITTEN);
}

fn output_that_nobody_reads_without_a_signal(path: &str) {
    let run = start(shell(path, "trap '' PIPE; exec \"$0\"").stdin(example()).stdout(unread()));
    hold("a pipe that nobody reads, signal ignored", run, "", UNWRITTEN);
}

fn full_pipe(path: &str) {
    let (_reader, writer, _) = filled_pipe();
    let run = start(program(path).stdin(example()).stdout(writer));
    hold("a pipe that stays full", run, "", UNWRITTEN);
}

fn pipe_that_is_drained(path: &str) {
    let what = "a full pipe that is drained later";
    let (mut reader, writer, filling) = filled_pipe();
    let run = start(program(path).stdin(example()).stdout(writer));
    sleep(A_WHILE);
    let mut found = Vec::new();
    reader.read_to_end(&mut found).expect("what was written");
    hold(what, run, "", "");
    if found[filling..] != *EXAMPLE_TEXT.as_bytes() {
        differ(&format!("mend with {what} as output prints {}", String::from_utf8_lossy(&found[filling..])));
    }
}

fn room_for_a_part(path: &str) {
    let folder = Folder::new("a part");
    let run = with_room(path, &folder, 20);
    hold("a file with room for a part of the text", run, "", UNWRITTEN);
    folder.hold("output", &EXAMPLE_TEXT[..20]);
}

fn room_for_a_part_at_first(path: &str) {
    let folder = Folder::new("a part at first");
    let run = with_room(path, &folder, 20);
    sleep(A_WHILE);
    folder.hold("output", &EXAMPLE_TEXT[..20]);
    limit_files(&run, u64::MAX);
    hold("a file with room for a part of the text, and then for all", run, "", "");
    folder.hold("output", EXAMPLE_TEXT);
}

/// A run with a file as output that may grow to so many bytes. It has its input only then.
fn with_room(path: &str, folder: &Folder, size: u64) -> Child {
    let (reader, mut writer) = pipe().expect("a pipe");
    let output = File::create(folder.file("output", b"")).expect("a new file");
    let run = start(shell(path, "trap '' XFSZ; exec \"$0\"").stdin(reader).stdout(output));
    limit_files(&run, size);
    // a program that has ended early is seen by the caller
    let _ = writer.write_all(&EXAMPLE_FILE);
    run
}

// ---- input that fails

fn closed_input(path: &str) {
    hold("closed input", start(&mut shell(path, "exec \"$0\" <&-")), REFUSED, UNREADABLE);
}

fn directory_as_input(path: &str) {
    hold("a directory as input", start(program(path).stdin(open("/"))), REFUSED, UNREADABLE);
}

/// A read at address 0 of a process is an error of the device.
fn memory_that_is_not_there(path: &str) {
    hold("memory as input", start(program(path).stdin(open("/proc/self/mem"))), REFUSED, UNREADABLE);
}

fn pipe_without_data(path: &str) {
    let (reader, _writer) = unready_pipe();
    hold("a pipe without data", start(program(path).stdin(reader)), REFUSED, UNREADABLE);
}

fn data_in_pieces(path: &str) {
    in_pieces(path, &EXAMPLE_FILE, &[1, 8, 41], EXAMPLE_TEXT);
}

/// The first piece is a whole file by itself, and the next shows that it is not.
fn long_data_in_pieces(path: &str) {
    in_pieces(path, &long_file(), &[41, 42], REFUSED);
}

/// A pipe that is not ready before each piece. The pieces end at the places given, the last at the file's end.
fn in_pieces(path: &str, file: &[u8], places: &[usize], text: &str) {
    let (reader, mut writer) = unready_pipe();
    let run = start(program(path).stdin(reader));
    let mut from = 0;
    for &place in places.iter().chain([&file.len()]) {
        sleep(A_WHILE);
        // a program that has ended early is seen below
        let _ = writer.write_all(&file[from..place]);
        from = place;
    }
    sleep(A_WHILE);
    drop(writer);
    hold("a pipe whose data comes in pieces", run, text, "");
}

// ---- everything at once

fn nothing_works(path: &str) {
    let run = start(shell(path, "exec \"$0\" <&- 2>&-").stdout(full()));
    hold("closed input and error output, a full device as output", run, "", "");
}

// ---- calls that are made to fail, by strace

/// Whether there is an strace that may trace.
pub fn strace_works() -> bool {
    let mut probe = Command::new("strace");
    probe.args(["-o", "/dev/null", "-e", "inject=read:error=EINTR:when=1..5", "-P", "/nowhere", "true"]);
    probe.stdout(Stdio::null()).stderr(Stdio::null()).status().is_ok_and(|status| status.success())
}

/// Calls that fail for a while are ridden out; calls that always fail are reported, which also shows that strace does its work.
pub fn interrupted_runs(ledger: &mut Ledger, path: &str) {
    let whiles = ["EINTR", "EAGAIN"].map(|error| ["1", "2", "1..5"].map(|when| format!("error={error}:when={when}")));
    let runs: usize = scope(|scope| {
        let ridden_out = whiles.as_flattened().iter().map(|fault| scope.spawn(|| ridden_out(path, fault)));
        let given_up = ["error=EIO", "error=EIO:when=2+"].map(|fault| scope.spawn(|| given_up(path, fault)));
        let cases: Vec<_> = ridden_out.chain(given_up).collect();
        cases.into_iter().map(|case| case.join().expect("a case that ends")).sum()
    });
    (0..runs).for_each(|_| ledger.count_run());
}

/// Answers how many runs it made.
fn ridden_out(path: &str, fault: &str) -> usize {
    let folder = Folder::new(fault);
    let files = [EXAMPLE_FILE.to_vec(), long_file(), vec![0; 585], vec![]];
    files.iter().for_each(|file| reads_that_fail(path, &folder, fault, file, &printed(file), ""));
    writes_that_fail(path, &folder, fault, EXAMPLE_TEXT, "");
    interrupted_between_pieces(path, &folder, fault);
    files.len() + 2
}

/// Answers how many runs it made.
fn given_up(path: &str, fault: &str) -> usize {
    let folder = Folder::new(fault);
    reads_that_fail(path, &folder, fault, &EXAMPLE_FILE, REFUSED, UNREADABLE);
    if fault == "error=EIO" {
        writes_that_fail(path, &folder, fault, "", UNWRITTEN);
        return 2;
    }
    1
}

fn reads_that_fail(path: &str, folder: &Folder, fault: &str, file: &[u8], text: &str, errors: &str) {
    let input = folder.file("input", file);
    let run = start(strace(path, "read", fault, &input).stdin(open(&input)));
    hold(&format!("reads with {fault}"), run, text, errors);
}

fn writes_that_fail(path: &str, folder: &Folder, fault: &str, text: &str, errors: &str) {
    let output = folder.file("output", b"");
    let file = File::create(&output).expect("a new file");
    let run = start(strace(path, "write", fault, &output).stdin(example()).stdout(file));
    hold(&format!("writes with {fault}"), run, "", errors);
    folder.hold("output", text);
}

/// A file that is too long comes in two pieces, of which the first is a whole file by itself.
fn interrupted_between_pieces(path: &str, folder: &Folder, fault: &str) {
    let fifo = folder.fifo("pieces");
    let file = long_file();
    // opened for reading and writing at once, it waits for no other side
    let mut writer = File::options().read(true).write(true).open(&fifo).expect("a pipe");
    let reader = open(&fifo);
    writer.write_all(&file[..41]).expect("a pipe that is read");
    let run = start(strace(path, "read", fault, &fifo).stdin(reader));
    sleep(A_WHILE);
    writer.write_all(&file[41..]).expect("a pipe that is read");
    drop(writer);
    hold(&format!("two pieces, reads with {fault}"), run, REFUSED, "");
}

/// The program, with a fault in its calls that touch a file.
fn strace(path: &str, call: &str, fault: &str, touched: &Path) -> Command {
    let mut command = program("strace");
    command.args(["-o", "/dev/null", "-e", &format!("inject={call}:{fault}"), "-P"]).arg(touched).arg(path);
    command
}

// ---- how a run is made

/// The program without input, and with pipes for its output and its errors.
fn program(path: &str) -> Command {
    let mut command = Command::new(path);
    command.stdin(Stdio::null()).stdout(Stdio::piped()).stderr(Stdio::piped());
    command
}

/// A shell that puts the program in its own place.
fn shell(path: &str, script: &str) -> Command {
    let mut command = program("sh");
    command.args(["-c", script, path]);
    command
}

fn start(command: &mut Command) -> Child {
    match command.spawn() {
        Ok(child) => child,
        Err(reason) => differ(&format!("{command:?} can't be run: {reason}")),
    }
}

struct Ended {
    text: String,
    errors: String,
    signal: Option<i32>,
}

/// Waits for the end of a run.
fn ended(what: &str, mut run: Child) -> Ended {
    let began = Instant::now();
    let status = loop {
        if let Some(status) = run.try_wait().expect("a child") {
            break status;
        }
        if began.elapsed() > LONGEST_RUN {
            run.kill().expect("a child");
            differ(&format!("mend does not end: {what}"));
        }
        sleep(Duration::from_millis(5));
    };
    let text = run.stdout.take().map_or(String::new(), all_of);
    let errors = run.stderr.take().map_or(String::new(), all_of);
    Ended { text, errors, signal: status.signal() }
}

fn hold(what: &str, run: Child, text: &str, errors: &str) {
    let end = ended(what, run);
    if end.signal.is_some() || end.text != text || end.errors != errors {
        let expected = format!("expected:\n{text}errors: {errors}");
        differ(&format!("mend, {what}: signal {:?}\n{}errors: {}\n{expected}", end.signal, end.text, end.errors));
    }
}

fn all_of(mut stream: impl Read) -> String {
    let mut bytes = Vec::new();
    stream.read_to_end(&mut bytes).expect("a stream that is read");
    String::from_utf8_lossy(&bytes).into_owned()
}

// ---- files and pipes

/// The example with more bytes behind it than any file has.
fn long_file() -> Vec<u8> {
    let mut file = EXAMPLE_FILE.to_vec();
    file.resize(700, 0);
    file
}

fn open(path: impl AsRef<Path>) -> File {
    File::open(path).expect("a file that can be opened")
}

fn full() -> File {
    File::options().write(true).open("/dev/full").expect("the full device")
}

/// A pipe that holds the example.
fn example() -> PipeReader {
    let (reader, mut writer) = pipe().expect("a pipe");
    writer.write_all(&EXAMPLE_FILE).expect("an empty pipe");
    reader
}

/// A pipe whose reading end is closed.
fn unread() -> PipeWriter {
    pipe().expect("a pipe").1
}

/// A pipe whose reading end answers at once where there is no data.
fn unready_pipe() -> (PipeReader, PipeWriter) {
    let (reader, writer) = pipe().expect("a pipe");
    answer_at_once(&reader);
    (reader, writer)
}

/// A pipe that is full, with how many bytes, and whose writing end answers at once.
fn filled_pipe() -> (PipeReader, PipeWriter, usize) {
    let (reader, mut writer) = pipe().expect("a pipe");
    answer_at_once(&writer);
    let mut filling = 0;
    while let Ok(size) = writer.write(&[b'x'; 4096]) {
        filling += size;
    }
    (reader, writer, filling)
}

extern "C" {
    fn fcntl(descriptor: i32, command: i32, ...) -> i32;
    fn mkfifo(path: *const std::ffi::c_char, mode: u32) -> i32;
    fn prlimit(process: i32, resource: i32, new: *const [u64; 2], old: *mut [u64; 2]) -> i32;
}

/// Sets O_NONBLOCK.
fn answer_at_once(end: &impl AsRawFd) {
    const F_SETFL: i32 = 4;
    const O_NONBLOCK: i32 = 0o4000;
    // SAFETY: the descriptor is open, and the flag is a number.
    let done = unsafe { fcntl(end.as_raw_fd(), F_SETFL, O_NONBLOCK) };
    assert_eq!(done, 0, "a pipe takes the flag");
}

/// Sets how long a file may grow by a run's writes, as far as its hard limit goes.
fn limit_files(run: &Child, size: u64) {
    const RLIMIT_FSIZE: i32 = 1;
    let mut limits = [0; 2];
    // SAFETY: the two words are a struct rlimit, and either pointer may be null.
    let seen = unsafe { prlimit(run.id() as i32, RLIMIT_FSIZE, std::ptr::null(), &mut limits) };
    limits[0] = size.min(limits[1]);
    // SAFETY: as above.
    let set = unsafe { prlimit(run.id() as i32, RLIMIT_FSIZE, &limits, std::ptr::null_mut()) };
    assert_eq!((seen, set), (0, 0), "a child's limit can be set");
}

/// A folder for the files of these runs, removed with all of them at the end.
struct Folder(PathBuf);

impl Folder {
    fn new(name: &str) -> Folder {
        let path = std::env::temp_dir().join(format!("mend {name} {}", std::process::id()));
        std::fs::create_dir_all(&path).expect("a new folder");
        Folder(path.canonicalize().expect("a folder"))
    }

    fn file(&self, name: &str, bytes: &[u8]) -> PathBuf {
        let path = self.0.join(name);
        std::fs::write(&path, bytes).expect("a new file");
        path
    }

    /// Holds what a run has written to a file.
    fn hold(&self, name: &str, text: &str) {
        let found = std::fs::read(self.0.join(name)).expect("what was written");
        if found != text.as_bytes() {
            differ(&format!("mend has written:\n{}\nand not:\n{text}", String::from_utf8_lossy(&found)));
        }
    }

    fn fifo(&self, name: &str) -> PathBuf {
        let path = self.0.join(name);
        let _ = std::fs::remove_file(&path);
        let c_path = std::ffi::CString::new(path.to_str().expect("a plain name")).expect("no zero in it");
        // SAFETY: the path ends with a zero.
        assert_eq!(unsafe { mkfifo(c_path.as_ptr(), 0o600) }, 0, "a new pipe");
        path
    }
}

impl Drop for Folder {
    fn drop(&mut self) {
        let _ = std::fs::remove_dir_all(&self.0);
    }
}
