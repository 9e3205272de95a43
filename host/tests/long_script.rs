//! The program `names` itself, built by the gate, on a script of 200,000 lines: from a pipe that holds much at a time, and from one that
//! delivers a byte at a time. The program may take no more memory than it has from the start, and prints what the model says, to the letter.

use std::fmt::Write as _;
use std::fs;
use std::io::{Read, Write};
use std::path::Path;
use std::process::{ChildStdin, Command, Stdio};
use std::thread;
use wort_host::chance::Chance;
use wort_host::{names, Model, X86_64};

const LINES: usize = 200_000;

/// Kilobytes of memory that the program may take behind its first answer: a fifth of the script. An emulator's are counted too.
const MORE: u64 = 1024;

fn script() -> Vec<u8> {
    let mut chance = Chance::new(20);
    let mut keys: Vec<u64> = (0..220).map(|_| chance.word()).collect();
    keys.extend((0..80).map(|i| 0xabc << 52 | i << 4));
    let mut text = String::new();
    for _ in 0..LINES {
        let key = chance.pick(&keys);
        let line = match chance.below(200) {
            0..=79 => format!("P\t{key:016x}\t{}", chance.word() >> chance.below(64)),
            80..=129 => format!("D\t{key:016x}"),
            130..=177 => format!("G\t{key:016x}"),
            178..=195 => format!("C\t{}", chance.below(22)),
            196 => "L".into(),
            _ => "P\tno key".into(),
        };
        writeln!(text, "{line}").expect("a line");
    }
    text.into_bytes()
}

/// Kilobytes of memory that a process has mapped.
fn mapped(process: u32) -> u64 {
    let status = fs::read_to_string(format!("/proc/{process}/status")).expect("a process that runs");
    let size = status.lines().find_map(|line| line.strip_prefix("VmSize:")).expect("its memory");
    size.trim_end_matches("kB").trim().parse().expect("a number")
}

/// What the program prints for what `feed` writes to it.
fn printed(feed: impl FnOnce(&mut ChildStdin) + Send + 'static) -> Vec<u8> {
    let program = Path::new(env!("CARGO_MANIFEST_DIR")).join("../crates/names/out/names");
    assert!(program.is_file(), "{} is not there: 'rt ci' builds it, and so does 'rt run' in crates/names", program.display());
    let mut child = Command::new(X86_64)
        .arg(program)
        .stdin(Stdio::piped())
        .stdout(Stdio::piped())
        .spawn()
        .expect("the program runs");
    let (process, mut input) = (child.id(), child.stdin.take().expect("a pipe"));
    let feeder = thread::spawn(move || {
        feed(&mut input);
        mapped(process)
    });
    let (mut answers, mut output) = (child.stdout.take().expect("a pipe"), vec![0]);
    answers.read_exact(&mut output).expect("an answer");
    let from_the_start = mapped(process);
    answers.read_to_end(&mut output).expect("its output");
    let at_the_end = feeder.join().expect("all was written");
    assert!(child.wait().expect("its end").success());
    assert!(at_the_end <= from_the_start + MORE, "{from_the_start} kilobytes at first, then {at_the_end}");
    output
}

fn agrees(got: &[u8], want: &str) {
    let place = got.iter().zip(want.as_bytes()).position(|(g, w)| g != w);
    assert_eq!(place, None, "the first byte that differs");
    assert_eq!(got.len(), want.len());
}

#[test]
fn a_long_script_is_answered_from_a_pipe_and_byte_by_byte() {
    let script = script();
    let wanted = names::run(&Model, &script);
    let whole = script.clone();
    agrees(&printed(move |pipe| pipe.write_all(&whole).expect("all of it")), &wanted);
    let slow = move |pipe: &mut ChildStdin| {
        for byte in script {
            pipe.write_all(&[byte]).expect("a byte");
        }
    };
    agrees(&printed(slow), &wanted);
}
