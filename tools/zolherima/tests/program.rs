//! The program as it is called: exit statuses, what goes to standard output and to standard error, files and standard input.

use std::fs;
use std::io::Write;
use std::path::{Path, PathBuf};
use std::process::{Command, Stdio};

use zolherima::{POLICY_WORDS, SCRIPT_BYTES};

struct Called {
    status: Option<i32>,
    out: Vec<u8>,
    said: String,
}

impl Called {
    fn text(&self) -> String {
        String::from_utf8(self.out.clone()).expect("it is text")
    }
}

fn call(arguments: &[&str], input: &[u8]) -> Called {
    let mut program = Command::new(env!("CARGO_BIN_EXE_zolherima"))
        .current_dir(root())
        .args(arguments)
        .stdin(Stdio::piped())
        .stdout(Stdio::piped())
        .stderr(Stdio::piped())
        .spawn()
        .expect("the program is there");
    // It may end before it has read all.
    let _ = program.stdin.take().map(|mut pipe| pipe.write_all(input));
    let output = program.wait_with_output().expect("the program ends");
    Called {
        status: output.status.code(),
        out: output.stdout,
        said: String::from_utf8(output.stderr).expect("it is text"),
    }
}

fn root() -> PathBuf {
    Path::new(env!("CARGO_MANIFEST_DIR")).join("../..")
}

fn read(name: &str) -> Vec<u8> {
    fs::read(root().join(name)).expect("the file is there")
}

fn scratch(name: &str) -> String {
    let path = Path::new(env!("CARGO_TARGET_TMPDIR")).join(name);
    path.to_str().expect("it is a name").to_string()
}

const CANTEEN: &str = "examples/canteen.policy";
const NAIVE: &str = "examples/naive.policy";
const REFUSED: &str = "tools/zolherima/tests/cases/refused.policy";

#[test]
fn check_tells_by_its_status() {
    let cases: [(&[&str], i32); 8] = [
        (&["check", CANTEEN], 0),
        (&["check", "--strict", CANTEEN], 0),
        (&["check", NAIVE], 0),
        (&["check", "--strict", NAIVE], 1),
        (&["check", REFUSED], 1),
        (&["check", "README.md"], 1),
        (&["check", "examples/none.policy"], 2),
        (&["check", "examples"], 2),
    ];
    for (arguments, status) in cases {
        let called = call(arguments, &[]);
        assert_eq!(called.status, Some(status), "{arguments:?}");
        // What is told of a file is the answer; what went wrong is a message.
        assert_eq!(called.out.is_empty(), status == 2, "{arguments:?}");
        assert_eq!(called.said.starts_with("zolherima: "), status == 2);
    }
}

#[test]
fn other_commands_tell_what_is_wrong_with_a_file() {
    for command in ["compile", "run", "reach", "tally"] {
        let called = call(&[command, REFUSED], &[]);
        assert_eq!(called.status, Some(1), "{command}");
        assert!(called.out.is_empty());
        assert!(called.said.starts_with("error: the monitor refuses url"));
    }
}

#[test]
fn usage_is_told() {
    let help = call(&["--help"], &[]);
    assert_eq!((help.status, help.said.as_str()), (Some(0), ""));
    for arguments in [&[][..], &["chek"], &["check"], &["run", "--quick", CANTEEN]] {
        let called = call(arguments, &[]);
        assert_eq!(called.status, Some(2), "{arguments:?}");
        assert!(called.said.starts_with("zolherima: ") && called.said.contains("usage: zolherima"));
    }
    assert!(call(&["--version"], &[]).text().starts_with("zolherima "));
}

#[test]
fn what_is_compiled_is_shown_and_compiled_again() {
    let compiled = call(&["compile", CANTEEN], &[]);
    assert_eq!(compiled.status, Some(0));
    assert!(compiled.out.len() > 4 * POLICY_WORDS + SCRIPT_BYTES);
    let text = call(&["show"], &compiled.out).text();
    let again = call(&["compile", "-"], text.as_bytes());
    assert_eq!(again.out, compiled.out);
    let path = scratch("canteen.walk");
    let written = call(&["compile", CANTEEN, "-o", &path], &[]);
    assert_eq!((written.status, written.out.len()), (Some(0), 0));
    assert_eq!(fs::read(&path).expect("it was written"), compiled.out);
    let policy = call(&["compile", "--policy", CANTEEN], &[]).out;
    assert_eq!(policy, compiled.out[..4 * POLICY_WORDS]);
}

#[test]
fn the_examples_are_what_the_program_makes() {
    let header = call(&["compile", "--c", CANTEEN], &[]);
    assert_eq!(header.out, read("examples/canteen.h"));
    let run = call(&["run", CANTEEN], &[]);
    assert_eq!(run.out, read("examples/canteen.run"));
    let policy = call(&["compile", "--policy", "examples/reach.policy"], &[]);
    assert_eq!(policy.out, read("crates/reach/stdin"));
    let path = scratch("reach.svg");
    let reach = call(&["reach", "examples/reach.policy", "--svg", &path], &[]);
    assert_eq!(reach.status, Some(0));
    let picture = fs::read(&path).expect("it was written");
    assert_eq!(picture, read("docs/reach.svg"));
}

#[test]
fn words_that_are_no_policy_are_refused() {
    let zeros = call(&["show"], &vec![0; 4 * POLICY_WORDS]);
    assert_eq!((zeros.status, zeros.out.len()), (Some(1), 0));
    assert_eq!(zeros.said.lines().count(), 21);
    let more = "error: and 108 more; if this is a text, `zolherima check` reads it\n";
    assert!(zeros.said.ends_with(more), "{}", zeros.said);
    for length in [0, 1, 4 * POLICY_WORDS - 1, 4 * POLICY_WORDS + 1, 1 << 20] {
        let called = call(&["show"], &vec![0; length]);
        assert_eq!(called.status, Some(1));
        assert!(
            called.said.starts_with("zolherima: there are "),
            "{}",
            called.said
        );
    }
    let cut = [&call(&["compile", CANTEEN], &[]).out[..], &[9, 3, 0]].concat();
    let called = call(&["show"], &cut);
    assert_eq!(called.status, Some(1));
    assert!(called.said.contains("record 7 is cut: it has 2 of 9 bytes"));
}

#[test]
fn journeys_are_by_names() {
    let found = call(&["journey", CANTEEN, "top-up", "top-up"], &[]);
    assert_eq!(found.status, Some(0));
    let none = call(&["journey", CANTEEN, "banner", "pay"], &[]);
    assert_eq!(none.status, Some(1));
    assert!(none
        .text()
        .starts_with("no connection carries this journey"));
    let unknown = call(&["journey", CANTEEN, "top-up", "bank"], &[]);
    assert_eq!(unknown.status, Some(1));
    let said = "zolherima: there is no url bank; there are top-up, top-up-typed, pay, banner\n";
    assert_eq!(unknown.said, said);
}

#[test]
fn lines_and_lists_come_from_files_or_standard_input() {
    let lines = b"session=7; Secure\nbalance=x\n";
    let imported = call(&["import", CANTEEN, "canteen"], lines);
    let path = scratch("lines");
    fs::write(&path, lines).expect("it can be written");
    assert_eq!(
        call(&["import", CANTEEN, "canteen", &path], &[]).out,
        imported.out
    );
    assert_eq!(call(&["import", CANTEEN, "nobody"], lines).status, Some(1));
    let tally = call(&["tally", CANTEEN], &[3, 0, 0]);
    assert_eq!(tally.status, Some(0));
    assert!(tally.text().contains("top-up"));
    assert_eq!(call(&["tally", CANTEEN], &[3, 0]).status, Some(1));
}

#[test]
fn the_requests_of_a_session_can_be_counted() {
    let path = scratch("requests");
    let ran = call(&["run", "--requests", &path, CANTEEN], &[]);
    assert_eq!(ran.status, Some(0));
    assert_eq!(ran.out, read("examples/canteen.run"));
    let sent = ran.text().matches("sent: ").count();
    let tally = call(&["tally", CANTEEN, &path], &[]);
    let all = format!("all: requests {sent}, ");
    assert!(tally.text().contains(&all), "{}", tally.text());
    let nowhere = scratch("no-folder/requests");
    let lost = call(&["run", "--requests", &nowhere, CANTEEN], &[]);
    assert_eq!(lost.status, Some(2));
    assert!(lost.said.contains("no-folder/requests: "), "{}", lost.said);
}

#[cfg(target_os = "linux")]
#[test]
fn an_endless_file_ends() {
    for command in ["check", "run", "show"] {
        let called = call(&[command, "/dev/zero"], &[]);
        assert_eq!(called.status, Some(1), "{command}");
    }
}

#[test]
fn whoever_has_read_enough_may_go() {
    let mut program = Command::new(env!("CARGO_BIN_EXE_zolherima"))
        .current_dir(root())
        .args(["run", CANTEEN])
        .stdout(Stdio::piped())
        .stderr(Stdio::piped())
        .spawn()
        .expect("the program is there");
    drop(program.stdout.take());
    let output = program.wait_with_output().expect("the program ends");
    assert_eq!(output.stderr, b"");
}
