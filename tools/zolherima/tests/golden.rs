//! What `check` and `run` print, to the letter, of files that meet everything that they can say: `tests/cases`, and the examples.
//! Where the words have changed on purpose, `GOLDEN=write cargo test -p zolherima-program` writes what is printed now, to be read.

use std::fs;
use std::path::{Path, PathBuf};

use zolherima_program::check::check;
use zolherima_program::file::SourceFile;
use zolherima_program::run::run;

fn folder(name: &str) -> PathBuf {
    Path::new(env!("CARGO_MANIFEST_DIR")).join(name)
}

/// The file has its own name, wherever the repository is.
fn source(folder: &Path, name: &str) -> SourceFile {
    let text = fs::read(folder.join(name)).expect("the case is there");
    SourceFile {
        name: name.to_string(),
        text,
    }
}

fn ran(file: &SourceFile, trace: bool) -> String {
    let sound = file.used().expect("the monitor takes it");
    let mut out = Vec::new();
    run(file, &sound, trace, &mut out).expect("the library agrees");
    String::from_utf8(out).expect("it is text")
}

fn hold(path: &Path, printed: &str) {
    if std::env::var_os("GOLDEN").is_some_and(|it| it == "write") {
        fs::write(path, printed).expect("it can be written");
    }
    let expected = fs::read_to_string(path).unwrap_or_default();
    assert!(
        printed == expected,
        "{} has other words:\n{printed}",
        path.display()
    );
}

#[test]
fn what_the_monitor_refuses_and_what_is_advised() {
    let cases = folder("tests/cases");
    for name in ["refused", "advised", "session", "mends"] {
        let checked = check(&source(&cases, &format!("{name}.policy")));
        assert_eq!(checked.is_taken, name != "refused");
        hold(&cases.join(format!("{name}.check")), &checked.text);
    }
}

#[test]
fn what_a_session_meets() {
    let cases = folder("tests/cases");
    let file = source(&cases, "session.policy");
    hold(&cases.join("session.run"), &ran(&file, false));
    hold(&cases.join("session.trace"), &ran(&file, true));
    let file = source(&cases, "mends.policy");
    hold(&cases.join("mends.run"), &ran(&file, false));
}

#[test]
fn the_examples() {
    let examples = folder("../../examples");
    for name in ["canteen", "naive"] {
        let file = source(&examples, &format!("{name}.policy"));
        hold(&examples.join(format!("{name}.check")), &check(&file).text);
        hold(&examples.join(format!("{name}.run")), &ran(&file, false));
    }
}
