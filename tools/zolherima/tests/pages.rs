//! What the pages show is what there is: each command after `$ `, run again, prints the lines that stand below it, and every other block is of a step's
//! file. Where the words have changed on purpose, `GOLDEN=write cargo test -p zolherima-program` writes what is printed now, to be read.

use std::env;
use std::fs;
use std::path::{Path, PathBuf};
use std::process::Command;

const FENCE: &str = "```\n";
const STEPS: &str = "examples/policy";

fn root() -> PathBuf {
    Path::new(env!("CARGO_MANIFEST_DIR")).join("../..")
}

fn read(name: &str) -> String {
    fs::read_to_string(root().join(name)).expect("the file is there")
}

/// The page with its commands run again; those that need what the proved kit builds are left as they are.
fn run_again(page: &str, folder: &str) -> String {
    let parts =
        page.split(FENCE).map(
            |part| match part.starts_with("$ ") && !part.contains("target/") {
                true => block_again(part, folder),
                false => part.to_string(),
            },
        );
    parts.collect::<Vec<String>>().join(FENCE)
}

fn block_again(block: &str, folder: &str) -> String {
    let commands = block.lines().filter_map(|line| line.strip_prefix("$ "));
    let shown = commands.map(|command| format!("$ {command}\n{}", printed(command, folder)));
    shown.collect()
}

fn printed(command: &str, folder: &str) -> String {
    let program = Path::new(env!("CARGO_BIN_EXE_zolherima"));
    let folders = program.parent().map(Path::to_path_buf).into_iter();
    let path = env::var_os("PATH").unwrap_or_default();
    let path = env::join_paths(folders.chain(env::split_paths(&path)));
    let output = Command::new("sh")
        .args(["-c", &format!("{{ {command}; }} 2>&1")])
        .current_dir(root().join(folder))
        .env("PATH", path.expect("no folder's name has a colon"))
        .output()
        .expect("there is a shell");
    String::from_utf8(output.stdout).expect("it is text")
}

fn hold(page: &str, folder: &str) {
    let again = run_again(&read(page), folder);
    assert!(
        again.matches("\n$ zolherima ").count() > 9,
        "{page} shows commands"
    );
    if env::var_os("GOLDEN").is_some_and(|it| it == "write") {
        fs::write(root().join(page), &again).expect("it can be written");
    }
    assert_eq!(again, read(page), "{page} has other words");
}

#[test]
fn what_the_page_on_the_program_shows_is_printed() {
    hold("docs/PROGRAM.md", ".");
}

#[test]
fn what_the_page_on_writing_a_policy_shows_is_printed() {
    hold("docs/POLICY.md", STEPS);
}

/// A line for each file: its name, and the exit statuses of `check` and `check --strict`.
fn expected() -> Vec<String> {
    let expected = read(&format!("{STEPS}/EXPECTED"));
    let rows = expected.lines().filter(|line| !line.starts_with('#'));
    rows.map(str::to_string).collect()
}

fn file_of(row: &str) -> &str {
    row.split(' ').next().unwrap_or_default()
}

#[test]
fn what_the_page_shows_of_a_step_is_in_its_file() {
    let files: Vec<String> = expected()
        .iter()
        .map(|row| read(&format!("{STEPS}/{}", file_of(row))))
        .collect();
    let page = read("docs/POLICY.md");
    let blocks = page.split(FENCE).skip(1).step_by(2);
    for block in blocks.filter(|block| !block.starts_with("$ ")) {
        assert!(files.iter().any(|file| file.contains(block)), "{block}");
    }
}

#[test]
fn each_step_is_taken_advised_about_or_refused_as_the_page_says() {
    let page = read("docs/POLICY.md");
    for row in expected() {
        let file = file_of(&row);
        let [plain, strict] = [
            status(&["check", file]),
            status(&["check", "--strict", file]),
        ];
        assert_eq!(format!("{file} {plain} {strict}"), row);
        assert!(
            page.contains(&format!("/{file}) | {plain} | {strict} |")),
            "{row}"
        );
    }
}

fn status(arguments: &[&str]) -> i32 {
    let output = Command::new(env!("CARGO_BIN_EXE_zolherima"))
        .args(arguments)
        .current_dir(root().join(STEPS))
        .output();
    let status = output.expect("the program is there").status;
    status.code().expect("it ends by itself")
}
