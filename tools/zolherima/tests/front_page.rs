//! What the front page shows is what the examples have: each block without a language is of one of their files, `...` standing for lines left out.

use std::fs;
use std::path::Path;

fn read(name: &str) -> String {
    let root = Path::new(env!("CARGO_MANIFEST_DIR")).join("../..");
    fs::read_to_string(root.join(name)).expect("the file is there")
}

/// The blocks between lines of three backquotes and nothing more.
fn blocks(page: &str) -> Vec<String> {
    let parts = page.split("\n```\n").skip(1).step_by(2);
    parts.map(str::to_string).collect()
}

fn is_of(block: &str, file: &str) -> bool {
    let mut rest = file;
    for part in block.split("\n...\n") {
        let Some(at) = rest.find(part) else {
            return false;
        };
        rest = &rest[at + part.len()..];
    }
    true
}

#[test]
fn what_the_front_page_shows_is_what_the_examples_have() {
    let blocks = blocks(&read("README.md"));
    let files = ["canteen.policy", "canteen.run", "naive.check"];
    assert_eq!(blocks.len(), files.len());
    for (block, file) in blocks.iter().zip(files) {
        let file = read(&format!("examples/{file}"));
        assert!(is_of(block, &file), "{block}\nis not of\n{file}");
    }
}
