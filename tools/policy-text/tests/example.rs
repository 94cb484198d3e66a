//! The examples of the documents.

use policy_text::{parse, render, Names, Plan};
use zolherima::{Endpoints, Labels};

const CANTEEN: &str = include_str!("canteen.policy");

/// The plan of a text without errors; else all that is told.
fn plan(text: &str) -> Plan {
    parse(text.as_bytes()).unwrap_or_else(|told| {
        let told = told.iter().map(|it| render(it, "example", text.as_bytes()));
        panic!("{}", told.collect::<String>())
    })
}

fn records(plan: &Plan) -> Vec<Vec<u8>> {
    let records = plan.session.iter();
    records.map(|record| record.it.bytes.clone()).collect()
}

#[test]
fn the_canteen() {
    let plan = plan(CANTEEN);
    let policy = policy_text::builder(&plan).build().expect("well formed");
    let url = policy.url(0).unwrap();
    assert_eq!(url.address.number(), 16);
    assert_eq!(url.readers.bits(), 0x0001_0003);
    let https = Endpoints::only(url.address);
    let (readers, writers) = (https, https);
    assert_eq!(policy.cookie(0, 0), Some(Labels { readers, writers }));
    assert_eq!(
        records(&plan),
        [vec![3, 0, 0], vec![0x0f, 0, 0, 1, 0, 0, 0, 7, 0]]
    );
    let names = Names::of(&plan);
    assert_eq!(names.cookie(0, 0), "session of canteen");
    assert_eq!(names.register(0, 0), "token");
}

const LANGUAGE: &str = include_str!("../../../docs/LANGUAGE.md");

/// The lines of a page that are set off, from the one that is given to the first that is not.
fn set_off(page: &str, first: &str) -> String {
    let lines = page.lines().skip_while(|line| line.trim_start() != first);
    let lines = lines.take_while(|line| line.is_empty() || line.starts_with("    "));
    lines
        .map(|line| line.strip_prefix("    ").unwrap_or(line).to_string() + "\n")
        .collect()
}

#[test]
fn the_page_of_the_language_has_an_example_that_the_monitor_takes() {
    let plan = plan(&set_off(LANGUAGE, "# A canteen's post"));
    let policy = policy_text::builder(&plan).build().expect("well formed");
    let scripts = policy_text::scripts(&plan);
    let mut session = zolherima::Session::new(&policy, &scripts);
    let requests = records(&plan).into_iter().map(|record| {
        let sent = session.feed(&record).expect("accepted");
        (sent.requests.count(), sent.steps)
    });
    assert_eq!(requests.collect::<Vec<_>>(), [(1, 0), (1, 3), (0, 2)]);
    assert_eq!(session.state().cookie(0, 0), Some(250));
}

#[test]
fn the_page_of_the_language_shows_what_is_told() {
    let example = set_off(LANGUAGE, "# A canteen's post");
    let wrong = example.replace("top-up at https canteen", "top-up at https cantene");
    let told = parse(wrong.as_bytes()).unwrap_err();
    let shown = set_off(LANGUAGE, "error: there is no host `cantene`");
    assert_eq!(
        render(&told[0], "post.policy", wrong.as_bytes()).trim_end(),
        shown.trim_end()
    );
}

#[test]
fn the_page_of_the_language_lists_the_words_that_are_no_names() {
    let line = LANGUAGE
        .lines()
        .find(|line| line.starts_with("    always "));
    let words: Vec<_> = line.unwrap_or_default().split_whitespace().collect();
    assert_eq!(words.len(), 22);
    for word in words {
        let told = parse(format!("host {word}\n").as_bytes()).unwrap_err();
        assert!(told[0].notes[0].ends_with("is a word of the language and no name"));
    }
}
