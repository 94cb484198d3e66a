//! What is said to be changed where something is not allowed: each mend names the set that decides, and nothing that would not help.

use explain::{rules, Lack};
use zolherima_program::file::SourceFile;
use zolherima_program::words::Words;

/// URL `home` fits connection `own`, and `typed` is never asked for.
const POST: &str = "\
host a always https
host b
host c
cookie sid of a
    readers https a, https b
    writers https a, https c
url home at https a
    readers a
    writers https a
url typed at http a
    readers http a
    writers everyone
    partner home
url shop at https b
    readers everyone
    writers everyone
connection own
    readers http a
    script readers nobody
    writers a, https c
";

/// The mends of the first condition that fails.
fn mends(text: &str, lacks: impl Fn(&Words) -> Vec<Lack>) -> Vec<String> {
    let file = SourceFile {
        name: "post.policy".to_string(),
        text: text.as_bytes().to_vec(),
    };
    let sound = file.used().expect("the monitor takes it");
    let words = Words::new(&sound.policy, &sound.plan, &file.text);
    let lacks = lacks(&words);
    words.mends(lacks.first().expect("something is missing"))
}

#[test]
fn what_nothing_needs_is_taken() {
    let text = POST.replace("writers a, https c", "writers https a, https c");
    let mends = mends(&text, |words| rules::redirect(words.policy, 0, 0));
    assert!(mends[0].contains("take `https c` from the writers of connection own (line 20)"));
    assert!(mends[1].contains("add `https c` to the writers of url home (line 9)"));
    assert!(mends[2].contains("make home an entry"), "{mends:?}");
}

#[test]
fn what_a_url_needs_stays() {
    let text = POST.replace("    writers https a\n", "    writers http a, https c\n");
    let mends = mends(&text, |words| rules::redirect(words.policy, 0, 0));
    assert!(mends[0].contains("use a connection without `https a`"));
}

#[test]
fn a_cookie_stays_one_of_its_host() {
    let read = |words: &Words| rules::read(words.policy, 0, 0, 0);
    let of_another = mends(&POST.replace("writers a, https c", "writers a"), read);
    assert!(of_another[0].contains("take `https c` from the writers of cookie sid of a (line 6)"));
    let of_its_own = mends(&POST.replace("writers a, https c", "writers https c"), read);
    assert_eq!(of_its_own.len(), 1, "{of_its_own:?}");
    assert!(of_its_own[0].contains("add `https a` to the writers of connection own"));
}

#[test]
fn readers_grow_with_script_readers() {
    let mends = mends(POST, |words| rules::write(words.policy, 0, 0, 0));
    let added = mends.last().expect("it can be added");
    let both = "to the script readers of connection own (line 19) and, so that it still fits, \
        to the readers of connection own (line 18) and the readers of url home (line 8)";
    assert!(added.contains(both), "{added}");
}

#[test]
fn urls_that_are_never_asked_for_need_no_readers() {
    let mends = mends(POST, |words| rules::redirect(words.policy, 0, 2));
    assert!(mends[0].contains("to the readers of url home (line 8)"));
    assert!(!mends[0].contains("typed"), "{mends:?}");
}

#[test]
fn of_many_sets_the_first_are_told() {
    let url = |nth| format!("url more{nth} at https a\n    readers a\n    writers https a\n");
    let more: String = (0..5).map(url).collect();
    let mends = mends(&format!("{POST}{more}"), |words| {
        rules::redirect(words.policy, 0, 2)
    });
    assert!(
        mends[0].contains("url more2 (line 28) and 2 more"),
        "{mends:?}"
    );
}
