use super::parse;
use crate::plan::Plan;

fn plan(text: &str) -> Plan {
    parse(text.as_bytes()).unwrap()
}

/// The messages of a text with errors.
fn messages(text: &str) -> Vec<String> {
    let told = parse(text.as_bytes()).unwrap_err();
    told.into_iter().map(|it| it.message).collect()
}

#[test]
fn a_name_may_be_used_before_it_is_declared() {
    let text = "script s for u\n read k into r0\nurl u at https h\n readers h\n writers h\n\
        cookie j of h\n readers h\n writers h\ncookie k of h\n readers h\n writers h\nhost g\nhost h\n";
    let plan = plan(text);
    assert_eq!(
        plan.scripts[0].as_ref().unwrap().it.steps[0].it,
        [3, 0, 1, 0]
    );
    assert_eq!(plan.urls[0].as_ref().unwrap().it.address.number(), 17);
}

#[test]
fn words_that_begin_a_line_may_be_names() {
    let text = "host host\nhost session\nurl url at https host\n readers host, session\n writers host\n\
        connection end\n readers nobody\n writers nobody\nscript script for url\n registers end, read\n end = 5\n \
        read = end + read\n end\nsession\n load url on end\n";
    let plan = plan(text);
    let steps = &plan.scripts[0].as_ref().unwrap().it.steps;
    let bytes: Vec<_> = steps.iter().map(|step| step.it).collect();
    assert_eq!(bytes, [[1, 0, 0, 5], [2, 1, 0, 1], [0; 4]]);
    assert_eq!(plan.session[0].it.bytes, [3, 0, 0]);
}

#[test]
fn clauses_keep_their_places() {
    let text =
        "host h\nconnection c # the first\n  readers h,\n    http h # both\n  writers nobody\n";
    let plan = plan(text);
    let connection = plan.connections[0].as_ref().unwrap();
    assert_eq!(&text[connection.span.start..connection.span.end], "c");
    let span = connection.it.readers.span;
    assert_eq!(&text[span.start..span.end], "readers h,\n    http h");
    assert_eq!(connection.it.script_readers, connection.it.readers);
}

#[test]
fn nothing_is_told_of_what_follows_from_an_error() {
    let broken = [
        // The first line of a declaration: its name, its number and its clauses.
        "host canteen alwys https\nhost bank\nconnection c\n readers canteen, bank\n writers nobody\n",
        "host h\nurl u at h\n readers h\n writers h\nscript s for u\n read k into r0\n",
        "hots canteen\nurl u at https canteen\n readers canteen\n writers canteen\n",
        "host h\ncookei k of h\n readers h\n writers h\nurl u at http h\n readers h\n writers h\n",
        // A clause: it is not missing.
        "connection c\n readers everybody and more\n writers nobody\n",
        "connection c\n reders nobody\n writers nobody\n",
        // A name: each use of it.
        "connection c\n readers h, h\n writers h\n",
        "session\n load u on u\n redirect u on u to u\n",
        // Names of registers that could not be read.
        "script s\n registers a b\n b = 5\n",
        // A step that looks like a declaration.
        "script s\n ur r0 into r1\n end\n end\n",
        // A word that nothing begins with.
        "turnip\n readers x\n writers y\n registers z\n",
    ];
    let told = broken.map(|text| messages(text).len());
    assert_eq!(told, [1, 1, 1, 1, 1, 1, 1, 2, 1, 1, 1]);
}

#[test]
fn several_errors_of_a_line_that_do_not_follow_from_one_another() {
    let told = messages("connection c\n readers here, there\n writers nobody\n");
    assert_eq!(
        told,
        ["there is no host `here`", "there is no host `there`"]
    );
}

#[test]
fn numbers_are_given_or_counted() {
    let plan = plan("host a number 3\nhost b\nhost c number 007\nhost d number 0\n");
    let names: Vec<_> = plan
        .hosts
        .iter()
        .map(|host| host.as_ref().map_or("", |it| &it.name))
        .collect();
    assert_eq!(names[..8], ["d", "", "", "a", "b", "", "", "c"]);
}
