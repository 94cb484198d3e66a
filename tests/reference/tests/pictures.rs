//! Pictures: cases worked out by hand under document 01's small policy P.
//!
//! In P, URLs 0 and 3 are https and http at host 0, URLs 1 and 2 http and https at host 1. Connections 0, 2 and 3 are of host 0, connection 1
//! has every endpoint. Only cookie (0,0) can be stored, and connections 0 and 2 are the ones that store it.

mod common;
#[path = "common/setup.rs"]
mod setup;

use common::{for_each_feed, walk_input, Session, FEEDS};
use reference::layout::{
    POLICY_WORDS, SCRIPT_BYTES, STATE_CONNECTIONS, STATE_PRESENT, STATE_WORDS,
};
use reference::Event;
use setup::{notes, set_script, word};

/// A picture of URL 0 on connection 0.
const PICTURE_0_ON_0: [u8; 4] = [7, 0, 0, 0];

/// Loads the URL on the connection, and a document response runs these steps: its output and steps.
fn run(session: &mut Session, url: u8, connection: u8, steps: &[[u8; 4]]) -> (Vec<u8>, u32) {
    set_script(session, steps);
    session.accept(&[0x03, url, connection]);
    session.accept(&[0x0B, url, connection, 0])
}

/// The value of cookie (0,0), and the keys of host 0 that are present.
fn cookie(session: &Session) -> (u32, u32) {
    (session.state[0], session.state[STATE_PRESENT])
}

/// Stores 7 in cookie (0,0): document 01's case e.
fn store_7(session: &mut Session) {
    session.accept(&[0x03, 0, 0]);
    session.accept(&[0x0F, 0, 0, 1, 0, 0, 0, 7, 15]);
    assert_eq!(cookie(session), (7, 1));
}

/// A picture of URL 0 is pending on connection 0, and every script would send a request.
fn await_picture(session: &mut Session) {
    run(session, 0, 0, &[PICTURE_0_ON_0]);
    assert_eq!(word(session, 0), 0x0300_0000);
    for script in session.scripts.chunks_mut(SCRIPT_BYTES) {
        script[..4].copy_from_slice(&[5, 0, 0, 0]);
    }
}

#[test]
fn a_picture_is_requested() {
    for_each_feed(|mut session| {
        let sent = run(&mut session, 0, 0, &[PICTURE_0_ON_0]);
        assert_eq!(sent, (vec![0x43, 0, 0], 2));
        assert_eq!(word(&session, 0), 0x0300_0000);
        let sent = run(&mut session, 0, 0, &[[7, 0, 2, 0], [7, 3, 3, 0]]);
        assert_eq!(sent, (vec![0x43, 0, 2, 0x43, 3, 3], 3));
        assert_eq!(word(&session, 2), 0x0300_0000);
        assert_eq!(word(&session, 3), 0x0300_0003);
        let sent = run(&mut session, 1, 1, &[[7, 1, 1, 0]]);
        assert_eq!(sent, (vec![0x43, 1, 1], 2));
        assert_eq!(word(&session, 1), 0x0300_0001);
    });
}

/// URL 3 is http, and its endpoint is not among the readers of cookie (0,0).
#[test]
fn a_pictures_request_carries_cookies() {
    for_each_feed(|mut session| {
        store_7(&mut session);
        let (sent, steps) = run(&mut session, 0, 0, &[PICTURE_0_ON_0, [7, 3, 3, 0]]);
        let expected = [0x47, 0, 0, 1, 0, 0, 0, 7, 0x43, 3, 3];
        assert_eq!((&sent[..], steps), (&expected[..], 3));
    });
}

#[test]
fn the_last_field_is_not_used() {
    for_each_feed(|mut session| {
        let steps = [[7, 0, 0, 255], [7, 0, 2, 16], [7, 3, 3, 15]];
        let (sent, steps) = run(&mut session, 0, 0, &steps);
        let expected = [0x43, 0, 0, 0x43, 0, 2, 0x43, 3, 3];
        assert_eq!((&sent[..], steps), (&expected[..], 4));
        let words = [0, 2, 3].map(|connection| word(&session, connection));
        assert_eq!(words, [0x0300_0000, 0x0300_0000, 0x0300_0003]);
    });
}

/// Page 3 on connection 3 sends with handler 5 and asks for a picture, one after the other: what is last is pending, without anything of
/// what it replaces.
#[test]
fn a_picture_and_a_send_replace_each_other() {
    for_each_feed(|mut session| {
        let (send, picture) = ([5, 3, 3, 5], [7, 3, 3, 5]);
        let sent = run(&mut session, 3, 3, &[send, picture]);
        assert_eq!(sent, (vec![0x0B, 3, 3, 5, 0x43, 3, 3], 3));
        assert_eq!(word(&session, 3), 0x0300_0003);
        let sent = run(&mut session, 3, 3, &[picture, send]);
        assert_eq!(sent, (vec![0x43, 3, 3, 0x0B, 3, 3, 5], 3));
        assert_eq!(word(&session, 3), 0x0203_0503);
        let sent = run(&mut session, 3, 3, &[picture, picture]);
        assert_eq!(sent, (vec![0x43, 3, 3, 0x43, 3, 3], 3));
        assert_eq!(word(&session, 3), 0x0300_0003);
    });
}

#[test]
fn a_load_replaces_a_picture() {
    for_each_feed(|mut session| {
        await_picture(&mut session);
        assert_eq!(session.accept(&[0x03, 0, 0]), (vec![0x03, 0, 0], 0));
        assert_eq!(word(&session, 0), 0x0100_0000);
        assert_eq!(session.refuse(&[0x43, 0, 0]), 7);
    });
}

/// 32 pictures with all that can be carried fit into the output.
#[test]
fn a_picture_in_each_step() {
    for_each_feed(|mut session| {
        store_7(&mut session);
        let (sent, steps) = run(&mut session, 0, 0, &[PICTURE_0_ON_0; 32]);
        assert_eq!(sent, [0x47, 0, 0, 1, 0, 0, 0, 7].repeat(32));
        assert_eq!(steps, 32);
    });
}

/// At this step a script of this page and connection ends, because of this and of nothing before it. The step behind it would send.
fn ends(page: u8, connection: u8, step: [u8; 4], why: Event) {
    let after = [7, page, connection, 0];
    for (name, feed) in FEEDS {
        let mut session = Session::new(feed);
        let ended = run(&mut session, page, connection, &[step, after]);
        assert_eq!(ended, (vec![], 1), "{name}: {step:?}");
        assert_eq!(session.state, [0; STATE_WORDS], "{name}: {step:?}");
    }
    let mut session = Session::new(reference::feed);
    set_script(&mut session, &[step, after]);
    session.accept(&[0x03, page, connection]);
    notes(&session, &[0x0B, page, connection, 0], why);
}

#[test]
fn a_picture_out_of_range_ends_a_script() {
    ends(0, 0, [7, 64, 0, 0], Event::EndPictureUrlAbove);
    ends(0, 0, [7, 255, 0, 0], Event::EndPictureUrlAbove);
    ends(0, 0, [7, 4, 0, 0], Event::EndPictureUrlEmpty);
    ends(0, 0, [7, 63, 0, 0], Event::EndPictureUrlEmpty);
    ends(0, 0, [7, 0, 32, 0], Event::EndPictureConnection);
    ends(0, 0, [7, 0, 255, 0], Event::EndPictureConnection);
}

/// Connection 0 has script readers 0 and 16 and writer 16; connection 1 has all.
#[test]
fn a_picture_that_labels_forbid_ends_a_script() {
    // Host 1's http endpoint, 1, is not in {0, 16}.
    ends(0, 0, [7, 1, 1, 0], Event::EndPictureEvent);
    // All readers are not within {0, 16}.
    ends(0, 0, [7, 0, 1, 0], Event::EndPictureReaders);
    // All readers are not within URL 0's, {0, 16}.
    ends(1, 1, [7, 0, 1, 0], Event::EndPictureFitReaders);
    // URL 3's endpoint, 0, is not in connection 0's writers, {16}.
    ends(0, 0, [7, 3, 0, 0], Event::EndPictureFitWriters);
    // All writers are not within connection 0's, {16}.
    ends(1, 1, [7, 0, 0, 0], Event::EndPictureWriters);
    // All writers are not within URL 2's, {16, 17}.
    ends(1, 1, [7, 2, 1, 0], Event::EndPictureUrlWriters);
}

#[test]
fn operations_from_8_on_are_unknown() {
    for op in 8..=255 {
        ends(0, 0, [op, 0, 0, 0], Event::EndUnknown);
    }
}

#[test]
fn nothing_runs_on_a_picture_response() {
    for_each_feed(|mut session| {
        await_picture(&mut session);
        assert_eq!(session.accept(&[0x43, 0, 0]), (vec![], 0));
        assert_eq!(session.state, [0; STATE_WORDS]);
        assert_eq!(session.refuse(&[0x43, 0, 0]), 7);
    });
}

#[test]
fn a_picture_response_stores_cookies() {
    for_each_feed(|mut session| {
        await_picture(&mut session);
        let response = [0x47, 0, 0, 1, 0, 0, 0, 9];
        assert_eq!(session.accept(&response), (vec![], 0));
        assert_eq!((cookie(&session), word(&session, 0)), ((9, 1), 0));
        assert_eq!(session.refuse(&response), 7);
        let load = session.accept(&[0x03, 0, 0]).0;
        assert_eq!(load, [0x07, 0, 0, 1, 0, 0, 0, 9]);
    });
}

/// The longest picture response, 4 + 32 bytes: of its eight cookies the labels of connection 0 let only the first be stored.
#[test]
fn a_picture_response_with_every_key() {
    for_each_feed(|mut session| {
        await_picture(&mut session);
        let response = [&[0x47, 0, 0, 0xFF][..], &[0xAB; 32]].concat();
        assert_eq!(session.accept(&response), (vec![], 0));
        assert_eq!(cookie(&session), (0xABAB_ABAB, 1));
    });
}

/// Connection 3's writers, {0, 16}, are not within the cookie's.
#[test]
fn a_picture_response_whose_cookie_is_passed_over() {
    for_each_feed(|mut session| {
        let sent = run(&mut session, 0, 0, &[[7, 0, 3, 0]]);
        assert_eq!(sent, (vec![0x43, 0, 3], 2));
        let response = [0x47, 0, 3, 1, 0, 0, 0, 9];
        assert_eq!(session.accept(&response), (vec![], 0));
        assert_eq!(session.state, [0; STATE_WORDS]);
    });
}

/// Each response without cookies and with one, for URL 0 on connection 0.
const RESPONSES: [(u8, [&[u8]; 2]); 3] = [
    (1, [&[0x0B, 0, 0, 15], &[0x0F, 0, 0, 1, 0, 0, 0, 9, 15]]),
    (
        2,
        [
            &[0x13, 0, 0, 0, 0, 0, 8],
            &[0x17, 0, 0, 1, 0, 0, 0, 9, 0, 0, 0, 8],
        ],
    ),
    (3, [&[0x43, 0, 0], &[0x47, 0, 0, 1, 0, 0, 0, 9]]),
];

/// Of the three responses each is accepted on a connection of its kind alone.
#[test]
fn each_response_is_awaited_by_one_kind() {
    for_each_feed(|mut session| {
        for kind in 1..=3 {
            for (response_kind, records) in RESPONSES {
                for record in records {
                    session.state.fill(0);
                    session.state[STATE_CONNECTIONS] = u32::from(kind) << 24;
                    let number = if kind == response_kind { 0 } else { 7 };
                    assert_eq!(session.feed(record).0, number, "{kind}: {record:02x?}");
                }
            }
        }
    });
}

#[test]
fn a_picture_response_that_is_refused() {
    for_each_feed(|mut session| {
        await_picture(&mut session);
        assert_eq!(session.refuse(&[0x43, 3, 0]), 7);
        assert_eq!(session.refuse(&[0x43, 0, 2]), 7);
        assert_eq!(session.refuse(&[0x43, 4, 0]), 6);
        assert_eq!(session.refuse(&[0x43, 64, 0]), 6);
        assert_eq!(session.refuse(&[0x43, 0, 32]), 6);
        assert_eq!(session.refuse(&[0x43, 0]), 11);
        assert_eq!(session.refuse(&[0x43, 0, 0, 0]), 11);
        assert_eq!(session.refuse(&[0x47, 0, 0]), 11);
        assert_eq!(session.refuse(&[0x47, 0, 0, 1, 0, 0, 0]), 11);
        assert_eq!(session.refuse(&[0x47, 0, 0, 1, 0, 0, 0, 9, 0]), 11);
        assert_eq!(session.refuse(&[0x47, 0, 0, 0]), 12);
        assert_eq!(session.refuse(&[0x47, 0, 0, 0, 0]), 12);
        assert_eq!(session.refuse(&[0x4B, 0, 0, 0]), 10);
        assert_eq!(session.refuse(&[0x63, 0, 0, 0]), 10);
        assert_eq!(session.refuse(&[0x40]), 10);
    });
}

/// A picture of URL 0 on connection 3 goes to URL 3 and from there to URL 3 again; URL 0 has not both writers of connection 3.
#[test]
fn a_picture_is_redirected_twice() {
    for_each_feed(|mut session| {
        run(&mut session, 0, 0, &[[7, 0, 3, 0]]);
        let first = session.accept(&[0x23, 0, 3, 3]);
        assert_eq!(first, (vec![0x43, 3, 3], 0));
        assert_eq!(word(&session, 3), 0x0300_0003);
        let second = session.accept(&[0x23, 3, 3, 3]);
        assert_eq!(second, (vec![0x43, 3, 3], 0));
        assert_eq!(word(&session, 3), 0x0300_0003);
        assert_eq!(session.refuse(&[0x23, 3, 3, 0]), 9);
        assert_eq!(session.refuse(&[0x43, 0, 3]), 7);
        assert_eq!(session.accept(&[0x43, 3, 3]), (vec![], 0));
        assert_eq!(session.state, [0; STATE_WORDS]);
    });
}

/// A redirect's own request carries the cookie that it brought.
#[test]
fn a_redirected_picture_carries_cookies() {
    for_each_feed(|mut session| {
        await_picture(&mut session);
        let redirect = [0x27, 0, 0, 1, 0, 0, 0, 9, 0];
        let (sent, steps) = session.accept(&redirect);
        assert_eq!((&sent[..], steps), (&[0x47, 0, 0, 1, 0, 0, 0, 9][..], 0));
        assert_eq!((cookie(&session), word(&session, 0)), ((9, 1), 0x0300_0000));
        assert_eq!(session.refuse(&[0x23, 0, 0, 2]), 8);
        assert_eq!(session.refuse(&[0x23, 0, 0, 3]), 9);
    });
}

/// With this word of a connection an empty record has 10 if the state is sound, and 4 if it is not.
fn number_with(session: &mut Session, connection: usize, word: u32) -> u32 {
    session.state.fill(0);
    session.state[STATE_CONNECTIONS + connection] = word;
    session.refuse(&[])
}

#[test]
fn sound_words_of_pictures() {
    for_each_feed(|mut session| {
        for (connection, url) in [(0, 0), (1, 1), (1, 2), (2, 0), (3, 0), (3, 3)] {
            let number = number_with(&mut session, connection, 0x0300_0000 | url);
            assert_eq!(number, 10, "{connection} {url}");
        }
    });
}

#[test]
fn a_picture_has_no_origin_and_no_handler() {
    for_each_feed(|mut session| {
        for number in 1..=255 {
            let origin = 0x0300_0000 | number << 16;
            assert_eq!(number_with(&mut session, 0, origin), 4, "{number}");
            let handler = 0x0300_0000 | number << 8;
            assert_eq!(number_with(&mut session, 0, handler), 4, "{number}");
        }
        // In a script's request they are right.
        assert_eq!(number_with(&mut session, 0, 0x0201_0100), 10);
    });
}

#[test]
fn a_picture_at_a_url_that_its_connection_does_not_fit() {
    for_each_feed(|mut session| {
        assert_eq!(number_with(&mut session, 0, 0x0300_0003), 4);
        assert_eq!(number_with(&mut session, 1, 0x0300_0000), 4);
        assert_eq!(number_with(&mut session, 0, 0x0300_0004), 4);
        assert_eq!(number_with(&mut session, 0, 0x0300_0040), 4);
        assert_eq!(number_with(&mut session, 4, 0x0300_0000), 4);
    });
}

#[test]
fn kinds_above_3() {
    for_each_feed(|mut session| {
        for kind in 4..=255 {
            assert_eq!(number_with(&mut session, 0, kind << 24), 4, "{kind}");
        }
    });
}

/// A picture has no origin that could be an empty row. Without URL 0, a script's request cannot have origin 0.
#[test]
fn a_picture_where_url_0_is_empty() {
    for_each_feed(|mut session| {
        session.policy[..3].copy_from_slice(&[255, 0, 0]);
        assert_eq!(number_with(&mut session, 3, 0x0300_0003), 10);
        assert_eq!(number_with(&mut session, 3, 0x0200_0003), 4);
        assert_eq!(number_with(&mut session, 3, 0x0203_0003), 10);
    });
}

/// A load; a document response that stores 7 and asks for two pictures, 8 bytes for each request with its cookie; the first one's response; a
/// redirect that 8 refuses; the second one's response, and once more, which 7 refuses.
#[test]
fn walk_prints_pictures() {
    let records: [&[u8]; 6] = [
        &[0x03, 0, 0],
        &[0x0F, 0, 0, 1, 0, 0, 0, 7, 0],
        &[0x43, 0, 0],
        &[0x23, 0, 2, 0],
        &[0x47, 0, 2, 1, 0, 0, 0, 8],
        &[0x43, 0, 2],
    ];
    let with_length = |record: &&[u8]| [&[record.len() as u8], *record].concat();
    let mut input = walk_input(&records.iter().flat_map(with_length).collect::<Vec<_>>());
    let scripts = 4 * POLICY_WORDS;
    input[scripts..scripts + 8].copy_from_slice(&[7, 0, 0, 255, 7, 0, 2, 0]);
    let lines = "\
1 0 3 0 32
> 0 0 00
2 0 16 3 32
> 0 0 01
> 0 2 01
3 0 0 0 32
4 8 0 0 0
5 0 0 0 32
6 7 0 0 32
end 4 2
";
    assert_eq!(reference::walk(&input), lines);
}
