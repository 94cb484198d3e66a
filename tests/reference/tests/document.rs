//! The cases of document 01. Every answer is asked whether an endpoint is missing
//! just where labels forbid the record: by the session, or by comparing it whole.

mod common;

use cases::policy::document;
use common::{for_each_feed, walk_input, Feed, Session, FEEDS};
use reference::layout::{
    NONE_MISSING, OUTPUT_BYTES, POLICY_WORDS, SCRIPTS_BYTES, STATE_CONNECTIONS, STATE_PRESENT,
    STATE_WORDS, WALK_LONGEST, WALK_SHORTEST,
};
use reference::Answer;

const LOAD_0_ON_0: [u8; 3] = [3, 0, 0];
const RESPONSE_WITH_7: [u8; 9] = [0x0F, 0, 0, 1, 0, 0, 0, 7, 0];

fn after_a(session: &mut Session) {
    assert_eq!(session.accept(&LOAD_0_ON_0), (vec![3, 0, 0], 0));
    assert_eq!(session.state[STATE_CONNECTIONS], 0x0100_0000);
}

fn after_e(session: &mut Session) {
    after_a(session);
    assert_eq!(session.accept(&RESPONSE_WITH_7), (vec![], 1));
    assert_eq!((session.state[0], session.state[STATE_PRESENT]), (7, 1));
    assert_eq!(session.state[STATE_CONNECTIONS], 0);
}

#[test]
fn a_load_is_accepted() {
    for_each_feed(|mut session| after_a(&mut session));
}

#[test]
fn b_readers_refuse_a_load() {
    for_each_feed(|mut session| assert_eq!(session.refusal(&[3, 0, 1]), (8, 1)));
}

#[test]
fn c_writers_refuse_a_load() {
    for_each_feed(|mut session| assert_eq!(session.refusal(&[3, 3, 0]), (9, 0)));
}

#[test]
fn d_numbers_out_of_range() {
    for_each_feed(|mut session| {
        assert_eq!(session.refusal(&[3, 4, 0]), (6, NONE_MISSING));
        assert_eq!(session.refusal(&[3, 64, 0]), (6, NONE_MISSING));
        assert_eq!(session.refusal(&[3, 0, 32]), (6, NONE_MISSING));
    });
}

#[test]
fn e_cookie_is_stored() {
    for_each_feed(|mut session| after_e(&mut session));
}

#[test]
fn f_cookie_is_carried() {
    for_each_feed(|mut session| {
        after_e(&mut session);
        let (out, _) = session.accept(&LOAD_0_ON_0);
        assert_eq!(out, [7, 0, 0, 1, 0, 0, 0, 7]);
    });
}

#[test]
fn g_cookie_is_not_carried() {
    for_each_feed(|mut session| {
        after_e(&mut session);
        assert_eq!(session.accept(&[3, 3, 3]).0, [3, 3, 3]);
    });
}

#[test]
fn h_readers_refuse_a_redirect() {
    for_each_feed(|mut session| {
        after_a(&mut session);
        assert_eq!(session.refusal(&[0x27, 0, 0, 1, 0, 0, 0, 9, 2]), (8, 1));
        assert_eq!((session.state[0], session.state[STATE_PRESENT]), (0, 0));
    });
}

#[test]
fn i_writers_refuse_a_redirect() {
    for_each_feed(|mut session| {
        assert_eq!(session.accept(&[3, 1, 1]).0, [3, 1, 1]);
        assert_eq!(session.refusal(&[0x23, 1, 1, 2]), (9, 0));
    });
}

#[test]
fn j_malformed_records() {
    for_each_feed(|mut session| {
        let malformed = |number| (number, NONE_MISSING);
        assert_eq!(session.refusal(&[]), malformed(10));
        assert_eq!(session.refusal(&[7, 0, 0, 1, 0, 0, 0, 7]), malformed(10));
        assert_eq!(session.refusal(&[7]), malformed(10));
        assert_eq!(session.refusal(&[0x0F, 0, 0, 0, 0]), malformed(12));
    });
}

/// Each input map with the bytes of its record, cookies aside.
const INPUTS: [(u8, usize); 9] = [
    (0x03, 3),
    (0x0B, 4),
    (0x0F, 4),
    (0x13, 7),
    (0x17, 7),
    (0x23, 4),
    (0x27, 4),
    (0x43, 3),
    (0x47, 3),
];
const INPUTS_WITH_COOKIES: [u8; 4] = [0x0F, 0x17, 0x27, 0x47];

/// A record of this length that names URL 64, so that one of right map and
/// length is refused with 6.
fn record_of(map: u8, key_map: u8, length: usize) -> Vec<u8> {
    let mut record = vec![map, 64, 0, key_map];
    record.resize(length, 0);
    record
}

#[test]
fn a_map_that_no_input_has() {
    for_each_feed(|mut session| {
        let strange = |map: &u8| INPUTS.iter().all(|(input, _)| input != map);
        assert_eq!((0..=255).filter(strange).count(), 247);
        for map in (0..=255).filter(strange) {
            for length in [1, 2, 3, 4, 5, 7, 8, 9, 12, 40, 300] {
                assert_eq!(session.refuse(&record_of(map, 0, length)), 10);
                assert_eq!(session.refuse(&record_of(map, 1, length)), 10);
            }
        }
    });
}

#[test]
fn a_requests_map() {
    for_each_feed(|mut session| {
        assert_eq!(session.refuse(&[7, 0]), 10);
        assert_eq!(session.refuse(&[7, 0, 0]), 10);
        assert_eq!(session.refuse(&[7, 0, 0, 0]), 10);
        assert_eq!(session.refuse(&[7, 0, 0, 1, 0, 0, 0]), 10);
        // The other maps of requests are inputs' too.
        assert_eq!(session.refuse(&[0x0B, 0, 0, 0]), 7);
        assert_eq!(session.refuse(&RESPONSE_WITH_7), 7);
        assert_eq!(session.refuse(&[0x43, 0, 0]), 7);
        assert_eq!(session.refuse(&[0x47, 0, 0, 1, 0, 0, 0, 7]), 7);
        assert_eq!(session.accept(&[3, 0, 0]).0, [3, 0, 0]);
    });
}

#[test]
fn a_key_map_of_zero() {
    for_each_feed(|mut session| {
        assert_eq!(session.refuse(&[0x0F, 0, 0, 0]), 12);
        assert_eq!(session.refuse(&[0x0F, 0, 0, 0, 0, 0]), 12);
        assert_eq!(session.refuse(&[0x17, 0, 0, 0, 1, 2, 3, 4]), 12);
        assert_eq!(session.refuse(&[0x27, 0, 0, 0, 0, 0, 0, 7, 2]), 12);
        assert_eq!(session.refuse(&[0x47, 0, 0, 0]), 12);
        for map in INPUTS_WITH_COOKIES {
            for length in 4..=300 {
                assert_eq!(session.refuse(&record_of(map, 0, length)), 12);
            }
        }
    });
}

#[test]
fn a_key_map_that_is_not_there() {
    for_each_feed(|mut session| {
        assert_eq!(session.refuse(&[0x0F, 0, 0]), 11);
        for map in INPUTS_WITH_COOKIES {
            for length in 1..=3 {
                assert_eq!(session.refuse(&record_of(map, 0, length)), 11);
            }
        }
    });
}

#[test]
fn zero_where_no_key_map_stands() {
    for_each_feed(|mut session| {
        assert_eq!(session.refuse(&[3, 0, 0, 0]), 11);
        assert_eq!(session.refuse(&[0x13, 0, 0, 0]), 11);
        assert_eq!(session.refuse(&[0x23, 0, 0, 0, 0]), 11);
        assert_eq!(session.refuse(&[0x43, 0, 0, 0]), 11);
        after_a(&mut session);
        assert_eq!(session.accept(&[0x0B, 0, 0, 0]), (vec![], 1));
    });
}

#[test]
fn a_length_that_the_maps_do_not_call_for() {
    for_each_feed(|mut session| {
        assert_eq!(session.refuse(&[3]), 11);
        assert_eq!(session.refuse(&[3, 0]), 11);
        assert_eq!(session.refuse(&RESPONSE_WITH_7[..8]), 11);
        for (map, bytes) in INPUTS {
            if !INPUTS_WITH_COOKIES.contains(&map) {
                only_this_length(&mut session, map, 0, bytes);
                continue;
            }
            for key_map in 1..=255_u8 {
                let cookies = 1 + 4 * key_map.count_ones() as usize;
                only_this_length(&mut session, map, key_map, bytes + cookies);
            }
        }
    });
}

/// The maps call for this length: cut or lengthened, the record has 11.
fn only_this_length(session: &mut Session, map: u8, key_map: u8, whole: usize) {
    for length in (1..=48).chain([255, 256, whole + 256]) {
        let number = if length == whole { 6 } else { 11 };
        let record = record_of(map, key_map, length);
        assert_eq!(session.refuse(&record), number, "{record:02x?}");
    }
}

const MALFORMED: [&[u8]; 4] = [&[], &[7], &[0x0F, 0, 0, 0], &[3, 0]];

#[test]
fn a_record_is_read_after_policy_scripts_and_state() {
    for_each_feed(|mut session| {
        let numbers = |session: &mut Session| MALFORMED.map(|record| session.refuse(record));
        assert_eq!(numbers(&mut session), [10, 10, 12, 11]);
        session.state[STATE_PRESENT] = 256;
        assert_eq!(numbers(&mut session), [4; 4]);
        session.scripts.pop();
        assert_eq!(numbers(&mut session), [3; 4]);
        session.policy.pop();
        assert_eq!(numbers(&mut session), [2; 4]);
    });
}

/// A script that reads key 0 into register 1, then writes it back.
fn read_key_0(session: &mut Session) {
    session.scripts[..8].copy_from_slice(&[3, 1, 0, 0, 4, 0, 1, 0]);
}

#[test]
fn a_script_is_stopped_or_goes_on() {
    for_each_feed(|mut session| {
        after_e(&mut session);
        read_key_0(&mut session);
        session.accept(&LOAD_0_ON_0);
        assert_eq!(session.accept(&[0x0B, 0, 0, 0]), (vec![], 1));
        session.accept(&[3, 0, 2]);
        assert_eq!(session.accept(&[0x0B, 0, 2, 0]), (vec![], 3));
    });
}

fn feed_into(feed: Feed, record: &[u8], length: usize) -> Answer {
    let mut state = vec![0; STATE_WORDS];
    let mut out = vec![0xA5; length];
    let answer = feed(
        &document(),
        &[0; SCRIPTS_BYTES],
        &mut state,
        record,
        &mut out,
    );
    if answer.number != 0 {
        assert!(state.iter().all(|&word| word == 0));
        assert!(out.iter().all(|&byte| byte == 0xA5));
    }
    answer
}

#[test]
fn a_short_output_buffer() {
    let answer = |number, bytes| Answer {
        number,
        bytes,
        steps: 0,
        missing: NONE_MISSING,
    };
    let (accepted, refused) = (answer(0, 3), answer(1, 0));
    for (_, feed) in FEEDS {
        assert_eq!(feed_into(feed, &LOAD_0_ON_0, 0), refused);
        assert_eq!(feed_into(feed, &LOAD_0_ON_0, OUTPUT_BYTES - 1), refused);
        assert_eq!(feed_into(feed, &LOAD_0_ON_0, OUTPUT_BYTES), accepted);
        for record in MALFORMED {
            assert_eq!(feed_into(feed, record, OUTPUT_BYTES - 1), refused);
        }
    }
}

const WALK_RECORDS: [u8; 23] = [
    3, 3, 0, 0, 9, 0x0F, 0, 0, 1, 0, 0, 0, 7, 0, 3, 3, 0, 0, 3, 3, 0, 1, 0,
];

const WALK_LINES: &str = "\
1 0 3 0 32
> 0 0 00
2 0 0 1 32
3 0 8 0 32
> 0 0 01
4 8 0 0 1
5 10 0 0 32
end 3 2
";

#[test]
fn walk_prints_the_example() {
    let input = walk_input(&WALK_RECORDS);
    assert_eq!(reference::walk(&input), WALK_LINES);
}

/// Empty, a request's map, key map 00 in three lengths, key map cut off, cut,
/// trailing.
#[test]
fn walk_prints_why_a_record_is_malformed() {
    let records: [&[u8]; 8] = [
        &[],
        &[7],
        &[0x0F, 0, 0, 0],
        &[0x0F, 0, 0, 0, 0],
        &[0x0F, 0, 0, 0, 0, 0],
        &[0x0F, 0, 0],
        &[3, 0],
        &[3, 0, 0, 0],
    ];
    let with_length = |record: &&[u8]| [&[record.len() as u8], *record].concat();
    let input = walk_input(&records.iter().flat_map(with_length).collect::<Vec<_>>());
    let lines = "\
1 10 0 0 32
2 10 0 0 32
3 12 0 0 32
4 12 0 0 32
5 12 0 0 32
6 11 0 0 32
7 11 0 0 32
8 11 0 0 32
end 0 8
";
    assert_eq!(reference::walk(&input), lines);
}

#[test]
fn walk_prints_a_cut() {
    let mut input = walk_input(&WALK_RECORDS);
    input.extend([4, 3, 0, 0]);
    let lines = WALK_LINES.replace("end", "cut");
    assert_eq!(reference::walk(&input), lines);
    assert_eq!(reference::walk(&walk_input(&[1])), "cut 0 0\n");
}

#[test]
fn walk_knows_short_and_long() {
    let input = walk_input(&[]);
    assert_eq!(reference::walk(&input), "end 0 0\n");
    assert_eq!(reference::walk(&input[1..]), "short\n");
    assert_eq!(reference::walk(&[]), "short\n");
    assert_eq!(reference::walk(&[0; WALK_LONGEST + 1]), "long\n");
    let zeros = reference::walk(&[0; WALK_LONGEST]);
    assert!(zeros.starts_with("1 2 0 0 32\n2 2 0 0 32\n"));
    let refused = WALK_LONGEST - WALK_SHORTEST;
    assert!(zeros.ends_with(&format!("\nend 0 {refused}\n")));
}

/// A script of sends and its requests, read back by walk.
#[test]
fn walk_prints_every_request() {
    let mut input = walk_input(&[3, 3, 1, 1, 4, 0x0B, 1, 1, 0]);
    let scripts = 4 * POLICY_WORDS;
    input[scripts..scripts + 8].copy_from_slice(&[5, 1, 1, 3, 5, 1, 1, 16]);
    let lines = "1 0 3 0 32\n> 1 1 00\n2 0 4 2 32\n> 1 1 00\nend 2 0\n";
    assert_eq!(reference::walk(&input), lines);
}
