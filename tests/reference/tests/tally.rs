//! The tally of requests: lists counted by hand, every way to be turned away, and random lists on which the plain and the fast tally agree.

use cases::{Call, Random, Setting};
use reference::layout::URLS;
use reference::{
    feed_noting, tally, tally_fast, tally_noting, tally_text, Event, Seen, Tally, TallyEvent,
    TallySeen, LIST_BAD, LIST_BYTES,
};

/// A document without cookies, 3 bytes.
const DOCUMENT: [u8; 3] = [0x03, 0, 0];
/// A script's request without cookies, 4 bytes.
const SCRIPT: [u8; 4] = [0x0B, 0, 0, 0];
/// A document with one cookie, 8 bytes: document 01's case f.
const DOCUMENT_1: [u8; 8] = [0x07, 0, 0, 1, 0, 0, 0, 7];
/// A script's request with one cookie, 9 bytes.
const SCRIPT_1: [u8; 9] = [0x0F, 0, 0, 1, 0, 0, 0, 7, 0];
/// A picture without cookies, 3 bytes.
const PICTURE: [u8; 3] = [0x43, 0, 0];
/// A picture with one cookie, 8 bytes.
const PICTURE_1: [u8; 8] = [0x47, 0, 0, 1, 0, 0, 0, 7];

/// A document with all eight cookies, 4 + 32 bytes.
fn document_8() -> Vec<u8> {
    [&[0x07, 5, 6, 0xFF][..], &[0x0B; 32]].concat()
}

/// A script's request with all eight cookies, 4 + 32 + 1 bytes.
fn script_8() -> Vec<u8> {
    [&[0x0F, 5, 6, 0xFF][..], &[0x03; 32], &[15]].concat()
}

/// A picture with all eight cookies, 4 + 32 bytes.
fn picture_8() -> Vec<u8> {
    [&[0x47, 5, 6, 0xFF][..], &[0x43; 32]].concat()
}

/// One record of each kind, without cookies, with one, and with all.
fn every_kind() -> [Vec<u8>; 9] {
    [
        DOCUMENT.to_vec(),
        SCRIPT.to_vec(),
        DOCUMENT_1.to_vec(),
        SCRIPT_1.to_vec(),
        document_8(),
        script_8(),
        PICTURE.to_vec(),
        PICTURE_1.to_vec(),
        picture_8(),
    ]
}

fn empty() -> Tally {
    Tally {
        number: 0,
        records: [0; URLS],
        cookies: [0; URLS],
        all_records: 0,
        all_cookies: 0,
    }
}

fn turned_away() -> Tally {
    Tally {
        number: 13,
        ..empty()
    }
}

/// Tallies a list and holds the fast tally to the plain one. Checks what holds of every tally.
fn tally_both(list: &[u8], seen: &mut TallySeen) -> Tally {
    let plain = tally_noting(list, seen);
    assert_eq!(plain, tally_fast(list), "{list:02x?}");
    assert_eq!(plain.all_records, plain.records.iter().sum());
    assert_eq!(plain.all_cookies, plain.cookies.iter().sum());
    if plain.number != 0 {
        assert_eq!(plain, turned_away());
    }
    plain
}

/// The list is accepted and the program prints this.
fn prints(list: &[u8], text: &str) {
    assert_eq!(tally_both(list, &mut TallySeen::new()).number, 0);
    assert_eq!(tally_text(list), text);
}

/// The list is turned away because of this, and of nothing else.
fn bad(list: &[u8], why: TallyEvent) {
    let mut seen = TallySeen::new();
    assert_eq!(tally_both(list, &mut seen), turned_away(), "{list:02x?}");
    assert_eq!(tally_text(list), "bad\n");
    let mut only = TallySeen::new();
    only.note(why);
    assert_eq!(seen, only, "{list:02x?}: {}", why.name());
}

/// A list with this record is turned away: alone, and between good requests of each kind, few and many.
fn bad_anywhere(record: &[u8]) {
    assert_eq!(tally_both(record, &mut TallySeen::new()), turned_away());
    for kind in every_kind() {
        for (before, after) in [(1, 0), (9, 0), (0, 1), (1, 1), (9, 9), (30, 1)] {
            let list = [kind.repeat(before), record.to_vec(), kind.repeat(after)].concat();
            let tally = tally_both(&list, &mut TallySeen::new());
            assert_eq!(tally, turned_away(), "{list:02x?}");
        }
    }
}

#[test]
fn numbers_of_the_document() {
    assert_eq!(LIST_BYTES, 1 << 16);
    assert_eq!(LIST_BAD, 13);
}

#[test]
fn the_empty_list() {
    prints(&[], "all 0 0\n");
    assert_eq!(tally(&[]), empty());
}

/// What document 01's cases a, f and g send, in this order: URL 0 has two requests, the second with cookie 0; URL 3 has one.
#[test]
fn requests_of_the_document() {
    let list = [&DOCUMENT[..], &DOCUMENT_1, &[3, 3, 3]].concat();
    prints(&list, "0 2 1\n3 1 0\nall 3 1\n");
}

/// Key map 07 has three bits and is followed by three values: three cookies. FF has eight, 80 one.
#[test]
fn cookies_are_counted_singly() {
    let three = [&[0x07, 2, 0, 0x07][..], &[0xFF; 12]].concat();
    prints(&three, "2 1 3\nall 1 3\n");
    prints(&document_8(), "5 1 8\nall 1 8\n");
    prints(&script_8(), "5 1 8\nall 1 8\n");
    prints(&picture_8(), "5 1 8\nall 1 8\n");
    prints(&[0x07, 2, 0, 0x80, 1, 2, 3, 4], "2 1 1\nall 1 1\n");
    let twelve = [&three[..], &script_8(), &DOCUMENT_1].concat();
    prints(&twelve, "0 1 1\n2 1 3\n5 1 8\nall 3 12\n");
}

/// The largest numbers in range. The URLs of the list fall, those of the lines rise, and URL 9 comes before 63 as a number, not as text.
#[test]
fn lines_rise() {
    let list = [0x0B, 63, 31, 15, 0x03, 9, 31, 0x0B, 0, 0, 0, 0x03, 63, 0];
    prints(&list, "0 1 0\n9 1 0\n63 2 0\nall 4 0\n");
}

/// Two requests to URL 1: connection and handler are not told apart, and a cookie's value may be 0.
#[test]
fn only_urls_are_told_apart() {
    let list = [0x0B, 1, 2, 3, 0x0F, 1, 4, 0x10, 0, 0, 0, 0, 5, 0x03, 1, 6];
    prints(&list, "1 3 1\nall 3 1\n");
}

/// All three kinds, with cookies and without. URL 1 has a document and a picture with keys 1 and 2, URL 2 a document with key 7 and a script's
/// request, URL 3 a script's request with key 0 and two pictures: 7 records, 2 + 1 + 1 = 4 cookies.
#[test]
fn three_kinds() {
    let list = [
        &[0x03, 1, 0][..],
        &[0x47, 1, 31, 0x06, 0, 0, 0, 1, 0, 0, 0, 2],
        &[0x43, 3, 16],
        &[0x0B, 2, 1, 15],
        &[0x0F, 3, 2, 0x01, 0x43, 0x43, 0x43, 0x43, 0],
        &[0x43, 3, 0],
        &[0x07, 2, 3, 0x80, 0, 0, 0, 0],
    ]
    .concat();
    prints(&list, "1 2 2\n2 2 1\n3 3 1\nall 7 4\n");
}

/// 64 URLs, URL u with u + 1 documents: 64 · 65 / 2 = 2,080 records, 6,240 bytes.
#[test]
fn a_line_for_each_url() {
    let list: Vec<u8> = (0..64)
        .flat_map(|url| [3, url, 0].repeat(usize::from(url) + 1))
        .collect();
    let lines: String = (0..64)
        .map(|url| format!("{url} {} 0\n", url + 1))
        .collect();
    prints(&list, &(lines + "all 2080 0\n"));
}

/// A cut between records leaves a good list, every other cut a bad one.
fn cut_everywhere(records: &[Vec<u8>]) {
    let list = records.concat();
    let mut ends = vec![0];
    for record in records {
        ends.push(ends[ends.len() - 1] + record.len());
    }
    for length in 0..=list.len() {
        let tally = tally_both(&list[..length], &mut TallySeen::new());
        match ends.iter().position(|&end| end == length) {
            Some(records) => assert_eq!((tally.number, tally.all_records), (0, records as u32)),
            None => assert_eq!(tally.number, 13, "{length}"),
        }
    }
}

#[test]
fn a_list_cut_at_each_byte() {
    cut_everywhere(&every_kind());
    cut_everywhere(&[every_kind(), every_kind()].concat());
    for kind in every_kind() {
        cut_everywhere(&vec![kind; 30]);
    }
}

/// By where the list ends: after 1 byte the URL is missing, after 2 the connection, after 3 the key map or the handler, then a value's bytes,
/// and last the handler of a script's request with cookies.
#[test]
fn why_a_cut_list_is_bad() {
    for kind in every_kind() {
        bad(&kind[..1], TallyEvent::CutUrl);
        bad(&kind[..2], TallyEvent::CutConnection);
    }
    bad(&SCRIPT[..3], TallyEvent::CutHandler);
    bad(&DOCUMENT_1[..3], TallyEvent::CutKeys);
    bad(&SCRIPT_1[..3], TallyEvent::CutKeys);
    bad(&PICTURE_1[..3], TallyEvent::CutKeys);
    for length in 4..8 {
        bad(&DOCUMENT_1[..length], TallyEvent::CutValues);
        bad(&SCRIPT_1[..length], TallyEvent::CutValues);
        bad(&PICTURE_1[..length], TallyEvent::CutValues);
    }
    bad(&SCRIPT_1[..8], TallyEvent::CutHandler);
    for length in 4..36 {
        bad(&document_8()[..length], TallyEvent::CutValues);
        bad(&script_8()[..length], TallyEvent::CutValues);
        bad(&picture_8()[..length], TallyEvent::CutValues);
    }
    bad(&script_8()[..36], TallyEvent::CutHandler);
}

#[test]
fn a_last_record_one_byte_short() {
    for last in every_kind() {
        for kind in every_kind() {
            for before in [0, 1, 5, 40] {
                let mut list = [kind.repeat(before), last.clone()].concat();
                list.pop();
                assert_eq!(tally_both(&list, &mut TallySeen::new()), turned_away());
            }
        }
    }
}

/// The cookie bit asks for a key map that is not zero, whatever follows.
#[test]
fn a_key_map_of_zero() {
    for map in [0x07, 0x0F, 0x47] {
        bad(&[map, 0, 0, 0], TallyEvent::NoKeys);
        bad(&[map, 0, 0, 0, 0], TallyEvent::NoKeys);
        bad_anywhere(&[map, 0, 0, 0]);
        bad_anywhere(&[map, 0, 0, 0, 0]);
        bad_anywhere(&[map, 0, 0, 0, 0, 0, 0, 7, 0]);
    }
    // Where no key map stands, zero is a handler or nothing at all.
    prints(&SCRIPT, "0 1 0\nall 1 0\n");
    bad(&[3, 0, 0, 0], TallyEvent::MapUnknown);
    bad(&[0x43, 0, 0, 0], TallyEvent::MapUnknown);
}

/// Whole input records, as document 01 has them. Maps 03, 0B, 0F, 43 and 47 are requests' too.
#[test]
fn an_input_is_no_request() {
    let inputs: [&[u8]; 4] = [
        &[0x13, 0, 0, 0, 0, 0, 7],
        &[0x17, 0, 0, 1, 0, 0, 0, 7, 0, 0, 0, 9],
        &[0x23, 0, 0, 1],
        &[0x27, 0, 0, 1, 0, 0, 0, 7, 1],
    ];
    for input in inputs {
        bad(input, TallyEvent::MapInput);
        bad(&input[..1], TallyEvent::MapInput);
        bad_anywhere(input);
    }
    prints(
        &[&DOCUMENT[..], &SCRIPT, &SCRIPT_1, &PICTURE, &PICTURE_1].concat(),
        "0 5 2\nall 5 2\n",
    );
}

/// Of the 256 maps six are requests': 03, 07, 0B, 0F, 43 and 47.
#[test]
fn every_map() {
    let fields = [0, 0, 1, 0, 0, 0, 7, 0, 0, 0, 0, 0];
    for map in 0..=255 {
        if matches!(map, 0x03 | 0x07 | 0x0B | 0x0F | 0x43 | 0x47) {
            continue;
        }
        let record = [&[map][..], &fields].concat();
        for length in 1..=record.len() {
            let tally = tally_both(&record[..length], &mut TallySeen::new());
            assert_eq!(tally, turned_away(), "{map:02x}");
        }
        bad_anywhere(&record);
    }
    for kind in every_kind() {
        assert_eq!(tally_both(&kind, &mut TallySeen::new()).all_records, 1);
    }
}

/// Numbers just in range are accepted, the next ones are not, nor any above.
#[test]
fn numbers_out_of_range() {
    let limits = [
        (1, 64, TallyEvent::UrlAbove),
        (2, 32, TallyEvent::ConnectionAbove),
    ];
    for kind in every_kind() {
        for (place, limit, why) in limits {
            number_at(&kind, place, limit, why);
        }
        if kind[0] & 0x08 != 0 {
            number_at(&kind, kind.len() - 1, 16, TallyEvent::HandlerAbove);
        }
    }
}

/// The number at this place of a record is below the limit, or the list is bad.
fn number_at(record: &[u8], place: usize, limit: u8, why: TallyEvent) {
    let mut record = record.to_vec();
    for number in 0..=255 {
        record[place] = number;
        if number < limit {
            let tally = tally_both(&record, &mut TallySeen::new());
            assert_eq!((tally.number, tally.all_records), (0, 1));
        } else {
            bad(&record, why);
            bad_anywhere(&record);
        }
    }
}

/// Nothing is asked of a document's handler or a picture's, for it has none: its last byte is a connection up to 31, or the end of any
/// value. What follows is the next record.
#[test]
fn documents_and_pictures_have_no_handler() {
    for (plain, with_cookies) in [(0x03, 0x07), (0x43, 0x47)] {
        prints(&[plain, 0, 16], "0 1 0\nall 1 0\n");
        let one = [with_cookies, 0, 16, 1, 0, 0, 0, 0xFF];
        prints(&one, "0 1 1\nall 1 1\n");
        bad(&[plain, 0, 0, 1], TallyEvent::MapUnknown);
        bad(&[&one[..], &[1]].concat(), TallyEvent::MapUnknown);
    }
}

/// 21,845 documents, or as many pictures, have 65,535 bytes. 21,844 and a script's request have 65,532 + 4 = 65,536, as many records; 21,843 and two
/// script's requests have 65,529 + 8 = 65,537.
#[test]
fn the_longest_list_of_short_requests() {
    prints(&DOCUMENT.repeat(21_845), "0 21845 0\nall 21845 0\n");
    prints(&PICTURE.repeat(21_845), "0 21845 0\nall 21845 0\n");
    let list = [DOCUMENT.repeat(21_844), SCRIPT.to_vec()].concat();
    assert_eq!(list.len(), LIST_BYTES);
    prints(&list, "0 21845 0\nall 21845 0\n");
    let list = [DOCUMENT.repeat(21_843), SCRIPT.repeat(2)].concat();
    assert_eq!(list.len(), LIST_BYTES + 1);
    bad(&list, TallyEvent::TooLong);
}

/// 1,820 documents with eight cookies have 65,520 bytes; one with three has 4 + 12 = 16. No list has more cookies: 14,560 + 3.
#[test]
fn the_longest_list_of_most_cookies() {
    let three = [&[0x07, 6, 0, 0x07][..], &[0; 12]].concat();
    let list = [document_8().repeat(1_820), three].concat();
    assert_eq!(list.len(), LIST_BYTES);
    prints(&list, "5 1820 14560\n6 1 3\nall 1821 14563\n");
}

/// 1,771 scripts' requests with eight cookies have 65,527 bytes; three documents fill them up to 65,536. A fourth, or a byte that is
/// no record, is too long, as is anything longer.
#[test]
fn one_byte_or_more_above_the_longest() {
    let list = [script_8().repeat(1_771), DOCUMENT.repeat(3)].concat();
    assert_eq!(list.len(), LIST_BYTES);
    prints(&list, "0 3 0\n5 1771 14168\nall 1774 14168\n");
    for more in [1, 3, LIST_BYTES, 1 << 20] {
        let list = [&list[..], &DOCUMENT.repeat(more)[..more]].concat();
        bad(&list, TallyEvent::TooLong);
    }
    bad(&SCRIPT.repeat(16_385), TallyEvent::TooLong);
    prints(&SCRIPT.repeat(16_384), "0 16384 0\nall 16384 0\n");
}

/// What the monitor sends is a list of requests; it counts them as it sends them.
#[test]
fn requests_of_the_monitor() {
    let mut call = Call::default();
    for case in 0..40 {
        let random = Random::of_case(7, case);
        let setting = Setting::random(&random);
        let (mut sent, mut seen) = (Vec::new(), Seen::new());
        call.start_run(&setting, &random);
        for _ in 0..100 {
            call.make_next(&setting, &random);
            let Call {
                policy,
                scripts,
                state,
                record,
                out,
            } = &mut call;
            let answer = feed_noting(policy, scripts, state, record, out, &mut seen);
            sent.extend(&out[..answer.bytes as usize]);
        }
        assert!(sent.len() <= LIST_BYTES);
        let tally = tally_both(&sent, &mut TallySeen::new());
        let requests = seen.count(Event::RequestPlain) + seen.count(Event::RequestCookies);
        assert_eq!((tally.number, u64::from(tally.all_records)), (0, requests));
    }
}

/// A good list made at random, and what it must come to.
struct Made {
    list: Vec<u8>,
    tally: Tally,
}

impl Made {
    fn new() -> Made {
        Made {
            list: Vec::new(),
            tally: empty(),
        }
    }

    /// Adds a request of this map and, where it has cookies, this key map.
    fn add(&mut self, map: u8, keys: u8, random: &Random) {
        let url = random.byte_below(64);
        self.list.extend([map, url, random.byte_below(32)]);
        let cookies = if map & 0x04 == 0 {
            0
        } else {
            keys.count_ones()
        };
        if cookies > 0 {
            self.list.push(keys);
        }
        for _ in 0..cookies {
            self.list.extend(random.word().to_be_bytes());
        }
        if map & 0x08 != 0 {
            self.list.push(random.byte_below(16));
        }
        self.tally.records[usize::from(url)] += 1;
        self.tally.cookies[usize::from(url)] += cookies;
        self.tally.all_records += 1;
        self.tally.all_cookies += cookies;
    }

    /// Adds requests one after another as long as the list has room for the longest: of one map, of one map and key map, mostly so, or of
    /// any.
    fn fill(length: usize, random: &Random) -> Made {
        let mut made = Made::new();
        let maps = [3, 7, 0x0B, 0x0F, 0x43, 0x47];
        let any = || (random.pick(&maps), random.byte().max(1));
        let (usual_map, usual_keys) = any();
        let style = random.below(4);
        while made.list.len() + 37 <= length {
            let (map, keys) = any();
            match style {
                0 => made.add(usual_map, keys, random),
                1 => made.add(usual_map, usual_keys, random),
                2 if !random.one_in(8) => made.add(usual_map, usual_keys, random),
                _ => made.add(map, keys, random),
            }
        }
        made
    }

    /// A list of just this length: the last bytes, at least 6, are requests of 4 bytes and then of 3.
    fn fill_to(length: usize, random: &Random) -> Made {
        let mut made = Made::fill(length - 6, random);
        while made.list.len() < length {
            let left = length - made.list.len();
            let map = if left.is_multiple_of(3) { 3 } else { 0x0B };
            made.add(map, 0, random);
        }
        made
    }
}

/// One byte changed, dropped or inserted, a bit flipped, or the end cut off.
fn damage(list: &mut Vec<u8>, random: &Random) {
    let likely = random.pick(&[0, 3, 7, 0x0B, 0x0F, 0x13, 0x43, 0x47, 16, 32, 64, 0xFF]);
    let byte = random.pick(&[likely, likely, likely, random.byte()]);
    let place = random.below(list.len() + 1);
    match random.below(5) {
        0 if place < list.len() => list[place] = byte,
        1 if place < list.len() => list[place] ^= 1 << random.below(8),
        2 if place < list.len() => {
            list.remove(place);
        }
        3 => list.truncate(place),
        _ => list.insert(place, byte),
    }
}

/// Random bytes, or bytes that are likely in a list.
fn junk(random: &Random) -> Vec<u8> {
    let mut list = vec![0; random.below(80)];
    random.fill_bytes(&mut list);
    if random.one_in(2) {
        for byte in &mut list {
            *byte = random.pick(&[0, 1, 3, 3, 3, 7, 0x0B, 0x0F, 0x43, 0x47, *byte]);
        }
    }
    list
}

#[test]
fn random_lists() {
    let mut seen = TallySeen::new();
    for case in 0..6_000 {
        let random = Random::of_case(8, case);
        let length = random.pick(&[random.below(60), random.below(600), random.below(6_000)]);
        let Made { mut list, tally } = Made::fill(length, &random);
        assert_eq!(tally_both(&list, &mut seen), tally);
        for _ in 0..3 {
            damage(&mut list, &random);
            tally_both(&list, &mut seen);
        }
        tally_both(&junk(&random), &mut seen);
    }
    for case in 0..30 {
        let random = Random::of_case(9, case);
        let Made { mut list, tally } = Made::fill_to(LIST_BYTES, &random);
        assert_eq!(list.len(), LIST_BYTES);
        assert_eq!(tally_both(&list, &mut seen), tally);
        for _ in 0..3 {
            damage(&mut list, &random);
            tally_both(&list, &mut seen);
        }
        let too_long = Made::fill_to(LIST_BYTES + 1, &random).list;
        assert_eq!(tally_both(&too_long, &mut seen), turned_away());
    }
    let missing: Vec<_> = seen.missing().into_iter().map(TallyEvent::name).collect();
    assert!(missing.is_empty(), "never occurred: {missing:#?}");
}

/// Every byte of a list changed into every other, dropped, and each value inserted before it.
fn damage_everywhere(list: &[u8]) {
    let mut seen = TallySeen::new();
    for place in 0..list.len() {
        let mut dropped = list.to_vec();
        dropped.remove(place);
        tally_both(&dropped, &mut seen);
        let (mut changed, mut inserted) = (list.to_vec(), list.to_vec());
        inserted.insert(place, 0);
        for byte in 0..=255 {
            changed[place] = byte;
            inserted[place] = byte;
            tally_both(&changed, &mut seen);
            tally_both(&inserted, &mut seen);
        }
    }
}

#[test]
fn every_single_damage() {
    damage_everywhere(&every_kind().concat());
    // Many that are alike.
    damage_everywhere(&DOCUMENT.repeat(25));
    damage_everywhere(&SCRIPT.repeat(12));
    damage_everywhere(&DOCUMENT_1.repeat(9));
    damage_everywhere(&SCRIPT_1.repeat(9));
    damage_everywhere(&PICTURE.repeat(25));
    damage_everywhere(&PICTURE_1.repeat(9));
    damage_everywhere(&script_8().repeat(6));
}

#[test]
fn events_have_names() {
    for (place, event) in TallyEvent::ALL.into_iter().enumerate() {
        let others = &TallyEvent::ALL[place + 1..];
        assert!(others.iter().all(|other| other.name() != event.name()));
    }
}
