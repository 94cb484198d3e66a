//! What is noted of a search. Tables list events, cases of which each is noted, and cases just outside it of which it is not.

#[path = "common/planning.rs"]
mod planning;

use planning::{find_noting, list, set_connection, set_row, ALL};
use reference::layout::{POLICY_CONNECTIONS, POLICY_HTTPS_HOSTS, POLICY_PARTNERS};
use reference::JourneyEvent::{self, *};
use reference::JourneySeen;

/// What a search is given.
#[derive(Clone)]
struct Case {
    policy: Vec<u32>,
    urls: Vec<u8>,
}

/// Of the first cases it is noted, of the others not.
type Table = Vec<(JourneyEvent, Vec<Case>, Vec<Case>)>;

/// Readers and writers of a connection: all, and all but one. No URL of the cases has endpoint 30.
const FULL: [u32; 2] = [ALL, ALL];
const BUT_30: u32 = ALL & !(1 << 30);
const NO_READER_30: [u32; 2] = [BUT_30, ALL];
const NO_WRITER_30: [u32; 2] = [ALL, BUT_30];

/// All readers but the event endpoint of a host.
fn no_event(host: u32) -> [u32; 2] {
    [ALL & !(1 << host), ALL]
}

/// All writers but the message endpoint of an address.
fn no_message(address: u32) -> [u32; 2] {
    [ALL, ALL & !(1 << address)]
}

/// Http rows of the hosts 0 to 7: row h has everything, 10 + h lacks reader 30, 20 + h lacks writer 30, 30 + h lacks it and is an entry, and 55 at
/// host 2 is an entry that lacks reader 30. Https rows: 40 + h has everything; 51 at host 1 is an entry that lacks writer 30, 52 at host 2 is none and
/// lacks it, 63 is at host 3. Rows 53 and 54 are http and https at host 15.
fn world() -> Vec<u32> {
    let mut policy = planning::bare();
    for host in 0..8 {
        let rows = [
            (0, [host, ALL, ALL]),
            (10, [host, BUT_30, ALL]),
            (20, [host, ALL, BUT_30]),
            (30, [host + 32, ALL, BUT_30]),
            (40, [host + 16, ALL, ALL]),
        ];
        for (row, words) in rows {
            set_row(&mut policy, row + host as usize, words);
        }
    }
    set_row(&mut policy, 51, [17 + 32, ALL, BUT_30]);
    set_row(&mut policy, 52, [18, ALL, BUT_30]);
    set_row(&mut policy, 53, [15, ALL, ALL]);
    set_row(&mut policy, 54, [31, ALL, ALL]);
    set_row(&mut policy, 55, [2 + 32, BUT_30, ALL]);
    set_row(&mut policy, 63, [19, ALL, ALL]);
    policy
}

/// These connections have these readers and writers, from 0 on; the others have none.
fn on(connections: &[[u32; 2]], urls: &[u8]) -> Case {
    let mut policy = world();
    for (number, &sets) in connections.iter().enumerate() {
        set_connection(&mut policy, number, sets);
    }
    let urls = urls.to_vec();
    Case { policy, urls }
}

/// One connection has all readers and writers.
fn full_on(connection: usize, urls: &[u8]) -> Case {
    let mut connections = vec![[0, 0]; connection];
    connections.push(FULL);
    on(&connections, urls)
}

impl Case {
    /// Lists a host and gives each of its http rows this partner.
    fn listed(mut self, host: u32, partner: u32) -> Case {
        let is_http = |&row: &usize| [host, host + 32].contains(&self.policy[3 * row]);
        let rows: Vec<_> = (0..64).filter(is_http).collect();
        list(&mut self.policy, host, &rows, partner);
        self
    }

    fn with(mut self, place: usize, word: u32) -> Case {
        self.policy[place] = word;
        self
    }

    fn with_length(mut self, words: usize) -> Case {
        self.policy.resize(words, 255);
        self
    }
}

fn seen(case: &Case) -> JourneySeen {
    let mut seen = JourneySeen::new();
    find_noting(&case.policy, &case.urls, &mut seen);
    seen
}

fn check_all(table: Table) {
    for (event, noted, others) in table {
        assert!(!noted.is_empty());
        for (cases, is_noted) in [(noted, true), (others, false)] {
            for case in cases {
                let count = seen(&case).count(event);
                assert_eq!(count > 0, is_noted, "{:?}: {}", case.urls, event.name());
            }
        }
    }
}

fn policies() -> Table {
    let one = || full_on(0, &[1]);
    let words = |words| one().with_length(words);
    let row = || one().with(3 * 7, 64);
    let connection = || one().with(POLICY_CONNECTIONS + 3 * 31 + 1, 1);
    let hosts = || one().with(POLICY_HTTPS_HOSTS, 1 << 16);
    let partner = || one().with(POLICY_PARTNERS + 7, 47);
    let bad = |urls: &[u8]| full_on(0, urls).with(3 * 7, 64);
    vec![
        (
            PolicyLength,
            vec![words(0), words(544), words(608), words(610)],
            vec![one(), row(), connection(), hosts(), partner()],
        ),
        (
            PolicyNone,
            vec![words(0)],
            vec![words(1), words(608), row()],
        ),
        (
            PolicyShort,
            vec![words(1), words(608)],
            vec![words(0), words(610), row()],
        ),
        (
            PolicyLong,
            vec![words(610), words(1218)],
            vec![words(608), row()],
        ),
        (PolicyRow, vec![row()], vec![one(), connection(), words(1)]),
        (PolicyConnection, vec![connection()], vec![row(), hosts()]),
        (PolicyHosts, vec![hosts()], vec![connection(), partner()]),
        (PolicyPartner, vec![partner()], vec![one(), hosts(), row()]),
        (
            PolicyAlone,
            vec![bad(&[1]), bad(&[1; 16]), partner()],
            vec![
                bad(&[]),
                bad(&[1; 17]),
                bad(&[64]),
                bad(&[8]),
                words(610),
                one(),
            ],
        ),
        (
            PolicyThenLength,
            vec![bad(&[]), bad(&[1; 17]), full_on(0, &[]).with_length(0)],
            vec![bad(&[1]), bad(&[64]), full_on(0, &[])],
        ),
        (
            PolicyThenAbove,
            vec![bad(&[1, 64]), full_on(0, &[255]).with_length(0)],
            vec![bad(&[63]), full_on(0, &[64])],
        ),
        (
            PolicyThenEmpty,
            vec![bad(&[1, 8]), bad(&[8, 64])],
            vec![bad(&[64]), bad(&[1]), full_on(0, &[8])],
        ),
    ]
}

fn refused_journeys() -> Table {
    let full = |urls: &[u8]| full_on(5, urls);
    vec![
        (
            JourneyEmpty,
            vec![full(&[])],
            vec![full(&[8]), full(&[1; 17])],
        ),
        (
            JourneyLong,
            vec![full(&[1; 17]), full(&[8; 300])],
            vec![full(&[1; 16]), full(&[]), full(&[8])],
        ),
        (
            Journey17,
            vec![full(&[1; 17])],
            vec![full(&[1; 16]), full(&[1; 18])],
        ),
        (
            JourneyLonger,
            vec![full(&[1; 18]), full(&[1; 255])],
            vec![full(&[1; 17]), full(&[1; 256])],
        ),
        (
            JourneyLongest,
            vec![full(&[1; 256]), full(&[1; 257])],
            vec![full(&[1; 255])],
        ),
        (
            JourneyLongCarried,
            vec![full(&[1; 17]), full(&[&[1; 16][..], &[8]].concat())],
            vec![full(&[21; 17]), full(&[8; 17]), full(&[1; 16])],
        ),
        (
            JourneyLongNoRow,
            vec![full(&[8; 17]), full(&[&[1; 17][..], &[64]].concat())],
            vec![full(&[1; 17]), full(&[8])],
        ),
        (
            NumberAbove,
            vec![full(&[64]), full(&[1, 200]), full(&[64, 8])],
            vec![full(&[8, 64]), full(&[63])],
        ),
        (Number64, vec![full(&[64])], vec![full(&[63]), full(&[65])]),
        (Number255, vec![full(&[1, 255])], vec![full(&[254])]),
        (
            NumberWraps,
            vec![full(&[65]), full(&[129]), full(&[255])],
            vec![full(&[64 + 8]), full(&[8]), full(&[1])],
        ),
        (
            RowEmpty,
            vec![full(&[8]), full(&[8, 64])],
            vec![full(&[64, 8]), full(&[1])],
        ),
        (
            AboveFirst,
            vec![full(&[64]), full(&[64, 8, 1])],
            vec![full(&[1, 64]), full(&[8, 64])],
        ),
        (
            AboveMiddle,
            vec![full(&[1, 64, 1]), full(&[1, 64, 8])],
            vec![full(&[64, 64, 1]), full(&[1, 64]), full(&[1, 8, 1])],
        ),
        (
            AboveLast,
            vec![full(&[1, 64]), full(&[1, 1, 64])],
            vec![full(&[64]), full(&[1, 64, 64]), full(&[1, 8])],
        ),
        (
            EmptyFirst,
            vec![full(&[8]), full(&[8, 64, 1])],
            vec![full(&[1, 8]), full(&[64, 8])],
        ),
        (
            EmptyMiddle,
            vec![full(&[1, 8, 1]), full(&[1, 8, 64])],
            vec![full(&[8, 8, 1]), full(&[1, 8]), full(&[1, 64, 1])],
        ),
        (
            EmptyLast,
            vec![full(&[1, 8]), full(&[1, 1, 8])],
            vec![full(&[8]), full(&[1, 8, 8]), full(&[1, 64])],
        ),
        (
            NoRowBoth,
            vec![full(&[8, 64]), full(&[64, 1, 8])],
            vec![full(&[8, 9]), full(&[64, 65])],
        ),
        (
            NoRowSingle,
            vec![full(&[8]), full(&[64])],
            vec![full(&[1, 8]), full(&[1])],
        ),
        (
            NoRowBehindCarried,
            vec![full(&[1, 8]), full(&[1, 2, 64, 21])],
            vec![full(&[8]), full(&[1, 21, 8])],
        ),
        (
            NoRowBehindNone,
            vec![full(&[1, 21, 8]), on(&[], &[1, 64])],
            vec![on(&[], &[64]), full(&[1, 8])],
        ),
    ]
}

fn told_connections() -> Table {
    let full = |urls: &[u8]| full_on(0, urls);
    let none = |urls: &[u8]| on(&[], urls);
    let several = |count| on(&vec![FULL; count], &[1, 2]);
    let at = |connection| full_on(connection, &[1, 2]);
    vec![
        (Found0, vec![at(0)], vec![at(1), none(&[1]), none(&[])]),
        (FoundBetween, vec![at(1), at(30)], vec![at(0), at(31)]),
        (Found31, vec![at(31)], vec![at(30), none(&[1])]),
        (FoundNone, vec![none(&[1])], vec![at(0), at(31), none(&[])]),
        (Length1, vec![full(&[1])], vec![full(&[1; 2]), none(&[1])]),
        (
            Length2,
            vec![full(&[1; 2]), full(&[1; 15])],
            vec![full(&[1]), full(&[1; 16]), none(&[1; 2])],
        ),
        (
            Length16,
            vec![full(&[1; 16])],
            vec![full(&[1; 15]), none(&[1; 16])],
        ),
        (None1, vec![none(&[1])], vec![full(&[1]), none(&[1; 2])]),
        (
            None2,
            vec![none(&[1; 2]), none(&[1; 15])],
            vec![none(&[1]), none(&[1; 16]), full(&[1; 2])],
        ),
        (
            None16,
            vec![none(&[1; 16])],
            vec![none(&[1; 15]), full(&[1; 16])],
        ),
        (CarriedByOne, vec![several(1), at(31)], vec![several(2)]),
        (
            CarriedBySeveral,
            vec![several(2), several(31)],
            vec![several(1), several(32)],
        ),
        (CarriedByAll, vec![several(32)], vec![several(31)]),
        (
            OneHost,
            vec![full(&[1, 1]), full(&[1, 41])],
            vec![full(&[1]), full(&[1, 2]), none(&[1, 1])],
        ),
        (
            SeveralHosts,
            vec![full(&[1, 2]), full(&[1, 1, 42])],
            vec![full(&[1, 41]), none(&[1, 2])],
        ),
        (
            NoReaders,
            vec![on(&[[0, ALL]], &[1])],
            vec![full(&[1]), on(&[[0, ALL]], &[1, 1])],
        ),
        (Url0, vec![full(&[1, 0])], vec![full(&[1]), full(&[0, 8])]),
        (Url63, vec![full(&[63])], vec![full(&[1]), full(&[63, 8])]),
        (Address0, vec![full(&[1, 30])], vec![full(&[1, 40])]),
        (Address31, vec![none(&[54])], vec![none(&[53])]),
    ]
}

fn failures() -> Table {
    let lower = |sets, urls: &[u8]| on(&[sets, FULL], urls);
    let higher = |sets, urls: &[u8]| on(&[FULL, sets], urls);
    let reader = |urls: &[u8]| on(&[FULL, NO_READER_30], urls);
    let writer = |urls: &[u8]| on(&[FULL, NO_WRITER_30], urls);
    let event = |urls: &[u8]| lower(no_event(2), urls);
    let message = |urls: &[u8]| lower(no_message(2), urls);
    vec![
        (
            FailLoadReaders,
            vec![reader(&[11]), reader(&[11, 12])],
            vec![reader(&[1, 11]), on(&[NO_READER_30, FULL], &[11])],
        ),
        (
            FailLoadMessage,
            vec![message(&[2]), message(&[2, 1])],
            vec![message(&[1, 2]), higher(no_message(2), &[2])],
        ),
        (
            FailMiddleEvent,
            vec![event(&[1, 2, 3]), event(&[1, 2, 2])],
            vec![event(&[1, 3, 2]), event(&[2, 1, 1]), message(&[1, 2, 3])],
        ),
        (
            FailMiddleReaders,
            vec![reader(&[1, 12, 1])],
            vec![reader(&[1, 1, 12]), reader(&[11, 12, 1])],
        ),
        (
            FailMiddleMessage,
            vec![message(&[1, 2, 3])],
            vec![message(&[1, 3, 2]), message(&[2, 2, 1]), event(&[1, 2, 3])],
        ),
        (
            FailMiddleWriters,
            vec![writer(&[1, 22, 1])],
            vec![
                writer(&[1, 1, 22]),
                writer(&[22, 1, 1]),
                writer(&[1, 32, 1]),
            ],
        ),
        (
            FailLastEvent,
            vec![event(&[1, 2]), event(&[1, 3, 2])],
            vec![event(&[1, 2, 3]), event(&[2]), message(&[1, 2])],
        ),
        (
            FailLastReaders,
            vec![reader(&[1, 12])],
            vec![reader(&[1, 12, 1]), reader(&[11]), reader(&[1, 12, 12])],
        ),
        (
            FailLastMessage,
            vec![message(&[1, 2])],
            vec![message(&[2]), message(&[1, 2, 3]), event(&[1, 2])],
        ),
        (
            FailLastWriters,
            vec![writer(&[1, 22])],
            vec![writer(&[22]), writer(&[1, 22, 1]), writer(&[1, 32])],
        ),
        (
            FailEntryEvent,
            vec![event(&[1, 32]), event(&[1, 32, 1])],
            vec![event(&[1, 22]), event(&[32, 2])],
        ),
        (
            FailEntryReaders,
            vec![reader(&[1, 55]), reader(&[1, 55, 1])],
            vec![reader(&[1, 12]), reader(&[55, 1])],
        ),
        (
            FailEntryMessage,
            vec![message(&[1, 32]), message(&[1, 32, 1])],
            vec![message(&[1, 22]), message(&[32, 1])],
        ),
        (
            FailAgain,
            vec![
                event(&[2, 2]),
                event(&[2, 1, 2]),
                event(&[2, 42]).listed(2, 42),
            ],
            vec![event(&[1, 2]), message(&[2, 2]), event(&[2, 42])],
        ),
        (
            Tells0,
            vec![lower(no_message(0), &[0]), lower(no_event(0), &[1, 40])],
            vec![message(&[2]), on(&[FULL], &[0])],
        ),
        (
            Tells31,
            vec![lower(no_message(31), &[54])],
            vec![lower(no_message(15), &[53]), on(&[FULL], &[54])],
        ),
    ]
}

fn places() -> Table {
    let found = |urls: &[u8]| on(&[no_message(2), FULL], urls);
    let none = |urls: &[u8]| on(&[no_message(2)], urls);
    let two = |urls: &[u8]| on(&[no_message(1), no_message(2)], urls);
    let late = [&[1; 15][..], &[2]].concat();
    vec![
        (
            TakesFirst,
            vec![found(&[1, 2]), found(&[1, 3, 2])],
            vec![found(&[2, 1]), found(&[1]), none(&[1, 2])],
        ),
        (
            TakesFirstNone,
            vec![none(&[1, 2])],
            vec![none(&[2, 1]), none(&[1]), found(&[1, 2])],
        ),
        (
            FirstOnly,
            vec![found(&[2, 1]), found(&[2, 1, 3])],
            vec![found(&[2]), found(&[2, 2]), found(&[1, 2]), none(&[2, 1])],
        ),
        (
            MiddleOnly,
            vec![found(&[1, 2, 1]), found(&[1, 2, 2, 1])],
            vec![found(&[1, 2]), found(&[2, 2, 1]), none(&[1, 2, 1])],
        ),
        (
            LastOnly,
            vec![found(&[1, 2]), found(&[1, 3, 2])],
            vec![found(&[2]), found(&[1, 2, 2]), none(&[1, 2])],
        ),
        (
            FirstOnlyNone,
            vec![none(&[2, 1])],
            vec![none(&[2]), none(&[2, 2]), found(&[2, 1])],
        ),
        (
            MiddleOnlyNone,
            vec![none(&[1, 2, 1])],
            vec![none(&[1, 2]), none(&[1, 2, 2]), found(&[1, 2, 1])],
        ),
        (
            LastOnlyNone,
            vec![none(&[1, 2])],
            vec![none(&[2]), none(&[2, 2]), found(&[1, 2])],
        ),
        (
            LastOnly0,
            vec![found(&[1, 2])],
            vec![
                none(&[1, 2]),
                on(&[[0, 0], no_message(2), FULL], &[1, 2]),
                found(&[2]),
            ],
        ),
        (
            LastOnly16,
            vec![found(&late), none(&late)],
            vec![found(&late[1..]), found(&[1; 16]), found(&[2; 16])],
        ),
        (
            NoneEach,
            vec![two(&[1, 2]), two(&[3, 1, 2])],
            vec![none(&[1, 2]), two(&[1, 1]), found(&[1, 2]), none(&[2])],
        ),
        (
            NoneFirst,
            vec![none(&[2, 1])],
            vec![none(&[2]), none(&[2, 2]), none(&[1, 2]), found(&[2, 1])],
        ),
        (
            NoneMiddle,
            vec![none(&[1, 2, 1])],
            vec![none(&[1, 2, 2]), none(&[1, 2, 2, 1]), none(&[1, 2])],
        ),
        (
            NoneLast,
            vec![none(&[1, 2])],
            vec![none(&[2, 2]), none(&[2]), two(&[1, 2])],
        ),
        (
            NoneApart,
            vec![none(&[1, 2]), two(&[1, 2])],
            vec![none(&[2, 1]), on(&[], &[1, 2]), found(&[1, 2])],
        ),
    ]
}

fn conditions() -> Table {
    let reader = |urls: &[u8]| on(&[FULL, NO_READER_30], urls);
    let writer = |urls: &[u8]| on(&[FULL, NO_WRITER_30], urls);
    let event = |urls: &[u8]| on(&[no_event(2), FULL], urls);
    let message = |urls: &[u8]| on(&[no_message(2), FULL], urls);
    let full = |urls: &[u8]| on(&[FULL], urls);
    vec![
        (
            NeedsLoadReaders,
            vec![reader(&[11]), reader(&[11, 1])],
            vec![reader(&[11, 11]), reader(&[1, 11]), message(&[2])],
        ),
        (
            NeedsLoadMessage,
            vec![message(&[2]), message(&[2, 1])],
            vec![message(&[2, 2]), message(&[1, 2]), reader(&[11])],
        ),
        (
            NeedsEvent,
            vec![event(&[1, 2]), event(&[2, 2, 1])],
            vec![event(&[2, 1]), message(&[1, 2])],
        ),
        (
            NeedsReaders,
            vec![reader(&[1, 11]), reader(&[1, 11, 1])],
            vec![reader(&[11, 11]), reader(&[11])],
        ),
        (
            NeedsMessage,
            vec![message(&[1, 2]), message(&[1, 2, 1])],
            vec![message(&[2, 2]), message(&[2]), event(&[1, 2])],
        ),
        (
            NeedsWriters,
            vec![writer(&[1, 22]), writer(&[1, 22, 1])],
            vec![writer(&[22, 1]), writer(&[1, 32]), full(&[1, 2])],
        ),
        (
            MiddleAsLoad,
            vec![writer(&[1, 22, 1]), event(&[1, 2, 1])],
            vec![writer(&[1, 22, 22]), writer(&[1, 22]), message(&[1, 2, 1])],
        ),
        (
            LastAsLoad,
            vec![writer(&[1, 22]), event(&[1, 2])],
            vec![writer(&[1, 22, 22]), writer(&[1, 22, 1]), message(&[1, 2])],
        ),
        (
            NoneAsLoad,
            vec![full(&[1, 22, 22]), full(&[1, 22])],
            vec![
                writer(&[1, 22]),
                full(&[1, 32]),
                on(&[no_message(2)], &[1, 2]),
            ],
        ),
        (
            FirstAsRedirect,
            vec![event(&[2]), full(&[22, 1])],
            vec![full(&[2]), full(&[32, 1]), event(&[1])],
        ),
        (
            FirstNoEvent,
            vec![event(&[2]), event(&[32, 1])],
            vec![event(&[1]), full(&[2])],
        ),
        (
            FirstNoWriters,
            vec![full(&[22]), full(&[22, 1])],
            vec![full(&[32]), full(&[2]), on(&[NO_WRITER_30], &[22])],
        ),
    ]
}

/// Replaced, row 1 has the message endpoint 17 in place of 1.
fn partners() -> Table {
    let listed = |sets: &[[u32; 2]], urls: &[u8]| on(sets, urls).listed(1, 41);
    let full = |urls: &[u8]| listed(&[FULL], urls);
    let https = [no_message(17), FULL];
    let http = [no_message(1), FULL];
    let first = |partner| on(&[FULL], &[7, 2]).with(0, 23).listed(7, partner);
    vec![
        (
            PartnerFirst,
            vec![full(&[1]), full(&[11, 2])],
            vec![full(&[2, 1]), full(&[41]), on(&[FULL], &[1])],
        ),
        (
            PartnerMiddle,
            vec![full(&[2, 1, 2])],
            vec![full(&[1, 2, 1]), full(&[2, 41, 2])],
        ),
        (
            PartnerLast,
            vec![full(&[2, 1])],
            vec![full(&[1]), full(&[2, 1, 2])],
        ),
        (PartnerIs0, vec![first(0)], vec![first(47), full(&[0])]),
        (
            PartnerIs63,
            vec![on(&[FULL], &[3]).listed(3, 63)],
            vec![on(&[FULL], &[3]).listed(3, 43), on(&[FULL], &[63])],
        ),
        (
            PartnerFirstLower,
            vec![listed(&https, &[1]), listed(&https[..1], &[1, 2])],
            vec![listed(&https, &[2, 1]), listed(&http, &[1])],
        ),
        (
            PartnerFirstHigher,
            vec![listed(&http, &[1]), listed(&http[..1], &[1, 2])],
            vec![listed(&http, &[2, 1]), listed(&https, &[1])],
        ),
        (
            PartnerFurtherLower,
            vec![listed(&https, &[2, 1]), listed(&https[..1], &[2, 1, 2])],
            vec![listed(&https, &[1, 2]), listed(&http, &[2, 1])],
        ),
        (
            PartnerFurtherHigher,
            vec![listed(&http, &[2, 1]), listed(&http[..1], &[2, 1, 2])],
            vec![listed(&http, &[1, 2]), listed(&https, &[2, 1])],
        ),
        (
            PartnerForbids,
            vec![listed(&https[..1], &[1]), listed(&https[..1], &[2, 1])],
            vec![listed(&https, &[1]), on(&https[..1], &[41])],
        ),
        (
            PartnerNeeded,
            vec![listed(&http[..1], &[1]), listed(&http[..1], &[2, 1])],
            vec![listed(&http, &[1]), full(&[1])],
        ),
    ]
}

fn entries() -> Table {
    let full = |urls: &[u8]| on(&[FULL], urls);
    let two = |urls: &[u8]| on(&[FULL, NO_WRITER_30], urls);
    vec![
        (
            EntryFirst,
            vec![full(&[32]), on(&[FULL], &[1]).listed(1, 51)],
            vec![full(&[1, 32]), full(&[31]).listed(1, 41)],
        ),
        (
            EntryMiddle,
            vec![full(&[1, 32, 1])],
            vec![full(&[32, 1, 32]), full(&[1, 22, 1])],
        ),
        (
            EntryLast,
            vec![full(&[1, 32])],
            vec![full(&[32]), full(&[1, 32, 1])],
        ),
        (
            EntryFirstWriters,
            vec![full(&[32]), full(&[32, 1])],
            vec![full(&[22]), full(&[1, 32]), on(&[NO_WRITER_30], &[32])],
        ),
        (
            EntryMiddleExcused,
            vec![full(&[1, 32, 1]), full(&[1, 32, 32]), two(&[1, 32, 1])],
            vec![
                full(&[1, 1, 32]),
                full(&[32, 1, 1]),
                on(&[NO_WRITER_30], &[1, 32, 1]),
            ],
        ),
        (
            EntryLastExcused,
            vec![full(&[1, 32]), two(&[1, 32]), full(&[1, 32, 32])],
            vec![full(&[1, 32, 1]), full(&[32]), full(&[1, 22])],
        ),
        (
            EntryHigher,
            vec![two(&[1, 32])],
            vec![full(&[1, 32]), two(&[32, 1])],
        ),
        (
            EntryNeeded,
            vec![full(&[1, 32])],
            vec![two(&[1, 32]), full(&[32, 1]), full(&[1, 22])],
        ),
        (
            EntryNamed,
            vec![two(&[1, 32]).listed(2, 52), full(&[1, 32]).listed(2, 52)],
            vec![two(&[1, 2]).listed(2, 52), two(&[1, 32]).listed(2, 42)],
        ),
        (
            EntryPartner,
            vec![full(&[2, 1]).listed(1, 51), two(&[2, 1]).listed(1, 51)],
            vec![full(&[2, 31]).listed(1, 51), full(&[1, 2]).listed(1, 51)],
        ),
    ]
}

fn twice() -> Table {
    let full = |urls: &[u8]| on(&[FULL], urls);
    vec![
        (
            TwiceNext,
            vec![full(&[1, 1]), full(&[1, 2, 2])],
            vec![full(&[1, 2, 1]), full(&[1])],
        ),
        (
            TwiceApart,
            vec![full(&[1, 2, 1]), full(&[3, 1, 1, 2, 1])],
            vec![full(&[1, 1]), full(&[1, 1, 2]), full(&[1, 1, 1])],
        ),
        (
            TwiceReturns,
            vec![full(&[1, 2, 1]), full(&[1, 1, 2, 1])],
            vec![full(&[1, 1]), full(&[2, 1, 3, 1]), full(&[1])],
        ),
        (
            TwicePartner,
            vec![
                full(&[1, 41]).listed(1, 41),
                full(&[41, 2, 11]).listed(1, 41),
            ],
            vec![full(&[1, 41]), full(&[1, 2]).listed(1, 41)],
        ),
    ]
}

fn tables() -> [Table; 9] {
    [
        policies(),
        refused_journeys(),
        told_connections(),
        failures(),
        places(),
        conditions(),
        partners(),
        entries(),
        twice(),
    ]
}

#[test]
fn each_event_is_noted_of_its_cases_alone() {
    for table in tables() {
        check_all(table);
    }
}

#[test]
fn each_event_has_cases() {
    let events: Vec<_> = tables().concat().iter().map(|(event, ..)| *event).collect();
    assert_eq!(events.len(), JourneyEvent::ALL.len());
    for event in JourneyEvent::ALL {
        assert!(events.contains(&event), "{}", event.name());
    }
}

/// Where a search is refused, one clause is noted, and nothing that is told of others.
#[test]
fn one_clause_of_a_refusal() {
    let tables = [policies(), refused_journeys()].concat();
    let cases = tables
        .into_iter()
        .flat_map(|(_, noted, others)| [noted, others].concat());
    for case in cases {
        let seen = seen(&case);
        let noted = || {
            JourneyEvent::ALL
                .into_iter()
                .filter(|&event| seen.count(event) > 0)
        };
        let is_clause = |name: &str| name.starts_with("2: ") || name.starts_with("17: ");
        let clauses = noted().filter(|event| is_clause(event.name())).count();
        let is_told =
            |event: &JourneyEvent| [Found0, FoundBetween, Found31, FoundNone].contains(event);
        let told = noted().filter(is_told).count();
        assert_eq!(clauses + told, 1, "{:?}", case.urls);
    }
}

#[test]
fn events_have_names() {
    for (place, event) in JourneyEvent::ALL.into_iter().enumerate() {
        let others = &JourneyEvent::ALL[place + 1..];
        assert!(others.iter().all(|other| other.name() != event.name()));
    }
}
