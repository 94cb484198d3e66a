//! What is noted of a reach table. Tables list events, each with a case of which it is noted, and one just outside it of which it is not.

#[path = "common/planning.rs"]
mod planning;

use planning::{bare, list, set, set_connection, set_row, ALL};
use reference::layout::POLICY_CONNECTIONS;
use reference::ReachEvent::{self, *};
use reference::{reach_fits_noting, reach_noting, ReachSeen, Seen};

type Table = Vec<(ReachEvent, Vec<u32>, Vec<u32>)>;

/// Address word, readers and writers of rows; readers and writers of connections. All else is empty.
fn policy(rows: &[(usize, [u32; 3])], connections: &[(usize, [u32; 2])]) -> Vec<u32> {
    let mut policy = bare();
    for &(row, words) in rows {
        set_row(&mut policy, row, words);
    }
    for &(connection, sets) in connections {
        set_connection(&mut policy, connection, sets);
    }
    policy
}

/// These rows, and all connections alike.
fn for_all(rows: &[(usize, [u32; 3])], sets: [u32; 2]) -> Vec<u32> {
    let connections: Vec<_> = (0..32).map(|connection| (connection, sets)).collect();
    policy(rows, &connections)
}

/// One URL, and all connections alike.
fn each(url: [u32; 3], sets: [u32; 2]) -> Vec<u32> {
    for_all(&[(9, url)], sets)
}

/// All connections fit 64 URLs.
fn full() -> Vec<u32> {
    let rows: Vec<_> = (0..64).map(|row| (row, [7, ALL, 0])).collect();
    for_all(&rows, [0, ALL])
}

/// One connection fits one URL.
fn single(connection: usize, row: usize) -> Vec<u32> {
    policy(&[(row, [7, ALL, 0])], &[(connection, [0, ALL])])
}

fn check(table: Table) {
    for (event, noted, other) in table {
        for (policy, is_noted) in [(noted, true), (other, false)] {
            let mut seen = ReachSeen::new();
            reach_noting(&policy, &mut seen, &mut Seen::new());
            assert_eq!(seen.count(event) > 0, is_noted, "{}", event.name());
        }
    }
}

#[test]
fn lengths() {
    let of = |words: usize| full().into_iter().cycle().take(words).collect::<Vec<_>>();
    check(vec![
        (Words0, of(0), of(1)),
        (WordsFew, of(1), of(0)),
        (WordsFew, of(607), of(608)),
        (Words608, of(608), of(607)),
        (Words610, of(610), of(611)),
        (WordsMany, of(611), of(610)),
        (FrontCounted, of(610), [bare(), bare()].concat()),
        (FrontCounted, of(1_218), of(608)),
    ]);
}

#[test]
fn totals_and_counts() {
    let none = || each([7, ALL, 0], [0, 0]);
    let mut but_one = full();
    set_row(&mut but_one, 5, [255, 0, 0]);
    check(vec![
        (RowsNone, bare(), single(0, 0)),
        (RowsSome, single(0, 0), full()),
        (RowsAll, full(), but_one.clone()),
        (All0, none(), bare()),
        (All0, none(), single(0, 0)),
        (AllBetween, but_one.clone(), full()),
        (AllBetween, single(0, 0), none()),
        (All2048, full(), but_one.clone()),
        (Reaches0, single(0, 0), full()),
        (Reaches0, single(31, 63), none()),
        (Reaches1, single(4, 4), full()),
        (Reaches63, but_one.clone(), full()),
        (Reaches64, full(), but_one),
    ]);
}

#[test]
fn which_are_reached() {
    let two = [(3, [7, ALL, 0]), (4, [8, ALL, 0])];
    let sets = |a, b| policy(&two, &[(1, [0, set(&[a])]), (2, [0, set(&[b])])]);
    check(vec![
        (Connection0, single(0, 5), single(1, 5)),
        (Connection0, single(0, 5), full()),
        (Connection31, single(31, 5), single(30, 5)),
        (Url0, single(5, 0), single(5, 1)),
        (Url63, single(5, 63), single(5, 62)),
        (Url63, single(0, 63), full()),
        (ReachedByNone, sets(7, 7), sets(7, 8)),
        (ReachedByAll, full(), single(0, 0)),
        (OtherUrls, sets(7, 8), sets(7, 7)),
    ]);
}

#[test]
fn readers() {
    let of = |readers, connection| each([7, readers, 0], [connection, ALL]);
    let own = set(&[7]);
    let mut script_readers = of(own, 2);
    for connection in 0..32 {
        script_readers[POLICY_CONNECTIONS + 3 * connection + 1] = 2;
    }
    check(vec![
        (Fits, of(own, own), of(own, 1)),
        (ForbidReaders, of(own, 1), each([7, own, 0], [1, 0])),
        (ForbidBoth, each([7, own, 0], [1, 0]), of(own, 1)),
        (Reader0, of(ALL & !1, ALL), of(ALL & !3, ALL)),
        (Reader31, of(ALL >> 1, ALL), of(ALL >> 2, ALL)),
        (ReadersSame, of(ALL, ALL), of(ALL, 1)),
        (ReadersMore, of(ALL, 1), of(ALL, ALL)),
        (ReadersFewer, of(own, own | 2), of(own | 1, own | 2)),
        (NoReaders, of(ALL, 0), of(ALL, 1)),
        (EveryReader, of(ALL, ALL), of(ALL, 1)),
        (EveryReaderForbids, of(own, ALL), of(own, 2)),
        (NoEventReader, of(ALL, 1), of(ALL, own)),
        (ScriptReaders, of(own, 2), script_readers),
        (EntryReaders, each([39, own, 0], [1, ALL]), of(own, 1)),
        (EmptyNoReaders, of(ALL, 0), of(ALL, 1)),
        (EmptyNoReaders, of(ALL, 0), full()),
        (EmptyEveryWriter, of(ALL, 0), each([7, ALL, 0], [0, 1])),
    ]);
}

#[test]
fn writers() {
    let of = |word, writers| each([word, ALL, 0], [0, writers]);
    let (http, https) = (set(&[7]), set(&[23]));
    check(vec![
        (Fits, of(7, http), of(7, https)),
        (ForbidWriters, of(7, https), of(7, http)),
        (Message0, of(0, ALL & !1), of(0, ALL & !3)),
        (Message31, of(31, ALL >> 1), of(31, ALL)),
        (NoWriters, of(7, 0), of(7, 1)),
        (OneWriter, of(7, http), of(7, http | 1)),
        (EveryWriter, of(7, ALL), of(7, http)),
        (EventWriter, of(23, http), of(23, 1)),
        (NoEventWriter, of(23, https), of(23, https | http)),
        (UrlNoWriters, of(7, ALL), each([7, ALL, 1], [0, ALL])),
        (UrlLacksWriter, of(7, http), of(39, http)),
        (UrlLacksWriter, of(7, http), each([7, ALL, http], [0, http])),
        (EntryWriters, of(39, 0), of(7, 0)),
    ]);
}

#[test]
fn sorts_of_urls() {
    let of = |word| each([word, ALL, 0], [0, ALL]);
    check(vec![
        (Http, of(7), of(39)),
        (Https, of(23), of(7)),
        (EntryHttp, of(39), of(55)),
        (EntryHttps, of(55), of(23)),
        (Address0, of(32), of(1)),
        (Address15, of(15), of(16)),
        (Address16, of(16), of(15)),
        (Address31, of(63), of(30)),
    ]);
}

/// URLs 20 and 22 are http at host 4, URL 21 is their partner.
fn listed(connections: &[(usize, [u32; 2])]) -> Vec<u32> {
    let rows = [
        (20, [4, ALL, 0]),
        (21, [20, ALL, 0]),
        (22, [4, set(&[4]), 0]),
    ];
    let mut policy = policy(&rows, connections);
    list(&mut policy, 4, &[20, 22], 21);
    policy
}

#[test]
fn partners() {
    let of = |writers: &[u32], readers: u32| {
        let sets = [readers, set(writers)];
        listed(
            &(0..32)
                .map(|connection| (connection, sets))
                .collect::<Vec<_>>(),
        )
    };
    let apart = listed(&[
        (0, [1, set(&[4])]),
        (1, [1, set(&[20])]),
        (2, [0, set(&[4, 20])]),
    ]);
    let turned = listed(&[(0, [0, set(&[4])]), (1, [1, set(&[20])])]);
    check(vec![
        (PartnerBoth, of(&[4, 20], 0), of(&[4], 0)),
        (PartnerNeither, of(&[], 0), of(&[4], 0)),
        (RowAlone, of(&[4], 0), of(&[4, 20], 0)),
        (PartnerAlone, of(&[20], 0), of(&[4], 0)),
        (PartnerShared, of(&[4], 0), of(&[4], 1)),
        (ReplacedMore, apart, of(&[4], 0)),
        (ReplacedFewer, of(&[4], 0), of(&[20], 0)),
        (ReplacedAlike, turned, of(&[4, 20], 0)),
    ]);
}

#[test]
fn cells_that_are_asked() {
    let turned = listed(&[(0, [0, set(&[4])]), (1, [1, set(&[20])])]);
    let (short, full) = (vec![0; 608], full());
    type Asked<'a> = (&'a [u32], u32, u32);
    let cases: [(ReachEvent, Asked, Asked); 16] = [
        (AskedFits, (&turned, 0, 20), (&turned, 0, 21)),
        (AskedForbidden, (&turned, 0, 21), (&turned, 0, 23)),
        (AskedEmpty, (&turned, 0, 23), (&turned, 0, 21)),
        (AskedRowAlone, (&turned, 0, 20), (&turned, 1, 20)),
        (AskedPartnerAlone, (&turned, 1, 20), (&turned, 0, 20)),
        (AskedConnection32, (&full, 32, 0), (&full, 33, 0)),
        (AskedConnectionAbove, (&full, 33, 0), (&full, 32, 0)),
        (AskedConnectionWraps, (&full, 40, 5), (&turned, 40, 5)),
        (AskedConnectionWraps, (&full, 40, 5), (&full, 40, 69)),
        (AskedUrl64, (&full, 0, 64), (&full, 0, 65)),
        (AskedUrlAbove, (&full, 0, 65), (&full, 0, 64)),
        (AskedUrlWraps, (&full, 5, 69), (&turned, 5, 69)),
        (AskedBothAbove, (&full, 32, 64), (&full, 31, 64)),
        (AskedRefused, (&short, 31, 63), (&short, 32, 63)),
        (AskedRefusedAbove, (&short, 32, 0), (&short, 31, 63)),
        (AskedRefusedAbove, (&short, 0, 64), (&full, 0, 64)),
    ];
    for (event, noted, other) in cases {
        for ((policy, connection, url), is_noted) in [(noted, true), (other, false)] {
            let mut seen = ReachSeen::new();
            reach_fits_noting(policy, connection, url, &mut seen);
            assert_eq!(seen.count(event) > 0, is_noted, "{}", event.name());
        }
    }
}
