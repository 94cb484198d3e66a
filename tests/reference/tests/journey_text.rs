//! The program journey: what it prints for policies read by hand, and what it makes of its arguments.

#[path = "common/planning.rs"]
mod planning;

use cases::journey::Given;
use cases::policy::document;
use cases::Random;
use planning::payment::{self, BANK, CHECKOUT, FRONT, SEARCH, TYPED};
use planning::{find, input};
use reference::{first_failure, journey_text, urls_of};

const POLICY_LINE: &str = "refused 2: the policy has the wrong length or is not well formed\n";
const JOURNEY_LINE: &str =
    "refused 17: the journey is empty, longer than 16 URLs, or names a URL without a row\n";

fn prints(policy: &[u32], urls: &[u8], text: &str) {
    assert_eq!(journey_text(urls, &input(policy)), text, "{urls:?}");
}

/// None is told. The first lines are these; of each connection that follows, the line with its number in place of C.
fn prints_none(policy: &[u32], urls: &[u8], lines: &[&str], others: &str) {
    let mut text = "none\n".to_string();
    for connection in 0..32_usize {
        let number = connection.to_string();
        let other = others.replace('C', &number);
        let line = lines.get(connection).map_or(&other[..], |line| line);
        text += &format!("{number}: {line}\n");
    }
    prints(policy, urls, &text);
}

#[test]
fn a_connection() {
    prints(&document(), &[0], "0\n");
    prints(&document(), &[2, 1], "1\n");
    prints(&document(), &[0, 3], "3\n");
    prints(&payment::policy(), &[CHECKOUT, BANK, CHECKOUT], "3\n");
    prints(&payment::policy(), &[SEARCH, FRONT], "31\n");
    prints(&document(), &[0; 16], "0\n");
}

#[test]
fn none_of_p() {
    prints_none(
        &document(),
        &[3, 0],
        &[
            "refused 9 at URL 3 (1 of 2): endpoint 0 is missing among the writers of connection 0",
            "refused 8 at URL 3 (1 of 2): endpoint 1 is missing among the readers of URL 3",
            "refused 9 at URL 3 (1 of 2): endpoint 0 is missing among the writers of connection 2",
            "refused 9 at URL 0 (2 of 2): endpoint 0 is missing among the writers of URL 0",
        ],
        "refused 9 at URL 3 (1 of 2): endpoint 0 is missing among the writers of connection C",
    );
    prints_none(
        &document(),
        &[0, 0, 2],
        &[
            "refused 8 at URL 2 (3 of 3): endpoint 1 is missing among the readers of connection 0",
            "refused 8 at URL 0 (1 of 3): endpoint 1 is missing among the readers of URL 0",
            "refused 8 at URL 0 (2 of 3): endpoint 0 is missing among the readers of connection 2",
            "refused 9 at URL 0 (2 of 3): endpoint 0 is missing among the writers of URL 0",
        ],
        "refused 9 at URL 0 (1 of 3): endpoint 16 is missing among the writers of connection C",
    );
}

/// The URL is told as it was given, and its partner where the partner lacks the endpoint.
#[test]
fn none_after_a_replacement() {
    let mut policy = payment::listed();
    policy[3 * usize::from(CHECKOUT) + 2] = 0;
    policy[448 + 3 * 31..][..3].fill(0);
    prints_none(
        &policy,
        &[BANK, TYPED],
        &[
            "refused 9 at URL 11 (1 of 2): endpoint 21 is missing among the writers of connection 0",
            "refused 8 at URL 12 (2 of 2): endpoint 2 is missing among the readers of connection 1",
            "refused 9 at URL 11 (1 of 2): endpoint 21 is missing among the writers of connection 2",
            "refused 9 at URL 12 (2 of 2): endpoint 18 is missing among the writers of URL 10",
        ],
        "refused 9 at URL 11 (1 of 2): endpoint 21 is missing among the writers of connection C",
    );
}

/// With readers of the search, connection 31 is refused by the bank's.
#[test]
fn none_on_the_last_connection() {
    let printed = journey_text(&[BANK, TYPED], &input(&payment::listed()));
    assert_eq!(printed, "3\n");
    let mut policy = payment::listed();
    policy[448 + 3 * 3..][..3].fill(0);
    let printed = journey_text(&[BANK, TYPED], &input(&policy));
    assert_eq!(printed.lines().count(), 33);
    let last =
        "\n31: refused 8 at URL 11 (1 of 2): endpoint 9 is missing among the readers of URL 11\n";
    assert!(printed.ends_with(last), "{printed}");
}

/// The last URL of sixteen is told as the sixteenth.
#[test]
fn none_of_sixteen() {
    let urls = [vec![1; 15], vec![2]].concat();
    let printed = journey_text(&urls, &input(&document()));
    let line =
        "\n1: refused 9 at URL 2 (16 of 16): endpoint 0 is missing among the writers of URL 2\n";
    assert!(printed.contains(line), "{printed}");
}

#[test]
fn refusals() {
    let policy = document();
    prints(&policy, &[], JOURNEY_LINE);
    prints(&policy, &[4], JOURNEY_LINE);
    prints(&policy, &[0, 64], JOURNEY_LINE);
    prints(&policy, &[255], JOURNEY_LINE);
    prints(&policy, &[0; 17], JOURNEY_LINE);
    let mut other = policy.clone();
    other[0] = 64;
    prints(&other, &[1], POLICY_LINE);
    prints(&other, &[], POLICY_LINE);
    prints(&other, &[255; 17], POLICY_LINE);
}

#[test]
fn inputs_of_another_length() {
    let policy = input(&document());
    let long = [&policy[..], &policy].concat();
    assert_eq!(policy.len(), 2_436);
    for length in (0..=2_445).chain([4 * 610, long.len()]) {
        let text = if length == 2_436 { "0\n" } else { POLICY_LINE };
        assert_eq!(journey_text(&[0], &long[..length]), text, "{length}");
    }
    // Zero bytes at the end do not make up for what is missing.
    let mut listed = input(&payment::listed());
    listed.truncate(2_433);
    assert_eq!(journey_text(&[CHECKOUT], &listed), POLICY_LINE);
}

/// Words are read most significant byte first.
#[test]
fn bytes_of_words() {
    let mut bytes = input(&document());
    assert_eq!(bytes[..12], [0, 0, 0, 16, 0, 1, 0, 1, 0, 1, 0, 0]);
    for word in bytes.chunks_mut(4) {
        word.reverse();
    }
    assert_eq!(journey_text(&[0], &bytes), POLICY_LINE);
}

#[test]
fn urls_from_arguments() {
    let named: [(&[&[u8]], &[u8]); 8] = [
        (&[b"0"], &[0]),
        (&[b"10", b"11", b"10"], &[10, 11, 10]),
        (&[b"63", b"64", b"254", b"255"], &[63, 64, 254, 255]),
        (&[b"256", b"257", b"511", b"512"], &[255; 4]),
        (&[b"4294967295"], &[255]),
        (&[b"007", b"0000000007"], &[7, 7]),
        (&[b"0000000256"], &[255]),
        (&[&b"1"[..]; 20], &[1; 20]),
    ];
    for (arguments, urls) in named {
        assert_eq!(urls_of(arguments).unwrap(), urls);
    }
    assert_eq!(urls_of(&[&b"0"[..]; 300]).unwrap().len(), 300);
}

#[test]
fn arguments_that_are_no_numbers() {
    assert_eq!(urls_of(&[]), None);
    let others: [&[u8]; 14] = [
        b"",
        b"4294967296",
        b"9999999999",
        b"00000000007",
        b"18446744073709551616",
        b"+7",
        b"-7",
        b" 7",
        b"7 ",
        b"7\n",
        b"7,8",
        b"0x7",
        b"\xb7",
        b"bank",
    ];
    for other in others {
        let case = other.escape_ascii();
        assert_eq!(urls_of(&[other]), None, "{case}");
        assert_eq!(urls_of(&[b"7", other]), None, "{case}");
        assert_eq!(urls_of(&[other, b"7"]), None, "{case}");
        assert_eq!(urls_of(&[b"7", other, b"300"]), None, "{case}");
    }
}

/// The program tells what the search tells; each line of a connection tells its failure.
#[test]
fn random_inputs() {
    for case in 0..3_000 {
        let random = Random::of_case(13, case);
        let Given { policy, urls } = Given::any(&random);
        let printed = journey_text(&urls, &input(&policy));
        let found = find(&policy, &urls);
        match (found.number, found.connection) {
            (2, _) => assert_eq!(printed, POLICY_LINE),
            (17, _) => assert_eq!(printed, JOURNEY_LINE),
            (_, 32) => check_none(&policy, &urls, &printed),
            (_, connection) => assert_eq!(printed, format!("{connection}\n")),
        }
    }
}

fn check_none(policy: &[u32], urls: &[u8], printed: &str) {
    let mut lines = printed.lines();
    assert_eq!(lines.next(), Some("none"));
    for connection in 0..32 {
        let failure = first_failure(policy, connection, urls).unwrap();
        let line = lines.next().unwrap();
        let (place, url) = (failure.place + 1, urls[failure.place]);
        let (number, count) = (failure.number, urls.len());
        let front = format!("{connection}: refused {number} at URL {url} ({place} of {count}): ");
        let told = line.strip_prefix(&front[..]).expect(line);
        let set = if number == 8 { "readers" } else { "writers" };
        let front = format!(
            "endpoint {} is missing among the {set} of ",
            failure.missing
        );
        let owner = told.strip_prefix(&front[..]).expect(line);
        let partner = policy[545 + usize::from(url)];
        let after = if partner == 255 {
            u32::from(url)
        } else {
            partner
        };
        match failure.of_url {
            true => assert_eq!(owner, format!("URL {after}")),
            false => assert_eq!(owner, format!("connection {connection}")),
        }
    }
    assert_eq!(lines.next(), None);
}
