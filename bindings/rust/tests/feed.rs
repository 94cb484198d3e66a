//! Document 01's small post through the binding: what is accepted, each refusal by its name, and lengths of every kind.

use std::error::Error;

use zolherima::{
    feed, Accepted, Endpoint, Refusal, Scheme, ENTRY, NO_PARTNER, NO_URL, OUT_BYTES, POLICY_WORDS,
    SCRIPT_BYTES, STATE_WORDS,
};

const ALL: u32 = u32::MAX;
/// Where the https partners of the 64 URLs stand, behind the word of hosts that are always https.
const PARTNERS: usize = POLICY_WORDS - 64;
const HTTPS_HOSTS: usize = PARTNERS - 1;

struct Post {
    policy: [u32; POLICY_WORDS],
    scripts: [u8; SCRIPT_BYTES],
    state: [u32; STATE_WORDS],
    out: [u8; OUT_BYTES],
}

impl Post {
    /// Policy P, no script that does anything, and the empty state.
    fn new() -> Post {
        let mut policy = [0; POLICY_WORDS];
        for url in policy[..192].chunks_exact_mut(3) {
            url.copy_from_slice(&NO_URL);
        }
        policy[..12].copy_from_slice(&[
            16, 0x10001, 0x10000, 1, ALL, ALL, 17, ALL, 0x30000, 0, 0x10001, 0x10001,
        ]);
        policy[192..194].copy_from_slice(&[0x10000, 0x10000]);
        policy[448..460].copy_from_slice(&[
            0x10001, 0x10001, 0x10000, ALL, ALL, ALL, 0x10000, 0x10000, 0x10000, 0x10001, 0x10001,
            0x10001,
        ]);
        policy[PARTNERS..].fill(NO_PARTNER);
        Post {
            policy,
            scripts: [0; SCRIPT_BYTES],
            state: [0; STATE_WORDS],
            out: [0; OUT_BYTES],
        }
    }

    fn feed(&mut self, record: &[u8]) -> Result<Accepted, Refusal> {
        feed(
            &self.policy,
            &self.scripts,
            &mut self.state,
            record,
            &mut self.out,
        )
    }

    /// The requests that an accepted record sent.
    fn sends(&mut self, record: &[u8]) -> Vec<u8> {
        let accepted = self.feed(record).expect("the record is accepted");
        self.out[..accepted.bytes].to_vec()
    }
}

/// Readers forbid the record, and this endpoint is missing.
fn readers_forbid(missing: u32) -> Result<Accepted, Refusal> {
    let missing = Endpoint::new(missing).expect("there is such an endpoint");
    Err(Refusal::ReadersForbid { missing })
}

/// The same of writers.
fn writers_forbid(missing: u32) -> Result<Accepted, Refusal> {
    let missing = Endpoint::new(missing).expect("there is such an endpoint");
    Err(Refusal::WritersForbid { missing })
}

#[test]
fn a_cookie_comes_with_a_response_and_goes_with_the_next_load() {
    let mut post = Post::new();
    assert_eq!(post.sends(&[0x03, 0, 0]), [0x03, 0, 0]);
    let response = post.feed(&[0x0f, 0, 0, 0x01, 0, 0, 0, 7, 0]);
    assert_eq!(response, Ok(Accepted { bytes: 0, steps: 1 }));
    assert_eq!(post.sends(&[0x03, 0, 0]), [0x07, 0, 0, 0x01, 0, 0, 0, 7]);
    assert_eq!(post.sends(&[0x03, 3, 3]), [0x03, 3, 3]);
}

#[test]
fn a_picture_is_requested_by_a_script_and_runs_none() {
    let mut post = Post::new();
    post.scripts[..4].copy_from_slice(&[7, 0, 0, 255]); // a picture of URL 0 on connection 0; the 255 is not used
    assert_eq!(post.sends(&[0x03, 0, 0]), [0x03, 0, 0]);
    assert_eq!(post.feed(&[0x43, 0, 0]), Err(Refusal::NotAwaited));
    assert_eq!(post.sends(&[0x0b, 0, 0, 0]), [0x43, 0, 0]);
    assert_eq!(post.state[144], 3 << 24);
    assert_eq!(post.feed(&[0x0b, 0, 0, 0]), Err(Refusal::NotAwaited));
    let picture = post.feed(&[0x47, 0, 0, 0x01, 0, 0, 0, 7]);
    assert_eq!(picture, Ok(Accepted { bytes: 0, steps: 0 }));
    assert_eq!((post.state[0], post.state[144]), (7, 0));
}

/// URL 0 is https at host 0 and URL 3 is http there, which the writers of connection 0 forbid.
#[test]
fn a_host_that_is_always_https_is_called_by_https() {
    let mut post = Post::new();
    let load = [0x03, 3, 0];
    assert_eq!(post.feed(&load), writers_forbid(0));
    post.policy[HTTPS_HOSTS] = 1;
    assert_eq!(post.feed(&load), Err(Refusal::PolicyBad));
    post.policy[PARTNERS + 3] = 0;
    assert_eq!(post.sends(&load), [0x03, 0, 0]);
    assert_eq!(post.feed(&[0x0b, 3, 0, 0]), Err(Refusal::NotAwaited));
    let response = post.feed(&[0x0b, 0, 0, 0]);
    assert_eq!(response, Ok(Accepted { bytes: 0, steps: 1 }));
    post.policy[HTTPS_HOSTS] = 0x1_0001;
    assert_eq!(post.feed(&load), Err(Refusal::PolicyBad));
}

/// At host 0, by https, URL 4 is a front page and URL 5 the page behind it; URL 1 is a search page, which everyone has shaped.
fn front_page() -> Post {
    let mut post = Post::new();
    post.policy[12..18].copy_from_slice(&[ENTRY + 16, ALL, 0x10000, 16, ALL, 0x10000]);
    assert_eq!(post.sends(&[0x03, 1, 1]), [0x03, 1, 1]);
    post
}

#[test]
fn anyone_may_link_to_an_entry() {
    let mut post = front_page();
    assert_eq!(post.feed(&[0x23, 1, 1, 5]), writers_forbid(0));
    assert_eq!(post.sends(&[0x23, 1, 1, 4]), [0x03, 4, 1]);
    assert_eq!(post.feed(&[0x23, 4, 1, 5]), writers_forbid(0));
    for (op, request) in [(5, &[0x0b, 4, 1, 9][..]), (7, &[0x43, 4, 1])] {
        let mut post = front_page();
        post.scripts[..8].copy_from_slice(&[op, 4, 1, 9, op, 5, 1, 9]);
        assert_eq!(post.sends(&[0x0b, 1, 1, 0]), request);
    }
}

/// Readers, the message endpoint, and of a script the writers of the connection.
#[test]
fn an_entry_is_excused_from_nothing_else() {
    let mut post = front_page();
    post.policy[13] = 0x10001;
    assert_eq!(post.feed(&[0x23, 1, 1, 4]), readers_forbid(1));
    let mut post = front_page();
    post.policy[453] = ALL ^ 0x10000;
    assert_eq!(post.feed(&[0x23, 1, 1, 4]), writers_forbid(16));
    for op in [5, 7] {
        let mut post = front_page();
        post.scripts[..4].copy_from_slice(&[op, 4, 0, 9]);
        let response = post.feed(&[0x0b, 1, 1, 0]);
        assert_eq!(response, Ok(Accepted { bytes: 0, steps: 1 }));
    }
}

#[test]
fn an_address_word_is_an_address_or_an_entrys() {
    let mut post = Post::new();
    for word in 0..600 {
        post.policy[12..15].copy_from_slice(&[word, ALL, ALL]);
        let unknown = match word < 2 * ENTRY {
            true => Refusal::KindUnknown,
            false => Refusal::PolicyBad,
        };
        assert_eq!(post.feed(&[]), Err(unknown), "{word}");
    }
}

#[test]
fn records_are_refused_by_name_and_change_nothing() {
    let refused: [(&[u8], Refusal); 9] = [
        (&[], Refusal::KindUnknown),
        (&[0x07, 0, 0, 0x01, 0, 0, 0, 7], Refusal::KindUnknown),
        (&[0x0f, 0, 0, 0, 0], Refusal::KeyMapEmpty),
        (&[0x0f, 0, 0, 0], Refusal::KeyMapEmpty),
        (&[0x0f, 0, 0], Refusal::CutOrTooLong),
        (&[0x03, 0], Refusal::CutOrTooLong),
        (&[0x03, 0, 0, 0], Refusal::CutOrTooLong),
        (&[0x03, 64, 0], Refusal::NameUnknown),
        (&[0x0b, 0, 0, 0], Refusal::NotAwaited),
    ];
    let mut post = Post::new();
    for (record, refusal) in refused {
        assert_eq!(post.feed(record), Err(refusal), "{record:02x?}");
        assert_eq!(refusal.missing(), None);
    }
    assert_eq!(post.feed(&[0x03, 0, 1]), readers_forbid(1));
    assert_eq!(post.feed(&[0x03, 3, 0]), writers_forbid(0));
    assert_eq!(post.state, [0; STATE_WORDS]);
    assert_eq!(post.out, [0; OUT_BYTES]);
}

#[test]
fn buffers_are_refused_by_their_length() {
    let Post {
        policy,
        scripts,
        mut state,
        mut out,
    } = Post::new();
    let load = [0x03, 0, 0];
    let short = OUT_BYTES - 1;
    assert_eq!(
        feed(&policy, &scripts, &mut state, &load, &mut out[..short]),
        Err(Refusal::OutputShort)
    );
    assert_eq!(
        feed(&policy[1..], &scripts, &mut state, &load, &mut out),
        Err(Refusal::PolicyBad)
    );
    let hosts_missing = &policy[..HTTPS_HOSTS];
    assert_eq!(
        feed(hosts_missing, &scripts, &mut state, &load, &mut out),
        Err(Refusal::PolicyBad)
    );
    assert_eq!(
        feed(&policy, &scripts[1..], &mut state, &load, &mut out),
        Err(Refusal::ScriptsBad)
    );
    assert_eq!(
        feed(&policy, &scripts, &mut state[1..], &load, &mut out),
        Err(Refusal::StateUnsound)
    );
    assert_eq!(
        feed(&[], &[], &mut [], &[], &mut []),
        Err(Refusal::OutputShort)
    );
    assert_eq!(
        feed(&policy, &scripts, &mut [], &[], &mut out),
        Err(Refusal::StateUnsound)
    );
}

/// URL 4 is https at host 5, and connection 4 is free; connection 1 awaits URL 1.
fn lacking_post(url_readers: u32, url_writers: u32, readers: u32, writers: u32) -> Post {
    let mut post = Post::new();
    post.policy[12..15].copy_from_slice(&[21, url_readers, url_writers]);
    post.policy[451..454].copy_from_slice(&[readers, readers, writers]);
    post.policy[460..463].copy_from_slice(&[readers, readers, writers]);
    post.state[145] = 1 << 24 | 1;
    post
}

#[test]
fn each_condition_tells_what_is_missing() {
    let (load, redirect) = ([0x03, 4, 4], [0x23, 1, 1, 4]);
    let mut post = lacking_post(0x20, ALL, 0xc0, ALL);
    assert_eq!(post.feed(&load), readers_forbid(6));
    assert_eq!(post.feed(&redirect), readers_forbid(5));
    let mut post = lacking_post(0x20, ALL, 0xe0, ALL);
    assert_eq!(post.feed(&redirect), readers_forbid(6));
    let mut post = lacking_post(ALL, 0, 0x20, 0x12);
    assert_eq!(post.feed(&load), writers_forbid(21));
    assert_eq!(post.feed(&redirect), writers_forbid(21));
    let mut post = lacking_post(ALL, 0x20_0002, 0x20, 0x8020_0012);
    assert!(post.feed(&load).is_ok());
    assert_eq!(post.feed(&redirect), writers_forbid(4));
    let mut post = lacking_post(ALL, ALL >> 1, 0x20, ALL);
    assert_eq!(post.feed(&redirect), writers_forbid(31));
    post.policy[12] += ENTRY;
    assert!(post.feed(&redirect).is_ok());
}

/// URL 3, http at host 0, is named, and URL 0, https there, is asked for.
#[test]
fn what_is_missing_is_missing_for_the_partner() {
    let mut post = Post::new();
    post.policy[HTTPS_HOSTS] = 1;
    post.policy[PARTNERS + 3] = 0;
    post.policy[450] = 0x2;
    assert_eq!(post.feed(&[0x03, 3, 0]), writers_forbid(16));
}

#[test]
fn an_endpoint_is_a_scheme_at_a_host() {
    for number in 0..32 {
        let endpoint = Endpoint::new(number).expect("endpoints are below 32");
        let (scheme, host) = match number < 16 {
            true => (Scheme::Http, number),
            false => (Scheme::Https, number - 16),
        };
        assert_eq!(endpoint.number(), number);
        assert_eq!((endpoint.scheme(), endpoint.host()), (scheme, host));
        assert_eq!(endpoint.to_string(), format!("{scheme} at host {host}"));
    }
    for number in (32..600).chain([1 << 16, ALL]) {
        assert_eq!(Endpoint::new(number), None);
    }
    assert_eq!(Scheme::Http.to_string(), "http");
    assert_eq!(Scheme::Https.to_string(), "https");
    const HTTPS_AT_1: Option<Endpoint> = Endpoint::new(17);
    assert_eq!(HTTPS_AT_1.map(Endpoint::host), Some(1));
}

#[test]
fn refusals_are_listed_as_they_are_asked() {
    let asked: Vec<u32> = Refusal::LIST.iter().map(|(number, _)| *number).collect();
    assert_eq!(asked, [1, 2, 3, 4, 10, 12, 11, 6, 7, 8, 9]);
    for (_, words) in Refusal::LIST {
        assert!(words.starts_with("the "), "{words}");
    }
}

#[test]
fn a_refusal_has_its_number_and_its_words() {
    let missing = Endpoint::new(17).expect("there is such an endpoint");
    let refusals: [(Refusal, u32); 11] = [
        (Refusal::OutputShort, 1),
        (Refusal::PolicyBad, 2),
        (Refusal::ScriptsBad, 3),
        (Refusal::StateUnsound, 4),
        (Refusal::KindUnknown, 10),
        (Refusal::KeyMapEmpty, 12),
        (Refusal::CutOrTooLong, 11),
        (Refusal::NameUnknown, 6),
        (Refusal::NotAwaited, 7),
        (Refusal::ReadersForbid { missing }, 8),
        (Refusal::WritersForbid { missing }, 9),
    ];
    for ((refusal, number), &listed) in refusals.into_iter().zip(Refusal::LIST) {
        let error: Box<dyn Error> = Box::new(refusal);
        let told = match refusal.missing() {
            Some(_) => ": https at host 1 is missing",
            None => "",
        };
        assert_eq!(refusal.number(), number);
        assert_eq!(listed.0, number);
        assert_eq!(error.to_string(), format!("{}{told}", listed.1));
    }
    let forbidden = Refusal::ReadersForbid { missing };
    assert_eq!(
        forbidden.to_string(),
        "the readers of the connection and the URL forbid it: https at host 1 is missing"
    );
}
