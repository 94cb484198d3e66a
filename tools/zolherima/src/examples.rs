//! Policies for the tests.

use policy_text::{builder, parse, Plan};
use zolherima::{Policy, CONNECTIONS, HOSTS, URLS};

/// Canteen, bank and caterer.
pub const CANTEEN: &str = include_str!("../../../examples/reach.policy");

/// Document 01's policy P.
pub const SMALL_POST: &str = "
host post
host shop
cookie sid of post
    readers post
    writers https post
cookie lang of post
    readers https post, shop
    writers everyone
url home at https post
    readers post
    writers https post
url window at http shop
    readers everyone
    writers everyone
url pay at https shop
    readers everyone
    writers https post, https shop
url door at http post
    readers post
    writers post
connection own
    readers post
    writers https post
connection any
    readers everyone
    writers everyone
connection quiet
    readers https post
    writers https post
connection wire
    readers post
    writers post
";

/// The same with entries, and with a host that is always https: `home` is asked for in place of `door`.
pub fn listed_post() -> String {
    let door = "door at http post";
    SMALL_POST
        .replace("host post", "host post always https")
        .replace("at https shop", "at https shop entry")
        .replace(door, &format!("{door} entry\n    partner home"))
}

const OPEN: &str = "readers everyone\nwriters everyone\n";

/// Every connection reaches every URL; half of them are entries, and all by http have a partner. Names are long.
pub fn open() -> String {
    let host = |host: usize| format!("host host-with-a-long-name-{host} always https\n");
    let connection = |it: usize| format!("connection connection-with-a-long-name-{it}\n{OPEN}");
    let hosts: String = (0..HOSTS).map(host).collect();
    let urls: String = (0..URLS).map(open_url).collect();
    let connections: String = (0..CONNECTIONS).map(connection).collect();
    hosts + &urls + &connections
}

fn open_url(url: usize) -> String {
    let partner = format!("partner url-with-a-long-name-{}\n", url + HOSTS);
    let (scheme, partner) = match url / HOSTS % 2 {
        0 => ("http", partner.as_str()),
        _ => ("https", ""),
    };
    let at = format!("{scheme} host-with-a-long-name-{}", url % HOSTS);
    let entry = if url < URLS / 2 { "" } else { " entry" };
    format!("url url-with-a-long-name-{url} at {at}{entry}\n{OPEN}{partner}")
}

pub fn read(text: &str) -> (Policy, Plan) {
    let plan = parse(text.as_bytes()).expect("the text has no error");
    let policy = builder(&plan).build().expect("the policy is well formed");
    (policy, plan)
}

/// The page shows what is printed, four blanks further in.
pub fn assert_shown(page: &str, printed: &str) {
    let indented = |line: &str| match line {
        "" => "\n".to_string(),
        _ => format!("    {line}\n"),
    };
    let shown: String = printed.lines().map(indented).collect();
    assert!(page.contains(&shown), "{shown}");
}

/// Every element that begins ends, in order; and text has no bare `<` or `&`.
pub fn assert_well_formed(picture: &str) {
    let mut open = Vec::new();
    for tag in picture.split('<').skip(1) {
        let (tag, text) = tag.split_once('>').expect("a tag ends");
        assert!(!text.contains('&') || text.contains(';'), "{text}");
        assert_eq!(tag.matches('"').count() % 2, 0, "{tag}");
        let name = tag.split([' ', '/']).find(|name| !name.is_empty());
        match (tag.starts_with('/'), tag.ends_with('/')) {
            (true, _) => assert_eq!(open.pop(), name, "{tag}"),
            (false, true) => {}
            (false, false) => open.push(name.expect("a tag has a name")),
        }
    }
    assert!(open.is_empty(), "{open:?}");
}
