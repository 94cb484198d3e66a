//! How many requests went to each URL: the command `tally`.
//!
//! The counts are those of `zolherima::usage`, which are proved. They are compared with the requests of the list, read one by one.

use policy_text::{Names, Plan};
use zolherima::usage::{self, Tally, LIST_BYTES};
use zolherima::{requests, RequestBad, RequestFault, CONNECTIONS, SCRIPTS, URLS};

use crate::failure::Failure;
use crate::picture;
use crate::table::{bar, Side, Table};

/// The widest bar.
const BAR: usize = 30;

/// A URL that has requests.
#[derive(Clone, Debug, PartialEq, Eq)]
pub struct Row {
    pub name: String,
    pub requests: u32,
    pub cookies: u32,
}

pub struct Usage {
    pub rows: Vec<Row>,
    pub requests: u32,
    pub cookies: u32,
}

pub fn text(plan: &Plan, list: &[u8]) -> Result<String, Failure> {
    let usage = Usage::of(plan, list)?;
    Ok(format!("{}\n{}\n", table(&usage), usage.all()))
}

pub fn svg(plan: &Plan, list: &[u8]) -> Result<String, Failure> {
    Ok(picture::tally::draw(&Usage::of(plan, list)?))
}

impl Usage {
    pub fn of(plan: &Plan, list: &[u8]) -> Result<Usage, Failure> {
        let tally = counted(list)?;
        let names = Names::of(plan);
        let row = |url: usize| Row {
            name: names.url(url as u32),
            requests: tally.records[url],
            cookies: tally.cookies[url],
        };
        let used = (0..URLS).filter(|&url| tally.records[url] > 0);
        Ok(Usage {
            rows: used.map(row).collect(),
            requests: tally.all_records,
            cookies: tally.all_cookies,
        })
    }

    /// The totals.
    pub fn all(&self) -> String {
        let Usage {
            requests, cookies, ..
        } = self;
        format!("all: requests {requests}, cookies {cookies}")
    }

    /// The most requests that a URL has.
    pub fn most(&self) -> u32 {
        let most = self.rows.iter().map(|row| row.requests).max();
        most.unwrap_or(0)
    }
}

/// What the library counts, where that is what is read.
fn counted(list: &[u8]) -> Result<Tally, Failure> {
    match (usage::count(list), beside(list)) {
        (Ok(tally), Ok(same)) if tally == same => Ok(tally),
        (Err(_), Err(why)) => Err(Failure::Refused(why)),
        _ => Err(Failure::Bug(
            "the tally and the requests of the list differ".to_string(),
        )),
    }
}

/// By the requests, beside the library.
fn beside(list: &[u8]) -> Result<Tally, String> {
    let length = list.len();
    if length > LIST_BYTES {
        return Err(format!(
            "the list has {length} bytes, and at most {LIST_BYTES} are counted"
        ));
    }
    let mut tally = Tally {
        records: [0; URLS],
        cookies: [0; URLS],
        all_records: 0,
        all_cookies: 0,
    };
    for request in requests(list) {
        let request = request.map_err(|bad| where_and_why(list, bad, tally.all_records))?;
        let [url, cookies] = [usize::from(request.url), request.cookies.len()];
        tally.records[url] += 1;
        tally.cookies[url] += cookies as u32;
        tally.all_records += 1;
        tally.all_cookies += cookies as u32;
    }
    Ok(tally)
}

/// Of the first record that is no request, after these that are.
fn where_and_why(list: &[u8], bad: RequestBad, before: u32) -> String {
    let byte = |place: usize| list.get(bad.at + place).copied().unwrap_or_default();
    let why = match bad.why {
        RequestFault::KindUnknown => format!(
            "requests begin with 03, 07, 0b, 0f, 43 or 47 in hexadecimal, and here stands {:02x}",
            byte(0)
        ),
        RequestFault::KeyMapEmpty => "its key map is 0".to_string(),
        RequestFault::Cut => "the list ends within it".to_string(),
        RequestFault::NumberAbove => number_above(byte(1), byte(2)),
    };
    let number = before + 1;
    let at = bad.at;
    format!("the list is bad from byte {at} on, where request {number} would begin: {why}")
}

fn number_above(url: u8, connection: u8) -> String {
    if usize::from(url) >= URLS {
        return format!("URL {url} is above {}", URLS - 1);
    }
    if usize::from(connection) >= CONNECTIONS {
        return format!("connection {connection} is above {}", CONNECTIONS - 1);
    }
    format!("its handler is above {}", SCRIPTS - 1)
}

fn table(usage: &Usage) -> Table {
    let mut table = Table::new(vec![Side::Left, Side::Right, Side::Right, Side::Left]);
    table.row(["URL", "requests", "cookies"].map(String::from));
    for row in &usage.rows {
        table.row([
            row.name.clone(),
            row.requests.to_string(),
            row.cookies.to_string(),
            bar(row.requests, usage.most(), BAR),
        ]);
    }
    table
}

#[cfg(test)]
mod tests {
    use super::*;
    use crate::examples::{assert_shown, read, CANTEEN};

    /// Session A's, of docs/TALLY.md.
    const LIST: [u8; 32] = [
        0x03, 1, 1, 0x03, 0, 0, 0x0f, 0, 0, 1, 0, 0, 0, 9, 0, 0x0f, 1, 1, 1, 0, 0, 0, 7, 0, 0x07,
        2, 1, 2, 0, 0, 0, 8,
    ];

    fn text_of(list: &[u8]) -> Result<String, String> {
        let (_, plan) = read(CANTEEN);
        super::text(&plan, list).map_err(|failure| failure.to_string())
    }

    #[test]
    fn urls_are_named() {
        let printed = "\
URL      requests  cookies
top-up          2        1  ##############################
payment         2        1  ##############################
receipt         1        1  ###############

all: requests 5, cookies 3
";
        assert_eq!(text_of(&LIST).as_deref(), Ok(printed));
    }

    #[test]
    fn the_page_shows_what_is_printed() {
        let page = include_str!("../../../docs/TALLY.md");
        assert_eq!(LIST, *include_bytes!("../../../crates/tally/stdin"));
        assert_shown(page, &text_of(&LIST).unwrap());
        assert_shown(page, &text_of(&LIST[..31]).unwrap_err());
    }

    #[test]
    fn a_url_that_the_policy_does_not_have_is_counted() {
        let printed = "\
URL     requests  cookies
URL 40         1        0  ##############################

all: requests 1, cookies 0
";
        assert_eq!(text_of(&[0x43, 40, 31]).as_deref(), Ok(printed));
    }

    #[test]
    fn a_list_may_be_empty() {
        let printed = "URL  requests  cookies\n\nall: requests 0, cookies 0\n";
        assert_eq!(text_of(&[]).as_deref(), Ok(printed));
    }

    #[test]
    fn where_a_list_is_bad_is_told() {
        let bad = |tail: &[u8]| {
            let list = [&[0x03, 1, 1], tail].concat();
            let why = text_of(&list).unwrap_err();
            let place = "the list is bad from byte 3 on, where request 2 would begin: ";
            why.strip_prefix(place)
                .expect("the place is told")
                .to_string()
        };
        assert_eq!(
            bad(&[0x13, 0, 0, 0, 0, 0, 7]),
            "requests begin with 03, 07, 0b, 0f, 43 or 47 in hexadecimal, and here stands 13"
        );
        assert_eq!(bad(&[0x07, 0, 0, 0]), "its key map is 0");
        assert_eq!(bad(&[0x03]), "the list ends within it");
        assert_eq!(bad(&[0x03, 64, 0]), "URL 64 is above 63");
        assert_eq!(bad(&[0x03, 63, 32]), "connection 32 is above 31");
        assert_eq!(bad(&[0x0b, 63, 31, 16]), "its handler is above 15");
        let long = text_of(&[0x03; LIST_BYTES + 1]).unwrap_err();
        let more = LIST_BYTES + 1;
        assert_eq!(
            long,
            format!("the list has {more} bytes, and at most {LIST_BYTES} are counted")
        );
    }

    #[test]
    fn bytes_of_every_kind_are_answered_alike() {
        for first in 0..=u8::MAX {
            for second in [0, 1, 15, 16, 31, 32, 63, 64, u8::MAX] {
                for length in 0..12 {
                    let list = [&[first, second][..], &[second; 12]].concat();
                    let is_bug = matches!(counted(&list[..length]), Err(Failure::Bug(_)));
                    assert!(!is_bug, "{list:?}");
                }
            }
        }
    }
}
