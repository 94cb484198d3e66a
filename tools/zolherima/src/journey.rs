//! On which connection URLs can follow one another by redirects: the command `journey`.
//!
//! The answers are those of `zolherima::journeys`, which are proved. They are compared with those of `explain`, which is where the words come from.

use explain::{rules, Lack, Owner};
use policy_text::{Names, Plan};
use zolherima::journeys::{self, Lacking, MOST_URLS};
use zolherima::{Connection, Endpoint, Policy, CONNECTIONS};

use crate::failure::Failure;
use crate::picture;
use crate::reach::{self, is_declared};
use crate::table::{listed, Side, Table, LINE};
use crate::words::{own, Words};

/// Where a connection fails first, and the conditions that fail there, in the order in which they are asked.
struct Stop {
    /// The place in the journey, 0 for the first URL.
    place: usize,
    lacks: Vec<Lack>,
}

/// A URL of the journey.
pub struct Stage {
    pub url: reach::Url,
    /// The address and the name of what is asked for: of its partner, or its own.
    pub asked: Endpoint,
    pub asked_name: String,
}

/// A connection that there is.
pub struct Row {
    pub name: String,
    /// How many URLs it takes before it stops; none where it carries the journey.
    pub taken: Option<usize>,
    /// Why it stops.
    pub reasons: Vec<Reason>,
}

/// A condition that fails: what is missing, why it is asked for, and what can be done about it.
pub struct Reason {
    pub lack: String,
    why: String,
    mends: Vec<String>,
}

pub struct Journey {
    pub stages: Vec<Stage>,
    pub rows: Vec<Row>,
    /// The connection that carries it.
    pub found: Option<String>,
    /// Connections without a row.
    left_out: Vec<usize>,
}

impl Journey {
    pub fn of(words: &Words, urls: &[u32]) -> Result<Journey, Failure> {
        let Words {
            policy,
            plan,
            names,
            ..
        } = words;
        let stages = stages(policy, names, urls)?;
        let stops = stops_of_all(policy, urls)?;
        let (shown, left_out): (Vec<usize>, Vec<usize>) =
            (0..CONNECTIONS).partition(|&it| is_shown(policy, plan, it as u32));
        let row = |it: usize| row(words, it as u32, stops[it].as_ref());
        let found = stops.iter().position(Option::is_none);
        Ok(Journey {
            stages,
            rows: shown.into_iter().map(row).collect(),
            found: found.map(|it| names.connection(it as u32)),
            left_out,
        })
    }

    pub fn text(&self) -> String {
        let stops = match self.found {
            Some(_) => String::new(),
            None => stops(self),
        };
        let parts = [self.answer(), "\n\n".to_string(), table(self), stops];
        parts.concat() + &left_out(self)
    }

    pub fn svg(&self) -> String {
        picture::journey::draw(self)
    }

    /// In one line.
    pub fn answer(&self) -> String {
        match &self.found {
            Some(name) => format!("connection {name} carries this journey"),
            None => "no connection carries this journey".to_string(),
        }
    }
}

/// One that is not declared has no labels.
fn is_shown(policy: &Policy, plan: &Plan, connection: u32) -> bool {
    let labels = policy.connection(connection).unwrap_or_default();
    is_declared(plan, connection) || labels != Connection::default()
}

fn stages(policy: &Policy, names: &Names, urls: &[u32]) -> Result<Vec<Stage>, Failure> {
    let refused = |why: String| Err(Failure::Refused(why));
    match urls.len() {
        0 => return refused("a journey has one URL or more".to_string()),
        many if many > MOST_URLS => {
            return refused(format!(
                "a journey has at most {MOST_URLS} URLs, and here are {many}"
            ))
        }
        _ => {}
    }
    let stage = |&url: &u32| {
        let none = || Failure::Refused(format!("there is no URL {url}"));
        stage(policy, names, url).ok_or_else(none)
    };
    urls.iter().map(stage).collect()
}

fn stage(policy: &Policy, names: &Names, url: u32) -> Option<Stage> {
    let asked = policy.asked_for(url);
    Some(Stage {
        url: reach::url_of(policy, names, url)?,
        asked: policy.url(asked)?.address,
        asked_name: names.url(asked),
    })
}

/// For each connection where it stops, as the library and the conditions tell.
fn stops_of_all(policy: &Policy, urls: &[u32]) -> Result<Vec<Option<Stop>>, Failure> {
    let found = journeys::find(policy.words(), &bytes(urls)).map_err(refused)?;
    let connections = 0..CONNECTIONS as u32;
    let stops: Result<Vec<_>, _> = connections.map(|it| stop_on(policy, urls, it)).collect();
    let stops = stops?;
    let carries = stops.iter().position(Option::is_none);
    match found.map(|connection| connection as usize) == carries {
        true => Ok(stops),
        false => Err(Failure::Bug(
            "a journey's connection and the conditions differ".to_string(),
        )),
    }
}

/// As the library takes them. Those of a policy are below 64.
fn bytes(urls: &[u32]) -> Vec<u8> {
    urls.iter().map(|&url| url as u8).collect()
}

fn refused(refusal: journeys::Refusal) -> Failure {
    Failure::Bug(format!("a journey that there is, is refused: {refusal}"))
}

/// Where a connection stops, if library and conditions tell the same.
fn stop_on(policy: &Policy, urls: &[u32], connection: u32) -> Result<Option<Stop>, Failure> {
    let stop = stop(policy, urls, connection);
    let told = journeys::stop(policy.words(), &bytes(urls), connection).map_err(refused)?;
    match stop.as_ref().and_then(as_told) == told {
        true => Ok(stop),
        false => Err(Failure::Bug(
            "where a journey stops, and the conditions differ".to_string(),
        )),
    }
}

/// By the conditions, beside the library.
fn stop(policy: &Policy, urls: &[u32], connection: u32) -> Option<Stop> {
    let mut lacks = urls.iter().enumerate().map(|(place, &url)| {
        let asked = policy.asked_for(url);
        let lacks = match place {
            0 => rules::load(policy, connection, asked),
            _ => rules::redirect(policy, connection, asked),
        };
        Stop { place, lacks }
    });
    lacks.find(|stop| !stop.lacks.is_empty())
}

/// What the library tells of a stop: the lowest endpoint that is missing in the first condition, and whose set lacks it.
fn as_told(stop: &Stop) -> Option<journeys::Stop> {
    let lack = stop.lacks.first()?;
    Some(journeys::Stop {
        place: stop.place as u32,
        refusal: lack.refusal()?,
        lacking: match lack.lacking {
            Owner::Url(url) => Lacking::Url(url),
            Owner::Connection(connection) => Lacking::Connection(connection),
            Owner::Cookie { .. } => return None,
        },
    })
}

fn row(words: &Words, connection: u32, stop: Option<&Stop>) -> Row {
    let lacks = stop.map(|stop| stop.lacks.as_slice()).unwrap_or_default();
    let reason = |lack: &Lack| Reason {
        lack: words.lack(lack),
        why: words.reason(lack),
        mends: words.mends(lack),
    };
    Row {
        name: words.names.connection(connection),
        taken: stop.map(|stop| stop.place),
        reasons: own(lacks).iter().map(reason).collect(),
    }
}

/// With the names of URLs above their columns where there is room, and with their places in the journey else.
fn table(journey: &Journey) -> String {
    let names = journey.stages.iter().map(|stage| stage.url.name.clone());
    let named = columns(journey, names);
    let marks = "x taken   ! stops here   . not reached\n";
    if named.width() <= LINE {
        return format!("{named}{marks}");
    }
    let places = 1..=journey.stages.len();
    let numbered = columns(journey, places.map(|place| place.to_string()));
    let mut legend = Table::new(vec![Side::Right, Side::Left]);
    for (place, stage) in journey.stages.iter().enumerate() {
        legend.row([(place + 1).to_string(), stage.url.name.clone()]);
    }
    format!("{numbered}{marks}\nURLs\n{legend}")
}

fn columns(journey: &Journey, heads: impl Iterator<Item = String>) -> Table {
    let mut table = Table::new(vec![Side::Left; 1 + journey.stages.len()]);
    table.row(["connection".to_string()].into_iter().chain(heads));
    for row in &journey.rows {
        let places = 0..journey.stages.len();
        let marks = places.map(|place| mark(row.taken, place).to_string());
        table.row([row.name.clone()].into_iter().chain(marks));
    }
    table
}

fn mark(taken: Option<usize>, place: usize) -> char {
    match taken {
        Some(taken) if taken == place => '!',
        Some(taken) if taken < place => '.',
        _ => 'x',
    }
}

/// Where and why each connection stops, and what can be done about it.
fn stops(journey: &Journey) -> String {
    let told: String = journey
        .rows
        .iter()
        .filter_map(|row| told(journey, row))
        .collect();
    told + "\nA connection may stop at a later URL once this is put right.\n"
}

fn told(journey: &Journey, row: &Row) -> Option<String> {
    let taken = row.taken?;
    let Stage {
        url, asked_name, ..
    } = journey.stages.get(taken)?;
    let (place, many) = (taken + 1, journey.stages.len());
    let instead = match url.partner {
        Some(_) => format!(", for which {asked_name} is asked"),
        None => String::new(),
    };
    let reason = |it: &Reason| {
        let mends = it.mends.iter().map(|mend| format!("        {mend}\n"));
        let mends: String = mends.collect();
        format!("    {}\n        {}\n{mends}", it.lack, it.why)
    };
    let reasons: String = row.reasons.iter().map(reason).collect();
    let at = format!("{} ({place} of {many}){instead}", url.name);
    Some(format!(
        "\nconnection {} stops at {at}:\n{reasons}",
        row.name
    ))
}

fn left_out(journey: &Journey) -> String {
    match listed(journey.left_out.iter().copied()) {
        none if none.is_empty() => none,
        some => format!("\nConnections that are not declared carry nothing: {some}.\n"),
    }
}

#[cfg(test)]
mod tests {
    use super::*;
    use crate::examples::{assert_shown, listed_post, read, CANTEEN, SMALL_POST};
    use zolherima::{Cookies, Record, Refusal, Scripts, Session};

    fn text_of(text: &str, urls: &[u32]) -> String {
        let (policy, plan) = read(text);
        let words = Words::new(&policy, &plan, text.as_bytes());
        Journey::of(&words, urls).unwrap().text()
    }

    #[test]
    fn a_connection_is_told() {
        let printed = "\
connection payment carries this journey

connection      top-up  payment  receipt
canteen-only    x       !        .
bank-sees       x       !        .
payment         x       x        x
second-payment  x       x        x
wide-open       x       !        .
caterer-unseen  !       .        .
caterer         !       .        .
x taken   ! stops here   . not reached

Connections that are not declared carry nothing: 4 to 7, 9 to 29.
";
        assert_eq!(text_of(CANTEEN, &[0, 1, 2]), printed);
    }

    #[test]
    fn where_each_connection_stops_is_told() {
        let printed = text_of(CANTEEN, &[3, 5, 0]);
        let first = "
connection bank-sees stops at accounts (2 of 3):
    https bank is missing among the writers of connection bank-sees
        https bank is where accounts is asked for, and shapes what comes back
        to allow it, add `https bank` to the writers of connection bank-sees (line 56)
    https canteen is missing among the writers of url accounts
";
        assert!(printed.starts_with("no connection carries this journey\n\nconnection "));
        assert!(printed.contains(first), "{printed}");
        let last = "
connection caterer stops at top-up-http (1 of 3), for which top-up is asked:
    caterer is missing among the readers of url top-up
        the readers of connection caterer would learn of url top-up, and are not all among its readers
        to allow it, use a connection without `caterer` among its readers
        or add `caterer` to the readers of url top-up (line 9), who may then learn of it
    https canteen is missing among the writers of connection caterer
        https canteen is where top-up is asked for, and shapes what comes back
        to allow it, add `https canteen` to the writers of connection caterer (line 74)

A connection may stop at a later URL once this is put right.

Connections that are not declared carry nothing: 4 to 7, 9 to 29.
";
        assert!(printed.ends_with(last), "{printed}");
    }

    #[test]
    fn the_page_shows_what_is_printed() {
        let page = include_str!("../../../docs/JOURNEY.md");
        assert_shown(page, &text_of(CANTEEN, &[0, 1, 2]));
        let stops = text_of(CANTEEN, &[3, 5, 0]);
        let first = stops.split("\nconnection ").skip(2).take(2);
        first.for_each(|stop| assert_shown(page, &format!("connection {}", stop.trim_end())));
    }

    #[test]
    fn a_long_journey_has_numbers() {
        let printed = text_of(CANTEEN, &[0; 16]);
        assert!(printed
            .contains("\ncanteen-only    x  x  x  x  x  x  x  x  x  x   x   x   x   x   x   x\n"));
        assert!(printed.contains("\n\nURLs\n 1  top-up\n"));
        assert!(printed.contains("\n16  top-up\n"));
    }

    #[test]
    fn what_is_no_journey_is_refused() {
        let (policy, plan) = read(SMALL_POST);
        let words = Words::new(&policy, &plan, SMALL_POST.as_bytes());
        let why = |urls: &[u32]| Journey::of(&words, urls).err().map(|it| it.to_string());
        assert_eq!(why(&[]).unwrap(), "a journey has one URL or more");
        assert_eq!(
            why(&[0; 17]).unwrap(),
            "a journey has at most 16 URLs, and here are 17"
        );
        for url in [4, 63, 64, 256, u32::MAX] {
            assert_eq!(why(&[0, url]).unwrap(), format!("there is no URL {url}"));
        }
    }

    /// What the monitor answers to the load and the redirects, record by record.
    fn fed(policy: &Policy, urls: &[u32], connection: u32) -> Option<(usize, Refusal)> {
        let scripts = Scripts::new();
        let mut session = Session::new(policy, &scripts);
        let mut held = 0;
        for (place, &url) in urls.iter().enumerate() {
            let record = match place {
                0 => Record::load(url as u8, connection as u8),
                _ => Record::redirect(held, connection as u8, &Cookies::NONE, url as u8),
            };
            if let Err(refusal) = session.feed(&record) {
                return Some((place, refusal));
            }
            held = policy.asked_for(url) as u8;
        }
        None
    }

    #[test]
    fn a_journey_stops_where_the_monitor_refuses() {
        for text in [SMALL_POST.to_string(), listed_post(), CANTEEN.to_string()] {
            let (policy, _) = read(&text);
            let urls = || (0..10).filter(|&url| policy.url(url).is_some());
            let journeys = urls().flat_map(|first| urls().map(move |then| [first, then, first]));
            for journey in journeys {
                let stops = stops_of_all(&policy, &journey).unwrap();
                for (connection, stop) in (0..).zip(stops) {
                    let told = stop.and_then(|stop| as_told(&stop));
                    let told = told.map(|stop| (stop.place as usize, stop.refusal));
                    let answer = fed(&policy, &journey, connection);
                    assert_eq!(told, answer, "{journey:?} on {connection}");
                }
            }
        }
    }
}
