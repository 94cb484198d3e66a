//! Which connection of a policy reaches which URL: the command `reach`.
//!
//! The counts and the cells are those of `zolherima::reach_table`, which are proved. Each is compared with the other, and with the labels.

use policy_text::{Names, Plan};
use zolherima::reach_table::{self, Table as Counts};
use zolherima::{Endpoint, Policy, CONNECTIONS, URLS};

use crate::failure::Failure;
use crate::picture;
use crate::table::{listed, Side, Table, LINE};

/// A URL, with its name and those of what belongs to it.
#[derive(Clone, Debug, PartialEq)]
pub struct Url {
    pub name: String,
    pub endpoint: Endpoint,
    pub address: String,
    pub is_entry: bool,
    /// What is asked for in its place.
    pub partner: Option<String>,
}

/// The whole table.
pub struct Reach {
    /// None for an empty row.
    pub urls: Vec<Option<Url>>,
    /// The names of connections; None for one that is neither declared nor reaches anything.
    pub connections: Vec<Option<String>>,
    /// For each connection the URLs that it reaches, bit u for URL u.
    reached: [u64; CONNECTIONS],
    pub counts: Counts,
}

pub fn text(policy: &Policy, plan: &Plan) -> Result<String, Failure> {
    let reach = Reach::of(policy, plan)?;
    let all = format!("\nall {}\n", reach.counts.all);
    Ok([table(&reach), all, left_out(&reach), legend(&reach)].concat())
}

pub fn svg(policy: &Policy, plan: &Plan) -> Result<String, Failure> {
    Ok(picture::reach::draw(&Reach::of(policy, plan)?))
}

impl Reach {
    pub fn of(policy: &Policy, plan: &Plan) -> Result<Reach, Failure> {
        let bug = |what: &str| Failure::Bug(what.to_string());
        let words = policy.words();
        let counts = reach_table::count(words)
            .map_err(|_| bug("a policy that is well formed is not counted"))?;
        let reached = cells(|connection, url| reach_table::fits(words, connection, url));
        if !counts_just(&counts, &reached) {
            return Err(bug("counts and cells of the reach table differ"));
        }
        if reached != cells(|connection, url| fits(policy, connection, url)) {
            return Err(bug("cells of the reach table and labels differ"));
        }
        let names = Names::of(plan);
        let is_shown = |it: u32| is_declared(plan, it) || counts.urls[it as usize] > 0;
        let connection = |it: u32| is_shown(it).then(|| names.connection(it));
        Ok(Reach {
            urls: (0..URLS as u32)
                .map(|url| url_of(policy, &names, url))
                .collect(),
            connections: (0..CONNECTIONS as u32).map(connection).collect(),
            reached,
            counts,
        })
    }

    pub fn reaches(&self, connection: usize, url: usize) -> bool {
        self.reached[connection] >> url & 1 == 1
    }

    /// The URLs that a connection reaches.
    pub fn urls_of(&self, connection: usize) -> impl Iterator<Item = usize> + '_ {
        (0..URLS).filter(move |&url| self.reaches(connection, url))
    }

    /// How many connections reach a URL.
    pub fn connections_of(&self, url: usize) -> usize {
        let reaching = (0..CONNECTIONS).filter(|&connection| self.reaches(connection, url));
        reaching.count()
    }

    /// The URLs that there are, with their numbers.
    pub fn rows(&self) -> impl Iterator<Item = (usize, &Url)> {
        let rows = self.urls.iter().enumerate();
        rows.filter_map(|(number, url)| Some((number, url.as_ref()?)))
    }

    /// The connections that have a name, with their numbers.
    pub fn named(&self) -> impl Iterator<Item = (usize, &String)> {
        let connections = self.connections.iter().enumerate();
        connections.filter_map(|(number, name)| Some((number, name.as_ref()?)))
    }
}

fn cells(fits: impl Fn(u32, u32) -> bool) -> [u64; CONNECTIONS] {
    std::array::from_fn(|connection| {
        let bit = |url| u64::from(fits(connection as u32, url as u32)) << url;
        (0..URLS).map(bit).sum()
    })
}

/// By the labels, beside the library.
fn fits(policy: &Policy, connection: u32, url: u32) -> bool {
    let both = policy.connection(connection).zip(policy.url(url));
    both.is_some_and(|(connection, url)| connection.fits(&url))
}

/// Whether these cells are counted, and no others.
fn counts_just(counts: &Counts, cells: &[u64; CONNECTIONS]) -> bool {
    let each = cells.map(u64::count_ones);
    each == counts.urls && each.iter().sum::<u32>() == counts.all
}

pub fn url_of(policy: &Policy, names: &Names, url: u32) -> Option<Url> {
    let it = policy.url(url)?;
    Some(Url {
        name: names.url(url),
        endpoint: it.address,
        address: names.endpoint(it.address),
        is_entry: it.is_entry,
        partner: policy.partner(url).map(|partner| names.url(partner)),
    })
}

pub fn is_declared(plan: &Plan, connection: u32) -> bool {
    let row = plan.connections.get(connection as usize);
    row.is_some_and(|row| row.is_some())
}

/// With the names of URLs above their columns where there is room, and with their numbers else.
fn table(reach: &Reach) -> String {
    let named = named_columns(reach);
    match named.width() <= LINE {
        true => named.to_string(),
        false => numbered_columns(reach).to_string(),
    }
}

fn named_columns(reach: &Reach) -> Table {
    let columns = reach.rows().map(|_| Side::Left);
    let mut table = Table::new(
        [Side::Left, Side::Right]
            .into_iter()
            .chain(columns)
            .collect(),
    );
    let names = reach.rows().map(|(_, url)| url.name.clone());
    table.row(heads().into_iter().chain(names));
    for (connection, name) in reach.named() {
        let marks = marks(reach, connection).map(String::from);
        table.row(beginning(reach, connection, name).into_iter().chain(marks));
    }
    table
}

fn heads() -> [String; 2] {
    ["connection", "URLs"].map(String::from)
}

fn beginning(reach: &Reach, connection: usize, name: &str) -> [String; 2] {
    [name.to_string(), reach.counts.urls[connection].to_string()]
}

fn marks(reach: &Reach, connection: usize) -> impl Iterator<Item = char> + '_ {
    let mark = move |(url, _)| match reach.reaches(connection, url) {
        true => 'x',
        false => '.',
    };
    reach.rows().map(mark)
}

/// A column is as wide as one digit; tens stand above ones.
fn numbered_columns(reach: &Reach) -> Table {
    let mut table = Table::new(vec![Side::Left, Side::Right, Side::Left]);
    let [tens, ones]: [String; 2] =
        [tens, ones].map(|of| spread(reach.rows().map(|(url, _)| of(url))));
    table.row([String::new(), String::new(), tens]);
    table.row(heads().into_iter().chain([ones]));
    for (connection, name) in reach.named() {
        let marks = spread(marks(reach, connection));
        table.row(
            beginning(reach, connection, name)
                .into_iter()
                .chain([marks]),
        );
    }
    table
}

fn tens(number: usize) -> char {
    match number / 10 {
        0 => ' ',
        tens => digit(tens),
    }
}

fn ones(number: usize) -> char {
    digit(number % 10)
}

fn digit(number: usize) -> char {
    char::from_digit(number as u32, 10).unwrap_or('?')
}

/// With a blank after each but for many.
fn spread(marks: impl Iterator<Item = char>) -> String {
    let marks: Vec<char> = marks.collect();
    let gap = if marks.len() > LINE / 3 { "" } else { " " };
    let marks: Vec<String> = marks.into_iter().map(String::from).collect();
    marks.join(gap)
}

fn left_out(reach: &Reach) -> String {
    let is_left_out = |connection: &usize| reach.connections[*connection].is_none();
    match listed((0..CONNECTIONS).filter(is_left_out)) {
        none if none.is_empty() => none,
        some => format!("Connections that are not declared reach nothing: {some}.\n"),
    }
}

/// What the URLs are.
fn legend(reach: &Reach) -> String {
    let mut table = Table::new(vec![Side::Right, Side::Left, Side::Left]);
    for (number, url) in reach.rows() {
        let entry = if url.is_entry { ", an entry" } else { "" };
        let instead = url.partner.as_ref();
        let instead = instead.map(|partner| format!("; {partner} is asked for in its place"));
        let what = format!("{}{entry}{}", url.address, instead.unwrap_or_default());
        table.row([number.to_string(), url.name.clone(), what]);
    }
    match reach.rows().next() {
        Some(_) => format!("\nURLs\n{table}"),
        None => "\nThere is no URL.\n".to_string(),
    }
}

#[cfg(test)]
mod tests {
    use super::*;
    use crate::examples::{assert_shown, listed_post, open, read, CANTEEN, SMALL_POST};

    fn reach_of(text: &str) -> Reach {
        let (policy, plan) = read(text);
        Reach::of(&policy, &plan).unwrap()
    }

    fn text_of(text: &str) -> String {
        let (policy, plan) = read(text);
        super::text(&policy, &plan).unwrap()
    }

    #[test]
    fn urls_are_those_of_the_policy() {
        let urls = reach_of(&listed_post()).urls;
        let said = |url: usize| {
            let it = urls[url].clone().unwrap();
            (it.name, it.address, it.is_entry, it.partner)
        };
        let door = ["door", "http post", "home"].map(String::from);
        let [name, address, partner] = door;
        assert_eq!(said(3), (name, address, true, Some(partner)));
        let pay = ["pay", "https shop"].map(String::from);
        let [name, address] = pay;
        assert_eq!(said(2), (name, address, true, None));
        assert!(urls[4..].iter().all(Option::is_none));
    }

    #[test]
    fn cells_are_those_of_the_library() {
        let reach = reach_of(SMALL_POST);
        let reached = [0, 1, 2, 3, 4].map(|connection| Vec::from_iter(reach.urls_of(connection)));
        assert_eq!(reached, [vec![0], vec![1, 2], vec![0], vec![0, 3], vec![]]);
        let reaching = [0, 1, 2, 3, 4].map(|url| reach.connections_of(url));
        assert_eq!(reaching, [3, 1, 1, 1, 0]);
    }

    #[test]
    fn counts_that_are_not_those_of_the_cells_are_found() {
        let one = cells(|connection, url| (connection, url) == (31, 63));
        let table = |connection: usize, all| {
            let mut urls = [0; CONNECTIONS];
            urls[connection] = 1;
            Counts { urls, all }
        };
        assert!(counts_just(&table(31, 1), &one));
        assert!(!counts_just(&table(30, 1), &one));
        assert!(!counts_just(&table(31, 2), &one));
    }

    #[test]
    fn few_urls_stand_above_their_columns() {
        let printed = "\
connection  URLs  home  window  pay  door
own            1  x     .       .    .
any            2  .     x       x    .
quiet          1  x     .       .    .
wire           2  x     .       .    x

all 6
Connections that are not declared reach nothing: 4 to 31.

URLs
0  home    https post
1  window  http shop
2  pay     https shop, an entry
3  door    http post, an entry; home is asked for in its place
";
        assert_eq!(text_of(&listed_post()), printed);
    }

    #[test]
    fn many_urls_are_numbered() {
        let printed = text_of(CANTEEN);
        let rows = "                                          6
connection      URLs  0 1 2 3 4 5 6 7 8 9 3
canteen-only       3  x . x . . . x . . . .
bank-sees          2  x . x . . . . . . . .
payment            5  x x x . x x . . . . .
second-payment     5  x x x . x x . . . . .
wide-open         11  x x x x x x x x x x x
caterer-unseen     2  . . . . . . . x . . x
caterer            2  . . . . . . . x . . x

all 30
Connections that are not declared reach nothing: 4 to 7, 9 to 29.

URLs
 0  top-up       https canteen
";
        assert!(printed.starts_with(rows), "{printed}");
        assert!(printed.ends_with("\n63  deliveries   https caterer\n"));
    }

    #[test]
    fn all_urls_and_connections_have_their_place() {
        let printed = text_of(&open());
        let ones = "0123456789".repeat(7)[..URLS].to_string();
        assert!(printed.contains(&format!("  URLs  {ones}\n")));
        assert!(printed.contains(&format!("-name-31    64  {}\n", "x".repeat(URLS))));
        let all = CONNECTIONS * URLS;
        assert!(printed.contains(&format!("\n\nall {all}\n\nURLs\n 0  url-with")));
    }

    #[test]
    fn a_policy_may_be_empty() {
        let printed = "connection  URLs\n\nall 0\nConnections that are not declared reach nothing: 0 to 31.\n\nThere is no URL.\n";
        assert_eq!(text_of(""), printed);
    }

    #[test]
    fn the_page_shows_what_is_printed() {
        assert_shown(include_str!("../../../docs/REACH.md"), &text_of(CANTEEN));
    }

    /// A plan that is not the policy's hides nothing that is reached.
    #[test]
    fn what_reaches_is_shown() {
        let (policy, _) = read(SMALL_POST);
        let (_, plan) = read("");
        let printed = super::text(&policy, &plan).unwrap();
        assert!(
            printed.contains("\nconnection 3     2  x      .      .      x\n"),
            "{printed}"
        );
    }
}
