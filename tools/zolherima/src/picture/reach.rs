//! The picture of reach: connections against URLs, a filled cell where a connection reaches a URL, and the counts around.

use zolherima::{CONNECTIONS, URLS};

use crate::picture::column;
use crate::picture::columns::Columns;
use crate::picture::style::{
    room, row_name, Places, ASIDE, HTTP, HTTPS, INK, LEFT, NO_URL, RIGHT, ROW, WIDTH,
};
use crate::picture::svg::{document, group, label, rect, tenths, with};
use crate::picture::words;
use crate::reach::Reach;
use crate::table::runs;

const TITLE: &str = "Reach table: which connection reaches which URL";
const REPLACED: &str =
    "its host is always https, and the URL behind the arrow is asked for in its place; \
                        it is counted all the same, by its own labels";
const REACHED: &str = "reached: the connection's readers are within the URL's, and the URL's address is among the connection's writers";

pub fn draw(reach: &Reach) -> String {
    let is_url = std::array::from_fn(|url| reach.urls[url].is_some());
    let columns = Columns::of(is_url, LEFT, RIGHT);
    let at = places(reach);
    let body = [
        column::shapes(columns.width, at.top),
        heading(TITLE, &words::summary(reach)),
        empty_columns(reach, &columns, &at),
        grid(&columns, &at),
        url_columns(reach, &columns, &at),
        sides(reach, &at),
        heads(&at),
        legend(&at),
    ];
    let words = [TITLE, &words::description(reach)];
    document(WIDTH, at.bottom() + 104.0, words, &body.concat())
}

fn places(reach: &Reach) -> Places {
    let names = room(reach.rows().map(|(_, url)| url.name.as_str()));
    let addresses = room(reach.rows().map(|(_, url)| url.address.as_str()));
    let partners = reach.rows().filter_map(|(_, url)| url.partner.as_deref());
    let partners: Vec<String> = partners.map(|name| format!("→ {name}")).collect();
    let partners = room(partners.iter().map(String::as_str));
    Places::of(names.max(48.0), addresses.max(82.0), partners)
}

/// A title, and a line below it.
pub fn heading(title: &str, line: &str) -> String {
    let title = label(LEFT, 24.0, title);
    let title = with("font-size=\"17\" font-weight=\"bold\"", &title);
    placed("start", 12, &(title + &label(LEFT, 45.0, line)))
}

/// Labels of one size, which begin, end or have their middle at their place.
pub fn placed(anchor: &str, size: u32, labels: &str) -> String {
    let attributes = format!("text-anchor=\"{anchor}\" font-size=\"{size}\" fill=\"{INK}\"");
    group(&attributes, labels)
}

fn empty_columns(reach: &Reach, columns: &Columns, at: &Places) -> String {
    let is_empty = |url: &usize| reach.urls[*url].is_none();
    let runs = runs((0..URLS).filter(is_empty)).into_iter();
    let drawn = runs.map(|(first, last)| column::empty(first, last, columns, at));
    placed("middle", 10, &drawn.collect::<String>())
}

fn url_columns(reach: &Reach, columns: &Columns, at: &Places) -> String {
    let drawn = reach.rows();
    let drawn = drawn.map(|(number, url)| column::of_url(number, url, reach, columns, at));
    placed("middle", 11, &drawn.collect::<String>())
}

/// The sides of all cells; some are drawn darker, so that rows can be followed.
fn grid(columns: &Columns, at: &Places) -> String {
    let [top, bottom] = [at.top, at.bottom()].map(tenths);
    let across = |row: usize| format!("M{LEFT} {}H{RIGHT}", tenths(top + ROW * row as f64));
    let down = |x: f64| format!("M{} {top}V{bottom}", tenths(x));
    let lefts: String = (0..URLS).map(|url| down(columns.left(url))).collect();
    let all: String = (0..=CONNECTIONS).map(across).collect();
    let eighths: String = (0..=CONNECTIONS).step_by(8).map(across).collect();
    lines(&(lefts + &down(RIGHT) + &all), "#dcdcdc") + &lines(&eighths, "#777")
}

/// Thin lines of one colour.
pub fn lines(path: &str, colour: &str) -> String {
    format!("<path d=\"{path}\" fill=\"none\" stroke=\"{colour}\" stroke-width=\".6\"/>\n")
}

/// The connections before their rows, their counts behind, and the sum of these in the corner.
fn sides(reach: &Reach, at: &Places) -> String {
    let side = |x: f64, text: &dyn Fn(usize) -> String| {
        let row = |connection: usize| {
            let count = reach.counts.urls[connection] as usize;
            column::shaded(count, &label(x, at.row(connection), &text(connection)))
        };
        (0..CONNECTIONS).map(row).collect::<String>()
    };
    let name = |connection: usize| match &reach.connections[connection] {
        Some(name) => row_name(name),
        None => connection.to_string(),
    };
    let count = |connection: usize| reach.counts.urls[connection].to_string();
    let [before, behind] = [side(LEFT - ASIDE, &name), side(RIGHT + ASIDE, &count)];
    let all = label(
        RIGHT + ASIDE,
        at.foot(),
        &format!("all {}", reach.counts.all),
    );
    let all = with("font-size=\"12\" font-weight=\"bold\"", &all);
    placed("end", 11, &before) + &placed("start", 11, &(behind + &all))
}

/// What all these are.
fn heads(at: &Places) -> String {
    let left = at.heads().chain([(at.foot(), "reached by")]);
    let right = [(at.top - 24.0, "URLs"), (at.top - 11.0, "reached")];
    let left = left.map(|(y, name)| label(LEFT - ASIDE, y, name));
    let left: String = left.collect();
    let right = right
        .map(|(y, name)| label(RIGHT + ASIDE, y, name))
        .concat();
    let connection = label(LEFT - ASIDE, at.top - 9.0, "connection");
    let connection = with("font-weight=\"bold\"", &connection);
    placed("end", 11, &(left + &connection)) + &placed("start", 11, &right)
}

fn legend(at: &Places) -> String {
    let [first, second, third] = [42.0, 62.0, 82.0].map(|below| at.bottom() + below);
    let sample = |x: f64, attributes: &str| with(attributes, &rect(x, first - 5.5, 22.0, 11.0));
    let shapes = [
        sample(LEFT, &format!("fill=\"{HTTPS}\"")),
        sample(LEFT + 152.0, &format!("rx=\"5.5\" fill=\"{HTTP}\"")),
        column::entry(LEFT + 308.0, first),
        sample(LEFT + 538.0, &format!("fill=\"{NO_URL}\" stroke=\"#ccc\"")),
    ];
    let labels = [
        (LEFT + 28.0, first, "reached, by https"),
        (LEFT + 180.0, first, "reached, by http"),
        (LEFT + 320.0, first, "an entry: anyone may lead to it"),
        (LEFT + 566.0, first, "no URL: not counted"),
        (LEFT, second, "→"),
        (LEFT + 28.0, second, REPLACED),
        (LEFT, third, REACHED),
    ];
    let labels = labels.map(|(x, y, text)| label(x, y, text)).concat();
    shapes.concat() + &placed("start", 12, &labels)
}

#[cfg(test)]
mod tests {
    use super::*;
    use crate::examples::{assert_well_formed, listed_post, open, read, CANTEEN, SMALL_POST};

    fn picture_of(text: &str) -> String {
        let (policy, plan) = read(text);
        draw(&Reach::of(&policy, &plan).unwrap())
    }

    #[test]
    fn as_many_cells_are_filled_as_are_counted() {
        let [listed, open] = [listed_post(), open()];
        let policies = [("", 0), (SMALL_POST, 6), (&listed, 6), (CANTEEN, 30)];
        for (policy, all) in policies
            .into_iter()
            .chain([(&open[..], CONNECTIONS * URLS)])
        {
            let picture = picture_of(policy);
            assert_eq!(picture.matches("<use ").count(), all);
            assert!(picture.contains(&format!(">all {all}</text>")));
        }
    }

    #[test]
    fn a_small_post_is_drawn() {
        let picture = picture_of(SMALL_POST);
        for cell in [
            "own fits home",
            "any fits window",
            "any fits pay",
            "quiet fits home",
            "wire fits home",
            "wire fits door",
        ] {
            assert!(
                picture.contains(&format!("<title>{cell}</title>")),
                "{cell}"
            );
        }
        // window and door are by http.
        assert_eq!(picture.matches("href=\"#o\"").count(), 2);
        assert_eq!(picture.matches("href=\"#s\"").count(), 4);
    }

    #[test]
    fn all_connections_are_named_and_all_urls() {
        let picture = picture_of(&open());
        assert_eq!(
            picture.matches(">connection-with-a-…</text>").count(),
            CONNECTIONS
        );
        assert_eq!(picture.matches(">url-with-a-long-n…</text>").count(), URLS);
        for url in 0..URLS {
            let title = format!("<title>URL {url}, url-with-a-long-name-{url}: http");
            assert!(picture.contains(&title), "{url}");
        }
    }

    #[test]
    fn a_picture_is_not_large() {
        assert!(picture_of(&open()).len() < 400_000);
    }

    #[test]
    fn a_picture_is_well_formed() {
        for text in ["", SMALL_POST, &listed_post(), CANTEEN, &open()] {
            assert_well_formed(&picture_of(text));
        }
    }

    #[test]
    fn the_picture_that_is_shown_is_that_of_the_example() {
        let shown = include_str!("../../../../docs/reach.svg");
        assert!(picture_of(CANTEEN) == shown, "docs/reach.svg is another");
    }

    /// The text is that of the policy that `reach` and its picture have as their example.
    #[test]
    fn the_example_is_that_of_the_program_reach() {
        let (_, plan) = read(CANTEEN);
        let words = include_bytes!("../../../../crates/reach/stdin");
        assert!(policy_text::compile(&plan).starts_with(words));
    }
}
