//! The picture of a journey: connections against the URLs in their order, a filled cell where a URL is taken, a cross where the journey stops, and
//! what is missing there.

use crate::journey::{Journey, Row, Stage};
use crate::picture::column;
use crate::picture::reach::{heading, lines, placed};
use crate::picture::style::{
    room, row_name, Places, ASIDE, GAP, HTTP, HTTPS, INK, LEFT, LETTER, NO_URL, ROW,
};
use crate::picture::svg::{document, label, rect, tenths, with};
use crate::table::cut;

const COLUMN: f64 = 34.0;
/// The legend needs no less, nor does a title of so many letters.
const NARROWEST: f64 = 760.0;
const TITLE: usize = 56;
/// The most letters behind a row.
const OUTCOME: usize = 90;
const TAKEN: &str = "taken: the first URL by a load, each further one by a redirect";
const REPLACED: &str =
    "its host is always https, and the URL behind the arrow is asked for in its place";

pub fn draw(journey: &Journey) -> String {
    let at = places(journey);
    let body = [
        column::shapes(COLUMN, at.top),
        heading(&cut(&title(journey), TITLE), &journey.answer()),
        columns(journey, &at),
        grid(journey, &at),
        sides(journey, &at),
        heads(journey, &at),
        legend(&at),
    ];
    let words = [title(journey), description(journey)];
    let [title, description] = [&words[0], &words[1]];
    document(
        width(journey),
        at.bottom() + 104.0,
        [title, description],
        &body.concat(),
    )
}

fn title(journey: &Journey) -> String {
    let names = journey.stages.iter().map(|stage| stage.url.name.as_str());
    format!("Journey: {}", Vec::from_iter(names).join(", "))
}

fn description(journey: &Journey) -> String {
    let rows = journey.rows.iter();
    let said = rows.map(|row| format!(" {}: {}.", row.name, outcome(row)));
    format!("{}.{}", journey.answer(), said.collect::<String>())
}

/// What comes of the journey on a connection: what is missing first, where it stops.
fn outcome(row: &Row) -> &str {
    match row.reasons.first() {
        Some(reason) => &reason.lack,
        None => "carries it",
    }
}

fn places(journey: &Journey) -> Places {
    let urls = || journey.stages.iter().map(|stage| &stage.url);
    let names = room(urls().map(|url| url.name.as_str()));
    let addresses = room(urls().map(|url| url.address.as_str()));
    let partners = urls().filter_map(|url| url.partner.as_deref());
    let partners: Vec<String> = partners.map(|name| format!("→ {name}")).collect();
    let partners = room(partners.iter().map(String::as_str));
    let places = Places::of(names.max(48.0), addresses.max(82.0), partners);
    Places {
        rows: journey.rows.len(),
        ..places
    }
}

fn right(journey: &Journey) -> f64 {
    LEFT + COLUMN * journey.stages.len() as f64
}

/// As wide as what stands behind the rows.
fn width(journey: &Journey) -> f64 {
    let letters = |row: &Row| behind(row).chars().count();
    let most = journey.rows.iter().map(letters).max().unwrap_or(0);
    let wide = right(journey) + 2.0 * ASIDE + LETTER * most as f64;
    tenths(wide.max(NARROWEST))
}

/// What stands behind a row.
fn behind(row: &Row) -> String {
    cut(outcome(row), OUTCOME)
}

fn columns(journey: &Journey, at: &Places) -> String {
    let stages = journey.stages.iter().enumerate();
    let drawn = stages.map(|(place, stage)| {
        let middle = LEFT + COLUMN * (place as f64 + 0.5);
        let body = column::head(&stage.url, COLUMN, at) + &cells(journey, place, stage, at);
        column::shifted(middle, &body)
    });
    placed("middle", 11, &drawn.collect::<String>())
}

fn cells(journey: &Journey, place: usize, stage: &Stage, at: &Places) -> String {
    let rows = journey.rows.iter().enumerate();
    let drawn = rows.map(|(number, row)| match row.taken {
        Some(taken) if taken == place => cross(at.row(number)),
        Some(taken) if taken < place => unreached(at.row(number)),
        _ => {
            let what = format!("{} takes {}", row.name, stage.url.name);
            column::filled(number, stage.asked, &what)
        }
    });
    drawn.collect::<String>() + "\n"
}

fn cross(middle: f64) -> String {
    let top = tenths(middle - 4.5);
    format!("<path d=\"M-4.5 {top}l9 9m0 -9l-9 9\" stroke=\"{INK}\" stroke-width=\"2.4\"/>\n")
}

fn unreached(middle: f64) -> String {
    let [across, down] = [COLUMN, ROW].map(|side| side - 2.0 * GAP);
    let back = rect(-across / 2.0, middle - down / 2.0, across, down);
    with(&format!("fill=\"{NO_URL}\""), &back)
}

fn grid(journey: &Journey, at: &Places) -> String {
    let [top, bottom, right] = [at.top, at.bottom(), right(journey)].map(tenths);
    let across = |row: usize| format!("M{LEFT} {}H{right}", tenths(top + ROW * row as f64));
    let down = |place: usize| format!("M{} {top}V{bottom}", LEFT + COLUMN * place as f64);
    let across: String = (0..=journey.rows.len()).map(across).collect();
    let down: String = (0..=journey.stages.len()).map(down).collect();
    let outer = format!("M{LEFT} {top}H{right}M{LEFT} {bottom}H{right}");
    lines(&(across + &down), "#dcdcdc") + &lines(&outer, "#777")
}

/// The connections before their rows, and what comes of the journey behind.
fn sides(journey: &Journey, at: &Places) -> String {
    let rows = || journey.rows.iter().enumerate();
    let before =
        rows().map(|(number, row)| label(LEFT - ASIDE, at.row(number), &row_name(&row.name)));
    let outcomes = rows().map(|(number, row)| {
        let outcome = label(right(journey) + ASIDE, at.row(number), &behind(row));
        match row.taken {
            Some(_) => outcome,
            None => with("font-weight=\"bold\"", &outcome),
        }
    });
    placed("end", 11, &before.collect::<String>())
        + &placed("start", 11, &outcomes.collect::<String>())
}

/// What all these are.
fn heads(journey: &Journey, at: &Places) -> String {
    let left = at.heads();
    let left = left.map(|(y, name)| label(LEFT - ASIDE, y, name));
    let left: String = left.collect();
    let bold = |x: f64, name: &str| with("font-weight=\"bold\"", &label(x, at.top - 9.0, name));
    let connection = bold(LEFT - ASIDE, "connection");
    let outcome = bold(right(journey) + ASIDE, "what comes of it");
    placed("end", 11, &(left + &connection)) + &placed("start", 11, &outcome)
}

fn legend(at: &Places) -> String {
    let [first, second, third] = [30.0, 50.0, 70.0].map(|below| at.bottom() + below);
    let sample = |x: f64, attributes: &str| with(attributes, &rect(x, first - 5.5, 22.0, 11.0));
    let shapes = [
        sample(LEFT, &format!("fill=\"{HTTPS}\"")),
        sample(LEFT + 132.0, &format!("rx=\"5.5\" fill=\"{HTTP}\"")),
        column::shifted(LEFT + 274.0, &cross(first)),
        sample(LEFT + 376.0, &format!("fill=\"{NO_URL}\" stroke=\"#ccc\"")),
        column::entry(LEFT + 512.0, first),
    ];
    let labels = [
        (LEFT + 28.0, first, "taken, by https"),
        (LEFT + 160.0, first, "taken, by http"),
        (LEFT + 286.0, first, "stops here"),
        (LEFT + 404.0, first, "not reached"),
        (LEFT + 524.0, first, "an entry"),
        (LEFT, second, "→"),
        (LEFT + 28.0, second, REPLACED),
        (LEFT, third, TAKEN),
    ];
    let labels = labels.map(|(x, y, text)| label(x, y, text)).concat();
    shapes.concat() + &placed("start", 12, &labels)
}

#[cfg(test)]
mod tests {
    use super::*;
    use crate::examples::{assert_well_formed, open, read, CANTEEN};
    use crate::words::Words;

    fn picture_of(text: &str, urls: &[u32]) -> String {
        let (policy, plan) = read(text);
        let words = Words::new(&policy, &plan, text.as_bytes());
        draw(&Journey::of(&words, urls).unwrap())
    }

    #[test]
    fn each_connection_has_its_cells() {
        let picture = picture_of(CANTEEN, &[0, 1, 2]);
        // Two carry it, three take the first URL alone.
        assert_eq!(picture.matches("<use ").count(), 2 * 3 + 3);
        // Five stop, and the legend has a cross.
        assert_eq!(picture.matches("stroke-width=\"2.4\"").count(), 5 + 1);
        assert_eq!(picture.matches(">carries it</text>").count(), 2);
        assert!(picture.contains(">connection payment carries this journey</text>"));
        assert!(picture
            .contains(">http bank is missing among the readers of connection canteen-only</text>"));
    }

    #[test]
    fn a_partner_is_drawn_as_what_is_asked_for() {
        let picture = picture_of(CANTEEN, &[3]);
        assert!(picture.contains(">→ top-up</text>"));
        assert!(picture.contains("<use href=\"#s\""));
        assert!(!picture.contains("<use href=\"#o\""));
    }

    #[test]
    fn a_picture_is_well_formed() {
        let all: [u32; 16] = std::array::from_fn(|url| url as u32);
        for urls in [&all[..1], &all] {
            assert_well_formed(&picture_of(&open(), urls));
        }
        assert_well_formed(&picture_of(CANTEEN, &[3, 5, 0]));
        let only = "host a\nurl a at http a\nreaders everyone\nwriters nobody";
        assert_well_formed(&picture_of(only, &[0]));
    }
}
