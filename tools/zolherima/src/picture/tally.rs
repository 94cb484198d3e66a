//! The picture of a tally: for each URL a bar for its requests and one for the cookies that they carry.

use crate::picture::reach::{heading, lines, placed};
use crate::picture::style::{row_name, ASIDE, COOKIES, GAP, HEADS, HTTPS, LEFT, RIGHT, WIDTH};
use crate::picture::svg::{document, label, rect, tenths, title, with};
use crate::tally::{Row, Usage};

const TITLE: &str = "Tally: requests and cookies by URL";
/// How high a URL's two bars are together with what is between URLs, and how high one bar is.
const PAIR: f64 = 32.0;
const BAR: f64 = 12.0;
/// Room for the number behind the longest bar.
const NUMBER: f64 = 60.0;

pub fn draw(usage: &Usage) -> String {
    let rows = usage.rows.iter().enumerate();
    let bars: String = rows.map(|(place, row)| pair(usage, place, row)).collect();
    let body = [
        heading(TITLE, &usage.all()),
        axis(usage),
        placed("start", 11, &bars),
        names(usage),
        legend(usage),
    ];
    let height = bottom(usage) + 52.0;
    document(WIDTH, height, [TITLE, &description(usage)], &body.concat())
}

fn description(usage: &Usage) -> String {
    let rows = usage.rows.iter();
    let said = rows.map(|row| format!(" {}", words(row)));
    format!("{}.{}", usage.all(), said.collect::<String>())
}

fn words(row: &Row) -> String {
    let Row {
        name,
        requests,
        cookies,
    } = row;
    format!("{name}: requests {requests}, cookies {cookies}.")
}

fn top(place: usize) -> f64 {
    HEADS + ASIDE + PAIR * place as f64
}

fn bottom(usage: &Usage) -> f64 {
    top(usage.rows.len())
}

/// Requests above cookies, on one scale.
fn pair(usage: &Usage, place: usize, row: &Row) -> String {
    let top = top(place);
    let requests = bar(usage, top, row.requests, HTTPS);
    let cookies = bar(usage, top + BAR + GAP, row.cookies, COOKIES);
    format!("<g>\n{}{requests}{cookies}</g>\n", title(&words(row)))
}

fn bar(usage: &Usage, top: f64, count: u32, colour: &str) -> String {
    let most = usage.rows.iter().map(|row| row.requests.max(row.cookies));
    let most = most.max().unwrap_or(0).max(1);
    let width = (RIGHT - NUMBER - LEFT) * f64::from(count) / f64::from(most);
    let drawn = with(&format!("fill=\"{colour}\""), &rect(LEFT, top, width, BAR));
    drawn + &label(LEFT + width + ASIDE, top + BAR / 2.0, &count.to_string())
}

fn names(usage: &Usage) -> String {
    let rows = usage.rows.iter().enumerate();
    let name = |(place, row): (usize, &Row)| {
        label(
            LEFT - ASIDE,
            top(place) + BAR + GAP / 2.0,
            &row_name(&row.name),
        )
    };
    placed("end", 11, &rows.map(name).collect::<String>())
}

fn axis(usage: &Usage) -> String {
    let [top, bottom] = [HEADS, bottom(usage)].map(tenths);
    lines(&format!("M{LEFT} {top}V{bottom}"), "#777")
}

fn legend(usage: &Usage) -> String {
    let middle = bottom(usage) + 24.0;
    let sample = |x: f64, colour: &str| {
        with(
            &format!("fill=\"{colour}\""),
            &rect(x, middle - 5.5, 22.0, 11.0),
        )
    };
    let labels = [
        (LEFT + 28.0, "requests"),
        (LEFT + 148.0, "cookies that they carry"),
    ];
    let labels = labels.map(|(x, text)| label(x, middle, text)).concat();
    sample(LEFT, HTTPS) + &sample(LEFT + 120.0, COOKIES) + &placed("start", 12, &labels)
}

#[cfg(test)]
mod tests {
    use super::*;
    use crate::examples::{assert_well_formed, open, read, CANTEEN};

    fn picture_of(text: &str, list: &[u8]) -> String {
        let (_, plan) = read(text);
        draw(&Usage::of(&plan, list).unwrap())
    }

    #[test]
    fn bars_are_in_proportion() {
        let list = [[0x03, 0, 0].repeat(4), vec![0x07, 5, 0, 1, 0, 0, 0, 9]].concat();
        let picture = picture_of(CANTEEN, &list);
        let widest = RIGHT - NUMBER - LEFT;
        for width in [widest, widest / 4.0] {
            assert!(picture.contains(&format!("width=\"{width}\" height=\"{BAR}\"")));
        }
        assert!(picture.contains("<title>accounts: requests 1, cookies 1.</title>"));
        assert!(picture.contains(">all: requests 5, cookies 1</text>"));
    }

    #[test]
    fn a_picture_is_well_formed() {
        let all: Vec<u8> = (0..64).flat_map(|url| [0x03, url, 0]).collect();
        for list in [&[][..], &all] {
            assert_well_formed(&picture_of(CANTEEN, list));
            assert_well_formed(&picture_of(&open(), list));
        }
    }
}
