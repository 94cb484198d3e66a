//! The two charts, as SVG: a pair of bars for each workload, and a panel for each way that cost grows.

use std::fmt::Write;

use crate::growth::Growth;
use crate::report::Row;
use crate::timing::Times;

const PROVED: &str = "#1b5e9b";
const BY_HAND: &str = "#b9c4cc";
const INK: &str = "#222";

const BAR: f64 = 11.0;
const STEP: f64 = 34.0;
const LEFT: f64 = 320.0;
const WIDTH: f64 = 760.0;

pub fn bars(rows: &[Row]) -> String {
    let most = rows
        .iter()
        .map(|row| longest(row.times))
        .fold(1.0, f64::max);
    let scale = (WIDTH - LEFT - 60.0) / most;
    let mut body = legend(LEFT, 14.0);
    for (index, row) in rows.iter().enumerate() {
        let y = 34.0 + STEP * index as f64;
        body += &label(LEFT - 8.0, y + BAR + 4.0, "end", row.name);
        body += &bar(y, row.times.proved * scale, PROVED, row.times.proved);
        body += &bar(
            y + BAR + 1.0,
            row.times.by_hand * scale,
            BY_HAND,
            row.times.by_hand,
        );
    }
    document(WIDTH, 40.0 + STEP * rows.len() as f64, &body)
}

fn bar(y: f64, length: f64, colour: &str, value: f64) -> String {
    let rect = format!("<rect x=\"{LEFT}\" y=\"{y:.1}\" width=\"{length:.1}\" height=\"{BAR}\" fill=\"{colour}\"/>\n");
    rect + &label(
        LEFT + length + 5.0,
        y + BAR - 2.0,
        "start",
        &format!("{value:.0} ns"),
    )
}

const PANEL: f64 = 190.0;
const HEIGHT: f64 = 150.0;

pub fn lines(panels: &[Growth]) -> String {
    let most = panels
        .iter()
        .flat_map(|panel| &panel.points)
        .map(|(_, times)| longest(*times))
        .fold(1.0, f64::max);
    let mut body = legend(40.0, 14.0);
    for (index, panel) in panels.iter().enumerate() {
        body += &one_panel(40.0 + PANEL * index as f64, panel, most);
    }
    document(40.0 + PANEL * panels.len() as f64, HEIGHT + 75.0, &body)
}

fn one_panel(left: f64, panel: &Growth, most: f64) -> String {
    let (first, last) = (
        panel.points[0].0 as f64,
        panel.points[panel.points.len() - 1].0 as f64,
    );
    let bottom = HEIGHT + 30.0;
    let place = |at: usize, time: f64| {
        let x = left + (PANEL - 50.0) * (at as f64 - first) / (last - first);
        format!("{x:.1},{:.1} ", bottom - HEIGHT * time / most)
    };
    let line = |colour: &str, time: &dyn Fn(Times) -> f64| {
        let points: String = panel
            .points
            .iter()
            .map(|&(at, times)| place(at, time(times)))
            .collect();
        format!("<polyline points=\"{points}\" fill=\"none\" stroke=\"{colour}\" stroke-width=\"2\"/>\n")
    };
    let right = left + PANEL - 50.0;
    let mut text =
        format!("<path d=\"M{left} 30V{bottom}H{right}\" fill=\"none\" stroke=\"{INK}\"/>\n");
    text += &line(BY_HAND, &|times| times.by_hand);
    text += &line(PROVED, &|times| times.proved);
    text += &label(left, bottom + 14.0, "middle", &format!("{first:.0}"));
    text += &label(right, bottom + 14.0, "middle", &format!("{last:.0}"));
    text += &label(
        left + (PANEL - 50.0) / 2.0,
        bottom + 30.0,
        "middle",
        panel.by,
    );
    text + &label(left - 4.0, 38.0, "end", &format!("{most:.0}"))
}

fn longest(times: Times) -> f64 {
    times.proved.max(times.by_hand)
}

fn legend(x: f64, y: f64) -> String {
    let mut text = String::new();
    for (at, colour, name) in [
        (0.0, PROVED, "feed, proved"),
        (130.0, BY_HAND, "feed_fast, tuned by hand"),
    ] {
        let _ = writeln!(
            text,
            "<rect x=\"{}\" y=\"{}\" width=\"10\" height=\"10\" fill=\"{colour}\"/>",
            x + at,
            y - 9.0
        );
        text += &label(x + at + 14.0, y, "start", name);
    }
    text
}

fn label(x: f64, y: f64, anchor: &str, text: &str) -> String {
    let text = text.replace('&', "&amp;").replace('<', "&lt;");
    format!("<text x=\"{x:.1}\" y=\"{y:.1}\" text-anchor=\"{anchor}\">{text}</text>\n")
}

fn document(width: f64, height: f64, body: &str) -> String {
    format!(
        "<svg xmlns=\"http://www.w3.org/2000/svg\" width=\"{width:.0}\" height=\"{height:.0}\" font-family=\"sans-serif\" font-size=\"11\" fill=\"{INK}\">\n\
         <rect width=\"100%\" height=\"100%\" fill=\"white\"/>\n{body}</svg>\n"
    )
}
