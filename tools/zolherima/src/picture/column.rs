//! The column of a URL: its name, address, whether it is an entry, its partner, a filled cell for each connection that reaches it, and how many do;
//! and the columns without a URL.

use zolherima::{Endpoint, Scheme, CONNECTIONS};

use crate::picture::columns::Columns;
use crate::picture::style::{
    upright_name, Places, FAINT, GAP, HEADS, HTTP, HTTPS, HTTP_INK, INK, NO_URL, ROW,
};
use crate::picture::svg::{group, label, rect, tenths, title, upright, with};
use crate::picture::words;
use crate::reach::{Reach, Url};

/// A narrower column has no room for letters of the common size, nor for two digits side by side.
const NARROW: f64 = 16.0;

/// The two fillings of a cell of the first row, around the middle of its column: square, and round. There may be many, so their names are short.
pub fn shapes(width: f64, top: f64) -> String {
    let [across, down] = [width - 2.0 * GAP, ROW - 2.0 * GAP];
    let shape = rect(-across / 2.0, top + GAP, across, down);
    let radius = tenths(across.min(down) / 2.0);
    let square = with(&format!("id=\"s\" fill=\"{HTTPS}\""), &shape);
    let round = with(&format!("id=\"o\" rx=\"{radius}\" fill=\"{HTTP}\""), &shape);
    format!("<defs>\n{square}{round}</defs>\n")
}

/// The name of the shape that stands for a scheme.
pub fn shape(endpoint: Endpoint) -> &'static str {
    match endpoint.scheme() {
        Scheme::Https => "s",
        Scheme::Http => "o",
    }
}

/// All that it has stands around its middle.
pub fn of_url(number: usize, url: &Url, reach: &Reach, columns: &Columns, at: &Places) -> String {
    let count = reach.connections_of(number);
    let body = [
        title(&words::of_url(number, url)),
        head(url, columns.width, at),
        cells(number, url, reach),
        shaded(count, &digits(at.foot(), columns.width, count)),
    ];
    shifted(columns.middle(number), &body.concat())
}

/// A column whose middle is here.
pub fn shifted(middle: f64, body: &str) -> String {
    let middle = tenths(middle);
    group(&format!("transform=\"translate({middle} 0)\""), body)
}

/// What stands above the cells.
pub fn head(url: &Url, width: f64, at: &Places) -> String {
    let size = if width < NARROW { 9 } else { 11 };
    let write = |y: f64, name: &str| upright(0.0, y, &upright_name(name));
    let name = with("font-weight=\"bold\"", &write(at.names, &url.name));
    let partner = url.partner.as_ref();
    let partner = partner.map(|partner| write(at.partners, &format!("→ {partner}")));
    let names = name + &partner.unwrap_or_default();
    let start = format!("text-anchor=\"start\" font-size=\"{size}\"");
    let entry = url.is_entry.then(|| entry(0.0, at.entries));
    group(&start, &names) + &address(width, size, url, at) + &entry.unwrap_or_default()
}

/// Read from below where the column is narrow.
fn digits(y: f64, width: f64, number: usize) -> String {
    let write = if width < NARROW { upright } else { label };
    write(0.0, y, &number.to_string())
}

/// Full and square for https, hollow and round for http.
fn address(width: f64, size: u32, url: &Url, at: &Places) -> String {
    let (ink, shape) = match url.endpoint.scheme() {
        Scheme::Https => ("#fff", format!("fill=\"{HTTPS}\"")),
        Scheme::Http => (
            HTTP_INK,
            format!("rx=\"5\" fill=\"#fff\" stroke=\"{HTTP}\""),
        ),
    };
    let across = width.min(20.0) - 2.0;
    let height = at.address_height;
    let back = rect(-across / 2.0, at.addresses, across, height);
    let text = upright(
        0.0,
        at.addresses + height / 2.0,
        &upright_name(&url.address),
    );
    let attributes = format!("font-size=\"{size}\" fill=\"{ink}\"");
    with(&shape, &back) + &with(&attributes, &text)
}

/// A triangle, at whose middle this is.
pub fn entry(x: f64, y: f64) -> String {
    let [left, base] = [x - 4.5, y + 4.0].map(tenths);
    format!("<path d=\"M{left} {base}h9l-4.5 -8z\" fill=\"{INK}\"/>\n")
}

/// Each can be pointed at, and says what it is.
fn cells(number: usize, url: &Url, reach: &Reach) -> String {
    let reaching = (0..CONNECTIONS).filter(|&connection| reach.reaches(connection, number));
    let cell = |connection: usize| {
        let name = reach.connections[connection].as_deref().unwrap_or_default();
        filled(
            connection,
            url.endpoint,
            &format!("{name} fits {}", url.name),
        )
    };
    reaching.map(cell).collect::<String>() + "\n"
}

/// The cell of a row that is filled, which says what it is.
pub fn filled(row: usize, endpoint: Endpoint, what: &str) -> String {
    let y = tenths(ROW * row as f64);
    let shape = shape(endpoint);
    let what = title(what);
    format!("<use href=\"#{shape}\" y=\"{y}\">{}</use>", what.trim_end())
}

/// Faint where nothing is counted.
pub fn shaded(count: usize, number: &str) -> String {
    match count {
        0 => with(&format!("fill=\"{FAINT}\""), number),
        _ => number.to_string(),
    }
}

/// Columns without a URL, from one to another: grey, with their numbers.
pub fn empty(first: usize, last: usize, columns: &Columns, at: &Places) -> String {
    let [left, right] = [columns.left(first), columns.right(last)];
    let middle = (left + right) / 2.0;
    let back = rect(left, at.addresses, right - left, at.bottom() - at.addresses);
    let numbers = words::range(first, last);
    let head = (at.addresses + at.top) / 2.0;
    let text = match right - left > 70.0 {
        true => label(middle, at.names - 8.0, &numbers) + &label(middle, head, "no URL"),
        false => with(
            "font-size=\"8\"",
            &upright(middle, (HEADS + at.top) / 2.0, &numbers),
        ),
    };
    with(&format!("fill=\"{NO_URL}\""), &back) + &group(&format!("fill=\"{FAINT}\""), &text)
}
