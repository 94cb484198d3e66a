//! Places, lengths and colours of the pictures.

use zolherima::CONNECTIONS;

use crate::table::cut;

pub const WIDTH: f64 = 960.0;
/// The sides of a table, and how high a row is.
pub const LEFT: f64 = 156.0;
pub const RIGHT: f64 = 892.0;
pub const ROW: f64 = 14.0;
/// Between the filling of a cell and its sides.
pub const GAP: f64 = 1.5;
/// Names and numbers end so far from the table, or begin.
pub const ASIDE: f64 = 8.0;
/// Below the title and the line under it.
pub const HEADS: f64 = 62.0;

/// The most letters of a name that is read from below, and of one before its row.
const UPRIGHT: usize = 18;
const BEFORE: usize = 19;
/// No letter on average is wider, at the size of names.
pub const LETTER: f64 = 7.0;

/// Blue and vermilion are told apart with any eyes; besides, what is by http is round.
pub const HTTPS: &str = "#0072b2";
pub const HTTP: &str = "#d55e00";
/// On white, and close to that of http.
pub const HTTP_INK: &str = "#8f3f00";
pub const COOKIES: &str = "#e69f00";
pub const INK: &str = "#222";
pub const FAINT: &str = "#767676";
pub const NO_URL: &str = "#f2f2f2";

/// A name as it is read from below.
pub fn upright_name(name: &str) -> String {
    cut(name, UPRIGHT)
}

/// A name as it stands before its row.
pub fn row_name(name: &str) -> String {
    cut(name, BEFORE)
}

/// How long a text of these is at most.
pub fn room<'a>(names: impl Iterator<Item = &'a str>) -> f64 {
    let letters = names.map(|name| upright_name(name).chars().count());
    LETTER * letters.max().unwrap_or(0) as f64 + 8.0
}

/// The heights at which the heads of columns stand, from above: names, addresses, entries and partners; and below them the rows.
pub struct Places {
    /// Where names begin, which are read from below.
    pub names: f64,
    pub addresses: f64,
    pub address_height: f64,
    pub entries: f64,
    /// Where partners begin.
    pub partners: f64,
    pub top: f64,
    pub rows: usize,
}

impl Places {
    /// What stands above the rows, and where. Partners have no room where there are none.
    pub fn heads(&self) -> impl Iterator<Item = (f64, &'static str)> {
        let partners = ((self.entries + self.partners) / 2.0, "asked for instead");
        let has_partners = self.partners - self.entries > 2.0 * ROW;
        let all = [
            Some(((HEADS + self.names) / 2.0, "URL")),
            Some((self.addresses + self.address_height / 2.0, "address")),
            Some((self.entries, "entry")),
            has_partners.then_some(partners),
        ];
        all.into_iter().flatten()
    }

    /// By how long names, addresses and partners are.
    pub fn of(names: f64, addresses: f64, partners: f64) -> Places {
        let names = HEADS + names;
        let address_top = names + 4.0;
        let entries = address_top + addresses + 10.0;
        let partners = entries + 8.0 + partners;
        Places {
            names,
            addresses: address_top,
            address_height: addresses,
            entries,
            partners,
            top: partners + 20.0,
            rows: CONNECTIONS,
        }
    }

    pub fn bottom(&self) -> f64 {
        self.top + ROW * self.rows as f64
    }

    /// The middle of a row.
    pub fn row(&self, row: usize) -> f64 {
        self.top + ROW * (row as f64 + 0.5)
    }

    /// The middle of what stands right below the rows.
    pub fn foot(&self) -> f64 {
        self.bottom() + 12.0
    }
}
