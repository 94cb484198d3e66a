//! Where the columns stand: all 64 in order, those without a URL narrow.

use zolherima::URLS;

/// The widest column of a URL, and the narrowest of an empty row.
const WIDEST: f64 = 34.0;
const NARROWEST: f64 = 5.0;

pub struct Columns {
    /// Where each begins, and where the last one ends.
    edges: [f64; URLS + 1],
    /// How wide the column of a URL is.
    pub width: f64,
}

impl Columns {
    /// Fills the room between two edges, whichever rows are URLs.
    pub fn of(is_url: [bool; URLS], left: f64, right: f64) -> Columns {
        let used = is_url.iter().filter(|&&is_url| is_url).count() as f64;
        let empty = URLS as f64 - used;
        let width = ((right - left - NARROWEST * empty) / used.max(1.0)).min(WIDEST);
        let narrow = (right - left - width * used) / empty.max(1.0);
        let mut edges = [left; URLS + 1];
        for url in 0..URLS {
            edges[url + 1] = edges[url] + if is_url[url] { width } else { narrow };
        }
        Columns { edges, width }
    }

    pub fn left(&self, url: usize) -> f64 {
        self.edges[url]
    }

    pub fn right(&self, url: usize) -> f64 {
        self.edges[url + 1]
    }

    pub fn middle(&self, url: usize) -> f64 {
        (self.left(url) + self.right(url)) / 2.0
    }
}

#[cfg(test)]
mod tests {
    use super::*;

    #[test]
    fn all_columns_are_there_in_order_and_fill_the_room() {
        for used in 0..=URLS {
            let columns = Columns::of(std::array::from_fn(|url| url < used), 100.0, 860.0);
            assert_eq!(columns.left(0), 100.0);
            assert!((columns.right(URLS - 1) - 860.0).abs() < 1e-6, "{used}");
            for url in 0..URLS {
                let width = columns.right(url) - columns.left(url);
                assert!(width > NARROWEST - 1e-6 && width < WIDEST + 1e-6, "{used}");
            }
        }
    }
}
