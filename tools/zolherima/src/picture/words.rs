//! What the picture of reach says in words: the line below its title, the description that is read out, and what a URL is.

use zolherima::{CONNECTIONS, URLS};

use crate::reach::{Reach, Url};

pub fn summary(reach: &Reach) -> String {
    let urls = reach.rows().count();
    let (all, cells) = (reach.counts.all, urls * CONNECTIONS);
    format!(
        "{CONNECTIONS} connections, {urls} URLs in {URLS} rows; {all} of {cells} cells are filled."
    )
}

/// The whole table, connection by connection.
pub fn description(reach: &Reach) -> String {
    let mut text = summary(reach);
    for (connection, name) in reach.named() {
        let reached = reach
            .rows()
            .filter(|&(url, _)| reach.reaches(connection, url));
        let names: Vec<&str> = reached.map(|(_, url)| url.name.as_str()).collect();
        if !names.is_empty() {
            text += &format!(" Connection {name} reaches {}.", names.join(", "));
        }
    }
    text + " Those that are not named reach none."
}

pub fn of_url(number: usize, url: &Url) -> String {
    let Url { name, address, .. } = url;
    let entry = if url.is_entry { ", an entry" } else { "" };
    let partner = url.partner.as_ref();
    let partner = partner.map(|partner| format!(", {partner} is asked for in its place"));
    let partner = partner.unwrap_or_default();
    format!("URL {number}, {name}: {address}{entry}{partner}")
}

pub fn range(first: usize, last: usize) -> String {
    match first == last {
        true => first.to_string(),
        false => format!("{first}–{last}"),
    }
}

#[cfg(test)]
mod tests {
    use super::*;
    use crate::examples::{listed_post, read};

    fn reach_of(text: &str) -> Reach {
        let (policy, plan) = read(text);
        Reach::of(&policy, &plan).unwrap()
    }

    #[test]
    fn the_table_is_told_in_words() {
        let post = description(&reach_of(&listed_post()));
        assert!(post.starts_with("32 connections, 4 URLs in 64 rows; 6 of 128 cells are filled."));
        assert!(post.ends_with(
            " Connection any reaches window, pay. Connection quiet reaches home. Connection wire reaches home, door. \
             Those that are not named reach none."
        ));
        assert!(!description(&reach_of("")).contains(" Connection "));
    }

    #[test]
    fn a_url_is_told_in_words() {
        let reach = reach_of(&listed_post());
        let said = |number: usize| of_url(number, reach.urls[number].as_ref().unwrap());
        assert_eq!(said(0), "URL 0, home: https post");
        assert_eq!(
            said(3),
            "URL 3, door: http post, an entry, home is asked for in its place"
        );
    }
}
