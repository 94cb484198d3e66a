//! What `run` prints, read back.

use std::fmt::Write;

use zolherima::{Cookies, Pending, PendingKind, Request, RequestKind};

use crate::read::{between, number, set, valued};

/// All that is told of a session.
pub struct Told {
    pub blocks: Vec<Block>,
    accepted: u32,
    refused: u32,
}

/// What is told of a record.
#[derive(Default)]
pub struct Block {
    /// 0 where it was accepted.
    pub number: u32,
    /// The lowest endpoint that is missing.
    missing: Option<u32>,
    pub sent: Vec<Request>,
    /// Host, key, value, and the value before where one is told.
    stored: Vec<(u32, u32, u32, Option<u32>)>,
    pub script_ended: bool,
    /// Where a script came to its end: how many steps it took.
    pub steps: Option<u32>,
    pub traced_steps: u32,
    /// The state after the record.
    pub cookies: Vec<(u32, u32, u32)>,
    pub pending: Vec<(u32, Pending)>,
}

impl Told {
    pub fn of(text: &str) -> Result<Told, String> {
        let mut lines: Vec<&str> = text.lines().collect();
        let last = lines.pop().ok_or("run prints nothing")?;
        let mut blocks: Vec<Block> = Vec::new();
        for line in lines {
            if !line.starts_with(' ') {
                let place = line.split(' ').next().unwrap_or_default();
                if place != (blocks.len() + 1).to_string() {
                    return Err(format!("out of order: {line:?}"));
                }
                blocks.push(Block::default());
                continue;
            }
            let block = blocks.last_mut().ok_or("a line before the first record")?;
            // What stands deeper says why.
            if let Some(line) = line.strip_prefix("    ").filter(|it| !it.starts_with(' ')) {
                block
                    .line(line)
                    .map_err(|why| format!("{why}, in {line:?}"))?;
            }
        }
        let (accepted, refused) = totals(last)?;
        Ok(Told {
            blocks,
            accepted,
            refused,
        })
    }

    /// What walk prints of the same records.
    pub fn walked(&self) -> Result<String, String> {
        let mut text = String::new();
        for (nth, block) in self.blocks.iter().enumerate() {
            let bytes: usize = block.sent.iter().map(|request| request.write().1).sum();
            let steps = block.traced_steps;
            let missing = block.missing.unwrap_or(32);
            let _ = writeln!(
                text,
                "{} {} {bytes} {steps} {missing}",
                nth + 1,
                block.number
            );
            block
                .sent
                .iter()
                .for_each(|request| put_request(&mut text, request));
        }
        let _ = writeln!(text, "end {} {}", self.accepted, self.refused);
        Ok(text)
    }
}

/// A request as walk tells it.
pub fn put_request(text: &mut String, request: &Request) {
    let keys = request.cookies.key_map();
    let _ = writeln!(text, "> {} {} {keys:02x}", request.url, request.connection);
}

/// How many records were accepted, and how many refused.
fn totals(last: &str) -> Result<(u32, u32), String> {
    if last.ends_with(" has no session: nothing is fed") {
        return Ok((0, 0));
    }
    let accepted = last.split(" accepted, ").next().unwrap_or_default();
    let refused = between(last, ", ", " refused")?;
    Ok((number(accepted)?, number(refused)?))
}

/// The steps of a script that came to its end, which counts for one.
fn steps(rest: &str) -> Result<u32, String> {
    let told = rest.split_once(" ended: ").map_or("", |(_, told)| told);
    if told == "it has no step" {
        return Ok(1);
    }
    let steps = number(told.split(' ').next().unwrap_or_default())?;
    Ok(steps + u32::from(told.ends_with(" and its end")))
}

impl Block {
    fn line(&mut self, line: &str) -> Result<(), String> {
        let (word, rest) = line.split_once(' ').unwrap_or((line, ""));
        match word {
            "refused" => self.refused(rest)?,
            "sent:" => self.sent.push(sent(rest)?),
            "stored:" => self.stored.push(stored(rest)?),
            "script" if rest.contains(" ended: ") => {
                self.script_ended = true;
                self.steps = Some(steps(rest)?);
            }
            "script" if rest.contains(" stopped at step ") => self.script_ended = true,
            "step" => self.traced_steps += 1,
            "after" => self.after(rest.strip_prefix("it: ").unwrap_or(rest))?,
            _ => {}
        }
        Ok(())
    }

    /// The state after a record.
    fn after(&mut self, rest: &str) -> Result<(), String> {
        match rest.contains(" awaits ") {
            true => self.pending.push(pending(rest)?),
            false => self.cookies.push(valued(rest)?),
        }
        Ok(())
    }

    fn refused(&mut self, rest: &str) -> Result<(), String> {
        let (refusal, why) = rest.split_once(": ").ok_or("no reason is told")?;
        self.number = number(refusal)?;
        let parts = why.split_once(" is missing among ");
        if let Some((missing, _)) = parts.or(why.split_once(" are missing among ")) {
            let lowest = set(missing)?.lowest().ok_or("nothing is missing")?;
            self.missing = Some(lowest.number());
        }
        Ok(())
    }

    /// The cookies after the record, by those before it.
    pub fn stored_over(
        &self,
        mut cookies: Vec<(u32, u32, u32)>,
    ) -> Result<Vec<(u32, u32, u32)>, String> {
        for &(host, key, value, before) in &self.stored {
            let place = cookies.iter().position(|it| (it.0, it.1) == (host, key));
            let was = place.map(|place| cookies.swap_remove(place).2);
            if before.is_some() && before != was {
                return Err(format!(
                    "a cookie was {was:?}, and is told to have been {before:?}"
                ));
            }
            cookies.push((host, key, value));
        }
        cookies.sort_unstable();
        Ok(cookies)
    }
}

/// `cookie0 of host3 = 7, which was 5`.
fn stored(text: &str) -> Result<(u32, u32, u32, Option<u32>), String> {
    let (cookie, before) = match text.split_once(", which was ") {
        Some((cookie, before)) => (cookie, Some(number(before)?)),
        None => (text, None),
    };
    let (host, key, value) = valued(cookie)?;
    Ok((host, key, value, before))
}

fn byte(name: &str) -> Result<u8, String> {
    u8::try_from(number(name)?).map_err(|_| format!("no byte: {name}"))
}

/// `script request to url2 on connection1, then script3, with cookie0 of host1 = 7`.
fn sent(text: &str) -> Result<Request, String> {
    let (head, carried) = match text.strip_suffix(", without cookies") {
        Some(head) => (head, None),
        None => {
            let parts = text.split_once(", with ").ok_or("no cookies are told")?;
            (parts.0, Some(parts.1))
        }
    };
    let (kind, rest) = head.split_once(" request to ").ok_or("no request")?;
    let (url, rest) = rest.split_once(" on ").ok_or("no connection")?;
    let (connection, then) = match rest.split_once(", then ") {
        Some((connection, handler)) => (connection, Some(byte(handler)?)),
        None => (rest, None),
    };
    Ok(Request {
        kind: match (kind, then) {
            ("document", None) => RequestKind::Document,
            ("picture", None) => RequestKind::Picture,
            ("script", Some(handler)) => RequestKind::Script { handler },
            _ => return Err("no kind of request".to_string()),
        },
        url: byte(url)?,
        connection: byte(connection)?,
        cookies: cookies(carried)?,
    })
}

fn cookies(carried: Option<&str>) -> Result<Cookies, String> {
    let mut each = carried.into_iter().flat_map(|text| text.split(", "));
    each.try_fold(Cookies::NONE, |cookies, text| {
        let (_, key, value) = valued(text)?;
        cookies.with(key, value).ok_or("no key".to_string())
    })
}

/// `connection1 awaits the response of url2 to url0, for script script3`.
fn pending(text: &str) -> Result<(u32, Pending), String> {
    let (connection, what) = text.split_once(" awaits ").ok_or("nothing is awaited")?;
    let (kind, url) = match what.strip_prefix("the response of ") {
        Some(rest) => {
            let (url, rest) = rest.split_once(" to ").ok_or("no page")?;
            let (origin, handler) = rest.split_once(", for script ").ok_or("no handler")?;
            let [origin, handler] = [byte(origin)?, byte(handler)?];
            (PendingKind::Script { origin, handler }, url)
        }
        None => match what.strip_prefix("the picture ") {
            Some(url) => (PendingKind::Picture, url),
            None => (PendingKind::Document, what),
        },
    };
    let url = byte(url)?;
    Ok((number(connection)?, Pending { kind, url }))
}
