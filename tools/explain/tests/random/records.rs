//! Records that are mostly awaited.

use crate::draw::Draw;
use crate::policies::{CONNECTIONS, KEYS, URLS};
use crate::scripts::{nearly, SCRIPTS};
use zolherima::{Cookies, Pending, PendingKind, RecordKind, Said, State};

pub fn record(draw: &mut Draw, state: &State) -> Vec<u8> {
    let mut record = said(draw, state).record().to_vec();
    if draw.one_in(16) {
        damage(draw, &mut record);
    }
    record
}

fn said(draw: &mut Draw, state: &State) -> Said {
    let connection = nearly(draw, &CONNECTIONS);
    match state.pending(connection.into()) {
        Some(pending) if !draw.one_in(8) => awaited(draw, connection, pending),
        _ => anything(draw, connection),
    }
}

/// A response to what is pending, or a redirect.
fn awaited(draw: &mut Draw, connection: u8, pending: Pending) -> Said {
    let kind = if draw.one_in(3) {
        redirect(draw)
    } else {
        match pending.kind {
            PendingKind::Document => document(draw),
            PendingKind::Script { .. } => value(draw),
            PendingKind::Picture => RecordKind::PictureResponse,
        }
    };
    Said {
        kind,
        url: pending.url,
        connection,
        cookies: cookies(draw),
    }
}

/// Mostly a load; else what a free connection, or one that holds something else, does not await.
fn anything(draw: &mut Draw, connection: u8) -> Said {
    let kind = match draw.below(20) {
        0 => redirect(draw),
        1 => document(draw),
        2 => value(draw),
        3 => RecordKind::PictureResponse,
        _ => RecordKind::Load,
    };
    Said {
        kind,
        url: nearly(draw, &URLS),
        connection,
        cookies: cookies(draw),
    }
}

fn redirect(draw: &mut Draw) -> RecordKind {
    let target = nearly(draw, &URLS);
    RecordKind::Redirect { target }
}

fn document(draw: &mut Draw) -> RecordKind {
    let script = nearly(draw, &SCRIPTS);
    RecordKind::DocumentResponse { script }
}

fn value(draw: &mut Draw) -> RecordKind {
    let value = if draw.one_in(3) { 0 } else { draw.word() };
    RecordKind::ScriptResponse { value }
}

fn cookies(draw: &mut Draw) -> Cookies {
    let mut cookies = Cookies::NONE;
    for key in KEYS {
        if draw.one_in(3) {
            cookies = cookies.with(key.into(), draw.word()).unwrap();
        }
    }
    cookies
}

/// A byte less, a byte more, or another byte in a place: also in those of map and key map.
fn damage(draw: &mut Draw, record: &mut Vec<u8>) {
    match draw.below(5) {
        0 => record.truncate(draw.below(record.len())),
        1 => record.push(draw.byte()),
        2 => record
            .iter_mut()
            .skip(3)
            .take(1)
            .for_each(|key_map| *key_map = 0),
        _ => {
            let place = draw.below(record.len());
            record[place] = draw.byte();
        }
    }
}
