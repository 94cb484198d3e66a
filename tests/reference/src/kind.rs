//! Kinds of connections, and what belongs to each.

use crate::layout::*;

/// What an open connection waits for.
#[derive(Debug, Clone, Copy, PartialEq, Eq)]
pub enum ConnectionKind {
    Document,
    Script,
    Picture,
}

/// What belongs to a kind. The maps are those without cookies.
struct Properties {
    /// The number in a connection's word.
    number: u32,
    /// The map of the request.
    request: u8,
    /// The map of the response that is awaited.
    response: u8,
}

impl ConnectionKind {
    const ALL: [ConnectionKind; 3] = [
        ConnectionKind::Document,
        ConnectionKind::Script,
        ConnectionKind::Picture,
    ];

    fn properties(self) -> Properties {
        let (number, request, response) = match self {
            ConnectionKind::Document => (KIND_DOCUMENT, MAP_DOCUMENT_REQUEST, MAP_DOCUMENT),
            ConnectionKind::Script => (KIND_SCRIPT, MAP_SCRIPT_REQUEST, MAP_SCRIPT),
            ConnectionKind::Picture => (KIND_PICTURE, MAP_PICTURE_REQUEST, MAP_PICTURE),
        };
        Properties {
            number,
            request,
            response,
        }
    }

    /// The number in a connection's word.
    pub fn number(self) -> u32 {
        self.properties().number
    }

    /// The map of its request, without cookies.
    pub fn request_map(self) -> u8 {
        self.properties().request
    }

    /// The kind that has this number in a connection's word.
    pub fn of_number(number: u32) -> Option<ConnectionKind> {
        ConnectionKind::find(|kind| kind.number == number)
    }

    /// The kind whose request has this map, with or without cookies.
    pub fn of_request(map: u8) -> Option<ConnectionKind> {
        ConnectionKind::find(|kind| kind.request == map & !BIT_COOKIES)
    }

    /// The kind that awaits the response of this map, with or without
    /// cookies.
    pub fn of_response(map: u8) -> Option<ConnectionKind> {
        ConnectionKind::find(|kind| kind.response == map & !BIT_COOKIES)
    }

    fn find(is: impl Fn(Properties) -> bool) -> Option<ConnectionKind> {
        let mut all = ConnectionKind::ALL.into_iter();
        all.find(|kind| is(kind.properties()))
    }
}
