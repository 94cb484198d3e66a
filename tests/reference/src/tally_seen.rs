//! What can happen while a list of requests is tallied, and counts of it.

use crate::kind::ConnectionKind;
use crate::request_record::Request;
use crate::seen::events;

events! {
    enum TallyEvent counted in TallySeen;

    Empty: "an empty list is accepted",
    Accepted: "a list that is not empty is accepted",
    Longest: "a list of just 65,536 bytes is accepted",

    Document: "a document request without cookies is counted",
    DocumentCookies: "a document request with cookies is counted",
    Script: "a script's request without cookies is counted",
    ScriptCookies: "a script's request with cookies is counted",
    Picture: "a picture request without cookies is counted",
    PictureCookies: "a picture request with cookies is counted",

    TooLong: "13: the list has more than 65,536 bytes",

    MapInput: "13: a map is no request's but an input's",
    MapUnknown: "13: a map is neither a request's nor an input's",

    NoKeys: "13: a key map is 0",

    CutUrl: "13: the list ends before a URL",
    CutConnection: "13: the list ends before a connection",
    CutKeys: "13: the list ends before a key map",
    CutValues: "13: the list ends within the values of cookies",
    CutHandler: "13: the list ends before a handler",

    UrlAbove: "13: a URL is above 63",
    ConnectionAbove: "13: a connection is above 31",
    HandlerAbove: "13: a handler is above 15",
}

impl TallyEvent {
    /// The request is counted.
    pub fn counted(request: &Request) -> TallyEvent {
        match (request.kind, request.cookies()) {
            (ConnectionKind::Document, 0) => TallyEvent::Document,
            (ConnectionKind::Document, _) => TallyEvent::DocumentCookies,
            (ConnectionKind::Script, 0) => TallyEvent::Script,
            (ConnectionKind::Script, _) => TallyEvent::ScriptCookies,
            (ConnectionKind::Picture, 0) => TallyEvent::Picture,
            (ConnectionKind::Picture, _) => TallyEvent::PictureCookies,
        }
    }
}
