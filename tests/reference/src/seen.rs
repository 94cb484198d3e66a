//! What can happen while a record is fed, and counts of it.

/// A list of events, and the type that counts them.
#[macro_export]
macro_rules! events {
    (enum $events:ident counted in $seen:ident; $($event:ident: $name:literal,)*) => {
        /// One thing that can happen.
        #[derive(Debug, Clone, Copy, PartialEq, Eq)]
        pub enum $events {
            $(#[doc = $name] $event,)*
        }

        impl $events {
            /// Every event, in the order of declaration.
            pub const ALL: [$events; [$($events::$event),*].len()] = [$($events::$event),*];

            /// The event in plain English.
            pub fn name(self) -> &'static str {
                match self {
                    $($events::$event => $name,)*
                }
            }
        }

        /// How often each event occurred.
        #[derive(Debug, Clone, PartialEq, Eq)]
        pub struct $seen {
            counts: [u64; $events::ALL.len()],
        }

        impl $seen {
            /// Nothing has occurred.
            pub fn new() -> $seen {
                $seen {
                    counts: [0; $events::ALL.len()],
                }
            }

            /// The event occurred once more.
            pub fn note(&mut self, event: $events) {
                self.counts[event as usize] += 1;
            }

            /// Each of these that did occur occurred once more.
            pub fn note_all(&mut self, events: &[($events, bool)]) {
                for &(event, occurs) in events {
                    if occurs {
                        self.note(event);
                    }
                }
            }

            /// How often the event occurred.
            pub fn count(&self, event: $events) -> u64 {
                self.counts[event as usize]
            }

            /// The events that never occurred.
            pub fn missing(&self) -> Vec<$events> {
                let never = |event: &$events| self.count(*event) == 0;
                $events::ALL.into_iter().filter(never).collect()
            }
        }

        impl Default for $seen {
            fn default() -> $seen {
                $seen::new()
            }
        }
    };
}

pub(crate) use events;

events! {
    enum Event counted in Seen;

    OutputShort: "1: the output buffer is too short",

    PolicyLength: "2: the policy has a wrong length",
    PolicyAddress: "2: an address word is 64 to 254",
    PolicyAddressAbove: "2: an address word is above 255",
    PolicyEmptyRowSets: "2: an address word is 255 but readers or writers are not 0",
    PolicyEventEndpoint: "2: a row's event endpoint is not among its readers",
    PolicyEventEndpointEntry: "2: an entry's event endpoint is not among its readers",
    PolicyScriptReaders: "2: a connection's script readers are not within its readers",
    PolicyHttpsHosts: "2: the word of https hosts has a bit above 15",
    PolicyPartnerMissing: "2: an http row of an https host has no partner",
    PolicyPartnerMissingEntry: "2: an http entry of an https host has no partner",
    PolicyPartnerAbove: "2: a partner is above 63 and not 255",
    PolicyPartnerEmpty: "2: a partner is an empty row",
    PolicyPartnerHttp: "2: a partner is an http row",
    PolicyPartnerHttpEntry: "2: a partner is an http entry",
    PolicyPartnerHost: "2: a partner is an https row of another host",
    PolicyPartnerHostEntry: "2: a partner is an https entry of another host",
    PolicyPartnerNotListed: "2: an http row of a host that is not listed has a partner",
    PolicyPartnerNotListedEntry: "2: an http entry of a host that is not listed has a partner",
    PolicyPartnerOfHttps: "2: an https row has a partner",
    PolicyPartnerOfHttpsEntry: "2: an https entry has a partner",
    PolicyPartnerOfEmpty: "2: an empty row has a partner",

    ScriptsLength: "3: the script table has a wrong length",

    StateLength: "4: the state has a wrong length",
    StatePresenceBit: "4: a presence bit above 7 is set",
    StateAbsentValue: "4: an absent cookie's value is not 0",
    StateFreeWord: "4: a free connection's word is not 0",
    StateKind: "4: a connection's kind is above 3",
    StateDocumentOrigin: "4: a document has an origin that is not 0",
    StateDocumentHandler: "4: a document has a handler that is not 0",
    StatePictureOrigin: "4: a picture has an origin that is not 0",
    StatePictureHandler: "4: a picture has a handler that is not 0",
    StateUrlAbove: "4: an open connection's URL is above 63",
    StateUrlEmpty: "4: an open connection's URL is an empty row",
    StateUrlReaders: "4: an open connection's readers are not within its URL's readers",
    StateUrlReadersEntry: "4: an open connection's readers are not within the readers of its URL, an entry",
    StateUrlWriters: "4: an open connection's writers do not hold its URL's message endpoint",
    StateUrlWritersEntry: "4: an open connection's writers do not hold the message endpoint of its URL, an entry",
    StateHandler: "4: a script request's handler is above 15",
    StateOriginAbove: "4: a script request's origin is above 63",
    StateOriginEmpty: "4: a script request's origin is an empty row",

    RecordEmpty: "10: the record is empty",
    RecordMap: "10: the map is no input map",
    RecordMapRequest: "10: the map is no input map but a request's",
    RecordMapNoKeys: "10: the map is no input map and the key map is 0",

    RecordNoKeys: "12: the key map is 0 and the length is right for that",
    RecordNoKeysCut: "12: the key map is 0 and the record is cut short",
    RecordNoKeysTrailing: "12: the key map is 0 and the record has trailing bytes",

    RecordCutBeforeKeys: "11: the record is cut short before its key map",
    RecordCutAfterKeys: "11: the record is cut short after its key map",
    RecordCutPlain: "11: a record without cookies is cut short",
    RecordTrailing: "11: the record has trailing bytes",

    NumberUrlAbove: "6: the URL is above 63",
    NumberUrlEmpty: "6: the URL is an empty row",
    NumberTargetAbove: "6: the target is above 63",
    NumberTargetEmpty: "6: the target is an empty row",
    NumberConnection: "6: the connection is above 31",
    NumberScript: "6: the script is above 15",

    MatchFree: "7: the connection is free",
    MatchOtherUrl: "7: the connection holds another URL",
    MatchPartner: "7: a response names an http row and the connection holds its partner",
    MatchPartnerRedirect: "7: a redirect leaves an http row and the connection holds its partner",
    MatchDocumentOnScript: "7: a document response on a script's request",
    MatchDocumentOnPicture: "7: a document response on a picture",
    MatchScriptOnDocument: "7: a script response on a document",
    MatchScriptOnPicture: "7: a script response on a picture",
    MatchPictureOnDocument: "7: a picture response on a document",
    MatchPictureOnScript: "7: a picture response on a script's request",

    ReadersLoad: "8: a load's connection readers are not within the URL's readers",
    ReadersRedirectEvent: "8: a redirect target's event endpoint is not in the connection's readers",
    ReadersRedirect: "8: the connection's readers are not within a redirect target's readers",

    WritersLoad: "9: a load's message endpoint is not in the connection's writers",
    WritersRedirectMessage: "9: a redirect target's message endpoint is not in the connection's writers",
    WritersRedirect: "9: the connection's writers are not within a redirect target's writers, and it is no entry",

    ReadersLoadOne: "8: of a load's connection readers the URL lacks one",
    ReadersLoadSeveral: "8: of a load's connection readers the URL lacks several, and the lowest is told",
    ReadersLoadTells0: "8: a load's URL lacks reader 0",
    ReadersLoadTells31: "8: a load's URL lacks reader 31, and none below it",
    ReadersLoadThenMessage: "8: a load's URL lacks a reader, and another endpoint than the one told, its message endpoint, is missing too",
    ReadersLoadUnlikeRow: "8: the partner of a load's URL lacks a reader, and of the row itself 8 would tell another endpoint",
    WritersLoadTells0: "9: a load's message endpoint is missing, and it is 0",
    WritersLoadTells31: "9: a load's message endpoint is missing, and it is 31",
    WritersLoadUnlikeRow: "9: the message endpoint of the partner of a load's URL is missing, and of the row itself 9 would tell another endpoint",
    ReadersRedirectEventTells0: "8: a redirect target's event endpoint is missing, and it is 0",
    ReadersRedirectEventTells15: "8: a redirect target's event endpoint is missing, and it is 15",
    ReadersRedirectEventThenReaders: "8: a redirect target's event endpoint is missing, and the target lacks a reader, another endpoint, too",
    ReadersRedirectEventThenMessage: "8: a redirect target's event endpoint is missing, and its message endpoint, another, is missing too",
    ReadersRedirectEventThenWriters: "8: a redirect target's event endpoint is missing, and the lowest writer that the target lacks is another endpoint",
    ReadersRedirectOne: "8: of the connection's readers a redirect's target lacks one",
    ReadersRedirectSeveral: "8: of the connection's readers a redirect's target lacks several, and the lowest is told",
    ReadersRedirectTells0: "8: a redirect's target lacks reader 0",
    ReadersRedirectTells31: "8: a redirect's target lacks reader 31, and none below it",
    ReadersRedirectThenMessage: "8: a redirect's target lacks a reader, and another endpoint than the one told, its message endpoint, is missing too",
    ReadersRedirectThenWriters: "8: a redirect's target lacks a reader, and the lowest writer that it lacks is another endpoint than the one told",
    ReadersRedirectUnlikeRow: "8: the partner of a redirect's target lacks a reader, and of the row itself 8 would tell another endpoint",
    WritersRedirectMessageTells0: "9: a redirect target's message endpoint is missing, and it is 0",
    WritersRedirectMessageTells31: "9: a redirect target's message endpoint is missing, and it is 31",
    WritersRedirectMessageThenWriters: "9: a redirect target's message endpoint is missing, and the target lacks a writer, another endpoint, too",
    WritersRedirectMessageUnlikeRow: "9: the message endpoint of the partner of a redirect's target is missing, and of the row itself 9 would tell another endpoint",
    WritersRedirectOne: "9: of the connection's writers a redirect's target lacks one",
    WritersRedirectSeveral: "9: of the connection's writers a redirect's target lacks several, and the lowest is told",
    WritersRedirectTells0: "9: a redirect's target lacks writer 0",
    WritersRedirectTells31: "9: a redirect's target lacks writer 31, and none below it",
    WritersRedirectUnlikeRow: "9: the partner of a redirect's target lacks a writer, and of the row itself 9 would tell another endpoint",

    Load: "a load is accepted",
    DocumentResponse: "a document response without cookies is accepted",
    DocumentResponseCookies: "a document response with cookies is accepted",
    ScriptResponse: "a script response without cookies is accepted",
    ScriptResponseCookies: "a script response with cookies is accepted",
    PictureResponse: "a picture response without cookies is accepted",
    PictureResponseCookies: "a picture response with cookies is accepted",
    PictureResponseStores: "a picture response stores a cookie",
    Redirect: "a redirect without cookies is accepted",
    RedirectCookies: "a redirect with cookies is accepted",
    RedirectDocument: "a redirect of a document is accepted",
    RedirectScript: "a redirect of a script's request is accepted",
    RedirectPicture: "a redirect of a picture is accepted and its request has no cookies",
    RedirectPictureCookies: "a redirect of a picture is accepted and its request has cookies",
    LoadReplaces: "a load replaces what was pending on its connection",
    LoadReplacesPicture: "a load replaces a pending picture",

    ResponseHeldHttp: "a response is accepted on a connection that holds an http row of an https host",
    RedirectHeldHttp: "a redirect is accepted on a connection that holds an http row of an https host",
    RedirectHttpOrigin: "a redirect is accepted on a connection whose origin, which it keeps, is an http row of an https host",

    LoadUpgraded: "a load goes to its URL's partner",
    LoadUpgradedAgainstRow: "a load goes to its URL's partner, though labels forbid the row itself",
    LoadUpgradedReaders: "8: readers forbid the partner of a load's URL, though labels allow the row itself",
    LoadUpgradedMessage: "9: the message endpoint forbids the partner of a load's URL, though labels allow the row itself",
    LoadUpgradedCarries: "a load carries a cookie to its URL's partner that the row itself would not get",
    LoadUpgradedKeepsBack: "a load does not carry a cookie to its URL's partner that the row itself would get",
    RedirectUpgraded: "a redirect goes to its target's partner",
    RedirectUpgradedAgainstRow: "a redirect goes to its target's partner, though labels forbid the row itself",
    RedirectUpgradedReaders: "8: readers forbid the partner of a redirect's target, though labels allow the row itself",
    RedirectUpgradedMessage: "9: the message endpoint forbids the partner of a redirect's target, though labels allow the row itself",
    RedirectUpgradedWriters: "9: writers forbid the partner of a redirect's target, though labels allow the row itself",
    RedirectUpgradedCarries: "a redirect carries a cookie to its target's partner that the row itself would not get",
    RedirectUpgradedKeepsBack: "a redirect does not carry a cookie to its target's partner that the row itself would get",

    LoadEntry: "a load goes to an entry",
    LoadPartnerEntry: "a load goes to its URL's partner, an entry, and the row itself is none",
    LoadNamedEntry: "a load goes to its URL's partner, which is no entry, and the row itself is one",
    LoadOutside: "a load goes to a URL that is no entry, though the connection's writers are not within its writers",
    LoadOutsideEntry: "a load goes to an entry, though the connection's writers are not within its writers",
    LoadEntryReaders: "8: readers forbid a load's URL, though it is an entry",
    LoadEntryMessage: "9: the message endpoint forbids a load's URL, though it is an entry",
    RedirectEntry: "a redirect goes to an entry that has the connection's writers",
    RedirectEntryExcused: "a redirect goes to an entry that does not have the connection's writers",
    RedirectExcusedDocument: "a redirect of a document goes to an entry that does not have the connection's writers",
    RedirectExcusedScript: "a redirect of a script's request goes to an entry that does not have the connection's writers",
    RedirectExcusedPicture: "a redirect of a picture goes to an entry that does not have the connection's writers",
    RedirectPartnerEntry: "a redirect goes to its target's partner, an entry that does not have the connection's writers, and the row itself is no entry",
    RedirectNamedEntry: "9: writers forbid the partner of a redirect's target, which is no entry, though the row itself is one",
    RedirectFromEntry: "9: writers forbid a redirect's target, which is no entry, though the URL that it leaves is one",
    RedirectEntryEvent: "8: the event endpoint forbids a redirect's target, though it is an entry",
    RedirectEntryReaders: "8: readers forbid a redirect's target, though it is an entry",
    RedirectEntryMessage: "9: the message endpoint forbids a redirect's target, though it is an entry",
    RedirectEntryMessageOutside: "9: the message endpoint forbids a redirect's target, an entry that does not have the connection's writers either",

    CookieStored: "a delivered cookie is stored",
    CookieStoredEntry: "a delivered cookie is stored, and the record's URL is an entry",
    CookiePassedReaders: "a delivered cookie is passed over because of readers",
    CookiePassedWriters: "a delivered cookie is passed over because of writers",

    RequestPlain: "a request goes out without cookies",
    RequestPlainEntry: "a request goes out to an entry without cookies",
    RequestCookies: "a request goes out with cookies",
    RequestCookiesEntry: "a request goes out to an entry with cookies",
    NotCarriedAbsent: "a cookie is not carried because it is absent",
    NotCarriedReaders: "a cookie is not carried because its readers do not hold the message endpoint",
    NotCarriedReadersEntry: "a cookie is not carried because its readers do not hold the message endpoint of an entry",
    CarriedOutside: "a cookie is carried though its readers are not within the URL's readers",
    CarriedMessage: "a cookie is carried to a URL whose message endpoint is not among its own readers",
    CarriedUnreadable: "a script's request carries a cookie that its labels do not let it read",
    CarriedUnreadablePicture: "a picture's request carries a cookie that the script's labels do not let it read",
    FullOutput: "a script fills the output to its last byte",

    StepSet: "a script sets a register",
    StepAdd: "a script adds without wrapping",
    StepAddWraps: "a script adds and wraps",
    StepRead: "a script reads a cookie",
    StepReadEntry: "a script reads a cookie, and its page is an entry",
    StepWrite: "a script writes a cookie",
    StepWriteEntry: "a script writes a cookie, and its page is an entry",
    StepWriteReaders: "a write is not allowed because of readers and the script goes on",
    StepWriteWriters: "a write is not allowed because of writers and the script goes on",
    StepSend: "a script sends a request",
    StepSendReplaces: "a script's send replaces what was pending on its connection",
    StepSendReplacesPicture: "a script's send replaces a pending picture",
    StepSendSame: "a script sends on the connection that the response came on",
    StepSendHttpPage: "a document's script sends a request, and its page is an http row of an https host",
    StepSendHttpPageHandler: "a handler sends a request, and its page is an http row of an https host",
    StepSkips: "a script skips since the register is 0",
    StepSkipsNot: "a script does not skip since the register is not 0",
    StepPicture: "a script asks for a picture and the request has no cookies",
    StepPictureCookies: "a script asks for a picture and the request has cookies",
    StepPictureUnused: "a script asks for a picture with an unused field above 15",
    StepPictureReplaces: "a script's picture replaces what was pending on its connection",
    StepPictureReplacesPicture: "a script's picture replaces a pending picture",
    StepPictureSame: "a script asks for a picture on the connection that the response came on",

    SendUpgraded: "a script's send goes to its URL's partner",
    SendUpgradedAgainstRow: "a script's send goes to its URL's partner, though labels forbid the row itself",
    SendUpgradedReaders: "a script ends at a send: readers forbid the partner, though labels allow the row itself",
    SendUpgradedMessage: "a script ends at a send: the message endpoint forbids the partner, though labels allow the row itself",
    SendUpgradedWriters: "a script ends at a send: writers forbid the partner, though labels allow the row itself",
    SendUpgradedCarries: "a script's send carries a cookie to its URL's partner that the row itself would not get",
    SendUpgradedKeepsBack: "a script's send does not carry a cookie to its URL's partner that the row itself would get",
    PictureUpgraded: "a script asks for a picture of its URL's partner",
    PictureUpgradedAgainstRow: "a script asks for a picture of its URL's partner, though labels forbid the row itself",
    PictureUpgradedReaders: "a script ends at a picture: readers forbid the partner, though labels allow the row itself",
    PictureUpgradedMessage: "a script ends at a picture: the message endpoint forbids the partner, though labels allow the row itself",
    PictureUpgradedWriters: "a script ends at a picture: writers forbid the partner, though labels allow the row itself",
    PictureUpgradedCarries: "a picture's request carries a cookie to its URL's partner that the row itself would not get",
    PictureUpgradedKeepsBack: "a picture's request does not carry a cookie to its URL's partner that the row itself would get",

    SendEntry: "a script's send goes to an entry that has the script's writers",
    SendEntryExcused: "a script's send goes to an entry that does not have the script's writers",
    SendPartnerEntry: "a script's send goes to its URL's partner, an entry that does not have the script's writers, and the row itself is no entry",
    SendNamedEntry: "a script ends at a send: writers forbid the partner, which is no entry, though the row itself is one",
    SendFromEntry: "a script ends at a send: writers forbid the URL, which is no entry, though the page is one",
    SendEntryEvent: "a script ends at a send to an entry: the event endpoint is not in the script readers",
    SendEntryReaders: "a script ends at a send to an entry: the connection's readers are not within the script readers",
    SendEntryFitReaders: "a script ends at a send to an entry: the connection's readers are not within the entry's",
    SendEntryFitWriters: "a script ends at a send to an entry: the message endpoint is not in the connection's writers",
    SendEntryWriters: "a script ends at a send to an entry: its writers are not within the connection's writers",
    PictureEntry: "a script asks for a picture of an entry that has the script's writers",
    PictureEntryExcused: "a script asks for a picture of an entry that does not have the script's writers",
    PicturePartnerEntry: "a script asks for a picture of its URL's partner, an entry that does not have the script's writers, and the row itself is no entry",
    PictureNamedEntry: "a script ends at a picture: writers forbid the partner, which is no entry, though the row itself is one",
    PictureFromEntry: "a script ends at a picture: writers forbid the URL, which is no entry, though the page is one",
    PictureEntryEvent: "a script ends at a picture of an entry: the event endpoint is not in the script readers",
    PictureEntryReaders: "a script ends at a picture of an entry: the connection's readers are not within the script readers",
    PictureEntryFitReaders: "a script ends at a picture of an entry: the connection's readers are not within the entry's",
    PictureEntryFitWriters: "a script ends at a picture of an entry: the message endpoint is not in the connection's writers",
    PictureEntryWriters: "a script ends at a picture of an entry: its writers are not within the connection's writers",

    EndStep: "a script ends at step 0",
    EndUnknown: "a script ends at an unknown op",
    EndSetRegister: "a script ends at a set to a register above 3",
    EndAddTarget: "a script ends at an addition to a register above 3",
    EndAddLeft: "a script ends at an addition whose first register is above 3",
    EndAddRight: "a script ends at an addition whose second register is above 3",
    EndReadRegister: "a script ends at a read into a register above 3",
    EndReadKey: "a script ends at a read of a key above 7",
    EndReadReaders: "a script ends at a read not allowed because of readers",
    EndReadWriters: "a script ends at a read not allowed because of writers",
    EndReadAbsent: "a script ends at a read of an absent cookie",
    EndWriteKey: "a script ends at a write of a key above 7",
    EndWriteRegister: "a script ends at a write from a register above 3",
    EndSendUrlAbove: "a script ends at a send to a URL above 63",
    EndSendUrlEmpty: "a script ends at a send to an empty row",
    EndSendConnection: "a script ends at a send on a connection above 31",
    EndSendHandler: "a script ends at a send with a handler above 15",
    EndSendEvent: "a script ends at a send: the event endpoint is not in the script readers",
    EndSendReaders: "a script ends at a send: the connection's readers are not within the script readers",
    EndSendFitReaders: "a script ends at a send: the connection's readers are not within the URL's",
    EndSendFitWriters: "a script ends at a send: the message endpoint is not in the connection's writers",
    EndSendWriters: "a script ends at a send: its writers are not within the connection's writers",
    EndSendUrlWriters: "a script ends at a send: its writers are not within the URL's writers, and it is no entry",
    EndSkipRegister: "a script ends at a skip on a register above 3",
    EndPictureUrlAbove: "a script ends at a picture of a URL above 63",
    EndPictureUrlEmpty: "a script ends at a picture of an empty row",
    EndPictureConnection: "a script ends at a picture on a connection above 31",
    EndPictureEvent: "a script ends at a picture: the event endpoint is not in the script readers",
    EndPictureReaders: "a script ends at a picture: the connection's readers are not within the script readers",
    EndPictureFitReaders: "a script ends at a picture: the connection's readers are not within the URL's",
    EndPictureFitWriters: "a script ends at a picture: the message endpoint is not in the connection's writers",
    EndPictureWriters: "a script ends at a picture: its writers are not within the connection's writers",
    EndPictureUrlWriters: "a script ends at a picture: its writers are not within the URL's writers, and it is no entry",
    EndRunsPast: "a script runs past step 31",
    EndSkipsPast: "a script skips past step 31",
}

impl Event {
    /// The clauses by which a policy is refused.
    pub fn policy_clauses() -> impl Iterator<Item = Event> {
        let (first, last) = (Event::PolicyLength, Event::PolicyPartnerOfEmpty);
        let clauses = first as usize..=last as usize;
        let is_clause = move |event: &Event| clauses.contains(&(*event as usize));
        Event::ALL.into_iter().filter(is_clause)
    }
}
