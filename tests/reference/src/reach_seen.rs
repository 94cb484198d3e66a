//! What can happen while a reach table is counted or asked, and counts of it.
//!
//! The clause by which a policy is refused is an event of the monitor; the
//! events with a 2 here tell what is particular about it. A connection reaches a
//! URL that it fits.

use crate::seen::events;

events! {
    enum ReachEvent counted in ReachSeen;

    Words0: "2, the policy has no word",
    WordsFew: "2, the policy has 1 to 607 words",
    Words608: "2, the policy has one word too few",
    Words610: "2, the policy has one word too many",
    WordsMany: "2, the policy has more than 610 words",
    FrontCounted: "2, the policy has too many words, and by the first 609 a URL is reached",

    RowsNone: "every row is empty",
    RowsSome: "some rows are empty and some are not",
    RowsAll: "no row is empty",
    All0: "the total is 0, though there is a URL",
    AllBetween: "the total is 1 to 2,047",
    All2048: "the total is 2,048",
    Reaches0: "a connection reaches no URL, and another one does",
    Reaches1: "a connection reaches one URL",
    Reaches63: "a connection reaches 63 URLs",
    Reaches64: "a connection reaches all 64 URLs",
    Connection0: "connection 0 alone reaches a URL",
    Connection31: "connection 31 alone reaches a URL",
    Url0: "URL 0 alone is reached",
    Url63: "URL 63 alone is reached",
    ReachedByNone: "a URL is reached by no connection, and another one is",
    ReachedByAll: "a URL is reached by every connection",
    OtherUrls: "two connections reach as many URLs, which are not the same",

    Fits: "a connection fits a URL",
    ForbidReaders: "a connection does not fit a URL because of its readers alone",
    ForbidWriters: "a connection does not fit a URL because of its writers alone",
    ForbidBoth: "a connection does not fit a URL because of readers and writers",
    Reader0: "a connection does not fit a URL because of reader 0 alone",
    Reader31: "a connection does not fit a URL because of reader 31 alone",
    Message0: "a connection does not fit a URL because writer 0 alone is missing",
    Message31: "a connection does not fit a URL because writer 31 alone is missing",

    ReadersSame: "a connection fits a URL that has the same readers",
    ReadersMore: "a connection fits a URL that has more readers",
    ReadersFewer: "readers alone forbid a URL, all of whose readers the connection has",
    NoReaders: "a connection without readers fits a URL",
    EveryReader: "a connection with every reader fits a URL",
    EveryReaderForbids: "readers alone forbid a URL, and the connection has every reader",
    NoEventReader: "a connection fits a URL whose event endpoint it does not have as a reader",
    ScriptReaders: "readers alone forbid a URL, which has all script readers",

    NoWriters: "writers alone forbid a URL, and the connection has none",
    OneWriter: "a connection with one writer fits a URL",
    EveryWriter: "a connection with every writer fits a URL",
    EventWriter: "writers alone forbid an https URL, whose event endpoint the connection has",
    NoEventWriter: "a connection fits an https URL whose event endpoint it does not have as a writer",
    UrlNoWriters: "a connection fits a URL that has no writers",
    UrlLacksWriter: "a connection fits a URL, which is no entry and lacks one of its writers",

    Http: "a connection fits an http URL that is no entry",
    Https: "a connection fits an https URL that is no entry",
    EntryHttp: "a connection fits an http entry",
    EntryHttps: "a connection fits an https entry",
    EntryReaders: "readers alone forbid an entry",
    EntryWriters: "writers alone forbid an entry",
    Address0: "a connection fits a URL of address 0",
    Address15: "a connection fits a URL of address 15",
    Address16: "a connection fits a URL of address 16",
    Address31: "a connection fits a URL of address 31",

    EmptyNoReaders: "a row is empty, and a connection has no readers",
    EmptyEveryWriter: "a row is empty, and a connection has no readers and every writer",

    PartnerBoth: "a connection fits a URL and its partner",
    PartnerNeither: "a connection fits neither a URL nor its partner",
    RowAlone: "a connection fits a URL, and not its partner",
    PartnerAlone: "a connection does not fit a URL, and fits its partner",
    PartnerShared: "a connection fits two URLs that have the same partner",
    ReplacedMore: "after the replacement the total would be higher",
    ReplacedFewer: "after the replacement the total would be lower",
    ReplacedAlike: "after the replacement counts would be others, and the total the same",

    AskedFits: "asked, a connection fits a URL",
    AskedForbidden: "asked, a connection does not fit a URL",
    AskedEmpty: "asked, a row is empty",
    AskedRowAlone: "asked, a connection fits a URL, and not its partner",
    AskedPartnerAlone: "asked, a connection does not fit a URL, and fits its partner",
    AskedConnection32: "asked, the connection is 32",
    AskedConnectionAbove: "asked, the connection is above 32",
    AskedConnectionWraps: "asked, the connection is above 31, and its lowest five bits fit the URL",
    AskedUrl64: "asked, the URL is 64",
    AskedUrlAbove: "asked, the URL is above 64",
    AskedUrlWraps: "asked, the URL is above 63, and its lowest six bits name one that fits",
    AskedBothAbove: "asked, connection and URL are above their range",
    AskedRefused: "asked of a policy that is refused, connection and URL are in range",
    AskedRefusedAbove: "asked of a policy that is refused, a number is above its range",
}
