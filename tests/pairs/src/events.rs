//! What can come of a pair: that each clause of a rule was at work, and that the runs really differed.

reference::events! {
    enum Event counted in Seen;

    EmptySet: "the set is empty",
    FullSet: "the set has every endpoint",
    PolicyRefused: "2 refuses the policy, and the lists differ",
    ScriptsRefused: "3 refuses the script table, and the lists differ",

    Malformed: "a malformed record is in one list alone",
    UnknownName: "a record that 6 fits is in one list alone",
    Load: "a load that is struck is accepted in one list alone",
    Document: "a document response that is struck is accepted in one list alone",
    Script: "a script response that is struck is accepted in one list alone",
    Picture: "a picture response that is struck is accepted in one list alone",
    RedirectedDocument: "a redirect of a document that is struck is accepted in one list alone",
    RedirectedScript: "a redirect of a script's request that is struck is accepted in one list alone",
    RedirectedPicture: "a redirect of a picture that is struck is accepted in one list alone",

    LeftWithNone: "a record is left with no cookie, and in the other list it has none",
    LeftWithSome: "a record keeps a cookie, and those that are struck differ",
    StruckStored: "a struck cookie of a record that remains is stored in one list alone",
    LoadRenamed: "a load that is accepted names a URL, and its partner in the other list",
    RedirectRenamed: "a redirect that is accepted names a URL, and its partner in the other list",
    OtherRoom: "the same record has outputs of two lengths",

    JarsDiffer: "the jars differ",
    ConnectionsDiffer: "the connections differ",
    RequestsDiffer: "the requests differ",
    StruckStores: "a struck record changes the jar",
    StruckSends: "a struck record sends a request that is not compared",
    SendsEntry: "the script of a struck response requests a URL that would be compared were it no entry",
    RedirectsToEntry: "a struck redirect goes to a URL that would be compared were it no entry",
    LoadReplaces: "a load that remains replaces what the other list does not have there",
    LoadReplacesCompared: "such a load sends a request that is compared",
    ScriptApart: "the script of a response that remains runs on two different states",

    DocumentCompared: "a request for a document is compared",
    ScriptCompared: "a request of a script is compared",
    PictureCompared: "a request for a picture is compared",
    LoadCompared: "a load sends a request that is compared",
    RedirectCompared: "a redirect sends a request that is compared",
    ResponseCompared: "the script of a document sends a request that is compared",
    HandlerCompared: "a handler sends a request that is compared",
    CarriedCompared: "a request is compared with a cookie",
    CarriedApart: "a request is compared, and a cookie of it that is not compared differs",
    ComparedOnStruck: "a request is compared on a connection whose records are struck",
    ComparedApart: "a request is compared that two different states sent",

    StoredCompared: "a cookie of the jar is compared",
    PendingDocument: "a connection is compared that waits for a document",
    PendingScript: "a connection is compared that waits for a script's request",
    PendingPicture: "a connection is compared that waits for a picture",
}
