//! What a record does, event by event, and why it is refused where it is.

use crate::lack::Lack;
use zolherima::{Accepted, Pending, Refusal, Request, State, Step, REGISTERS};

/// One thing that a record does.
#[derive(Clone, Debug, PartialEq, Eq, Hash)]
pub enum Event {
    /// The URL that is named has a partner, which is asked for in its place.
    AskedInstead {
        /// The URL that the record or step names.
        named: u32,
        /// Its partner.
        asked: u32,
    },
    /// A load or a script opened a connection.
    Opened {
        /// The connection.
        connection: u32,
        /// What it awaits from now on.
        pending: Pending,
        /// What it awaited before, and is no longer awaited.
        replaced: Option<Pending>,
    },
    /// A redirect moved a connection to another URL.
    Moved {
        /// The connection.
        connection: u32,
        /// The URL that it leaves.
        from: u32,
        /// The URL at which it is from now on.
        to: u32,
    },
    /// A cookie that the record brought was stored.
    Stored {
        /// The host to which it belongs.
        host: u32,
        /// Its key.
        key: u32,
        /// Its value from now on.
        value: u32,
        /// Its value before, where it was present.
        before: Option<u32>,
    },
    /// A cookie that the record brought was passed over.
    PassedOver {
        /// The host to which it belongs.
        host: u32,
        /// Its key.
        key: u32,
        /// The value that it did not take.
        value: u32,
        /// Why not.
        lacks: Vec<Lack>,
    },
    /// A response freed its connection.
    Freed {
        /// The connection.
        connection: u32,
    },
    /// A request went out.
    Sent {
        /// The request.
        request: Request,
        /// The keys of the cookies that are present at its host and that it does not carry, and why not.
        withheld: Vec<(u32, Vec<Lack>)>,
    },
    /// A script began to run.
    ScriptStarted {
        /// The script.
        script: u32,
        /// The URL for which it runs: the cookies are those of its host.
        page: u32,
        /// The connection whose script readers and writers decide what it may do.
        connection: u32,
        /// Its registers at the start.
        registers: [u32; REGISTERS],
    },
    /// A step was met. What a request opens and sends follows, and so does the end of the script where this step ends it.
    StepRan {
        /// Its place in the script.
        place: u32,
        /// The step.
        step: Step,
        /// What it did.
        did: Did,
        /// The registers after it.
        registers: [u32; REGISTERS],
    },
    /// The script ended.
    ScriptEnded {
        /// How many steps were met, the one that ended it included.
        steps: u32,
        /// Why it ended.
        why: End,
    },
}

/// What a step did.
#[derive(Clone, Debug, PartialEq, Eq, Hash)]
pub enum Did {
    /// It ended the script, or is a skip whose register is not 0.
    Nothing,
    /// It gave a register a value: steps 1 and 2.
    Set {
        /// The register.
        register: u32,
        /// Its value.
        value: u32,
    },
    /// It read a cookie into a register.
    Read {
        /// The register.
        register: u32,
        /// The key at the page's host.
        key: u32,
        /// The value.
        value: u32,
    },
    /// It wrote a cookie.
    Wrote {
        /// The key at the page's host.
        key: u32,
        /// The value.
        value: u32,
        /// The value that it had, where it was present.
        before: Option<u32>,
    },
    /// It would have written a cookie, and was passed over.
    PassedOver {
        /// The key at the page's host.
        key: u32,
        /// The value that the cookie did not take.
        value: u32,
        /// Why not.
        lacks: Vec<Lack>,
    },
    /// It skipped so many of the steps that follow, also past the last.
    Skipped {
        /// How many.
        steps: u32,
    },
    /// It requested a URL or a picture.
    Requested,
}

/// Why a script ended.
#[derive(Clone, Debug, PartialEq, Eq, Hash)]
pub enum End {
    /// At a step 0.
    Step0 {
        /// Its place.
        place: u32,
    },
    /// At a step whose op there is not.
    UnknownOp {
        /// Its place.
        place: u32,
        /// The op.
        op: u32,
    },
    /// At a field that its op uses and that names nothing, whether or not the rest would have been allowed.
    OutOfRange {
        /// The place of the step.
        place: u32,
        /// What the first such field should name: a register, key, URL, connection or handler.
        what: &'static str,
        /// The number that it has.
        number: u32,
    },
    /// At a read or request that is not allowed.
    NotAllowed {
        /// The place of the step.
        place: u32,
        /// Why not.
        lacks: Vec<Lack>,
    },
    /// At a read, which is allowed, of a cookie that is not present.
    NoCookie {
        /// The place of the step.
        place: u32,
        /// The key at the page's host.
        key: u32,
    },
    /// Past the last step.
    PastTheLast,
}

/// Why a record was refused.
#[derive(Clone, Debug, PartialEq, Eq, Hash)]
pub enum Why {
    /// It is malformed, and the refusal says how.
    Malformed(Refusal),
    /// The policy does not have its URL.
    NoUrl {
        /// The URL that it names.
        url: u32,
    },
    /// The policy does not have the target of its redirect.
    NoTarget {
        /// The target that it names.
        target: u32,
    },
    /// There is no such connection.
    NoConnection {
        /// The connection that it names.
        connection: u32,
    },
    /// There is no such script.
    NoScript {
        /// The script that it names.
        script: u32,
    },
    /// Its connection awaits nothing.
    Free,
    /// Its connection is at another URL.
    HoldsAnother {
        /// The URL at which it is.
        url: u32,
    },
    /// Its connection awaits a response of another kind.
    OtherKind {
        /// What it awaits.
        pending: Pending,
    },
    /// The policy's sets forbid it; of the first lack the lowest endpoint is the one that the refusal tells.
    Labels(Vec<Lack>),
}

/// What a record does and why.
#[derive(Clone, Debug, PartialEq, Eq)]
pub struct Explained {
    /// What happens, in this order. A refusal has none but perhaps [`Event::AskedInstead`].
    pub events: Vec<Event>,
    /// The answer, and for a refusal its reason.
    pub outcome: Result<Accepted, (Refusal, Why)>,
    /// The state after.
    pub state: State,
    /// The requests that go out, one right after another.
    pub out: Vec<u8>,
}
