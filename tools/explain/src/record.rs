//! Loads, responses and redirects: what is asked of each, and what it does once nothing refuses it.

use crate::event::Why;
use crate::lack::Lack;
use crate::machine::{document, Machine};
use crate::rules;
use zolherima::{
    Accepted, Pending, PendingKind, RecordKind, Refusal, Said, CONNECTIONS, REGISTERS, SCRIPTS,
};

/// A refusal and its reason.
pub type Refused = (Refusal, Why);

impl Machine<'_> {
    /// The answer to a record, with its events told and its changes made.
    pub fn feed(&mut self, record: &[u8]) -> Result<Accepted, Refused> {
        let said = Said::of(record).map_err(|refusal| (refusal, Why::Malformed(refusal)))?;
        self.names(&said).map_err(unknown_name)?;
        let steps = match said.kind {
            RecordKind::Load => self.load(&said)?,
            RecordKind::Redirect { target } => self.redirect(&said, target)?,
            _ => self.response(&said)?,
        };
        Ok(Accepted {
            bytes: self.out.len(),
            steps,
        })
    }

    /// Whether the record names what there is; of several that there are not, the first of URL, target, connection and script.
    fn names(&self, said: &Said) -> Result<(), Why> {
        let (url, connection) = (said.url.into(), said.connection.into());
        if self.policy.url(url).is_none() {
            return Err(Why::NoUrl { url });
        }
        if let RecordKind::Redirect { target } = said.kind {
            self.target(target.into())?;
        }
        if connection as usize >= CONNECTIONS {
            return Err(Why::NoConnection { connection });
        }
        match said.kind {
            RecordKind::DocumentResponse { script } if usize::from(script) >= SCRIPTS => {
                Err(Why::NoScript {
                    script: script.into(),
                })
            }
            _ => Ok(()),
        }
    }

    fn target(&self, target: u32) -> Result<(), Why> {
        match self.policy.url(target) {
            Some(_) => Ok(()),
            None => Err(Why::NoTarget { target }),
        }
    }

    fn load(&mut self, said: &Said) -> Result<u32, Refused> {
        let url = self.asked_for(said.url);
        self.tell_asked(said.url, url);
        allowed(rules::load(self.policy, said.connection.into(), url.into()))?;
        self.open(said.connection, document(url));
        Ok(0)
    }

    fn redirect(&mut self, said: &Said, named: u8) -> Result<u32, Refused> {
        let before = self.awaited(said)?;
        let target = self.asked_for(named);
        self.tell_asked(named, target);
        allowed(rules::redirect(
            self.policy,
            said.connection.into(),
            target.into(),
        ))?;
        self.deliver(said);
        self.move_to(said.connection, before, target);
        Ok(0)
    }

    fn response(&mut self, said: &Said) -> Result<u32, Refused> {
        let pending = self.awaited(said)?;
        self.deliver(said);
        self.free(said.connection);
        let on = said.connection;
        Ok(match (said.kind, pending.kind) {
            (RecordKind::DocumentResponse { script }, _) => {
                self.run(script, pending.url, on, [0; REGISTERS])
            }
            (RecordKind::ScriptResponse { value }, PendingKind::Script { origin, handler }) => {
                self.run(handler, origin, on, with_value(value))
            }
            _ => 0,
        })
    }

    /// What the record's connection awaits, where it is this record.
    fn awaited(&self, said: &Said) -> Result<Pending, Refused> {
        let not_awaited = |why| (Refusal::NotAwaited, why);
        let pending = self
            .state
            .pending(said.connection.into())
            .ok_or(not_awaited(Why::Free))?;
        if pending.url != said.url {
            let url = pending.url.into();
            return Err(not_awaited(Why::HoldsAnother { url }));
        }
        if !answers(said.kind, pending.kind) {
            return Err(not_awaited(Why::OtherKind { pending }));
        }
        Ok(pending)
    }
}

/// Whether a record of this kind is for what is pending; a redirect is for every kind.
fn answers(record: RecordKind, pending: PendingKind) -> bool {
    match record {
        RecordKind::Load => false,
        RecordKind::Redirect { .. } => true,
        RecordKind::DocumentResponse { .. } => pending == PendingKind::Document,
        RecordKind::ScriptResponse { .. } => matches!(pending, PendingKind::Script { .. }),
        RecordKind::PictureResponse => pending == PendingKind::Picture,
    }
}

/// The registers at the start of a script that takes a value.
fn with_value(value: u32) -> [u32; REGISTERS] {
    let mut registers = [0; REGISTERS];
    registers[0] = value;
    registers
}

fn unknown_name(why: Why) -> Refused {
    (Refusal::NameUnknown, why)
}

/// The first condition that fails gives the refusal, and its lowest endpoint is told.
fn allowed(lacks: Vec<Lack>) -> Result<(), Refused> {
    match lacks.first().and_then(Lack::refusal) {
        Some(refusal) => Err((refusal, Why::Labels(lacks))),
        None => Ok(()),
    }
}
