//! The interpreter: a script's steps, one after another, until one of them ends it or none is left.

use crate::event::{Did, End, Event};
use crate::lack::Lack;
use crate::machine::Machine;
use crate::rules;
use zolherima::{Pending, PendingKind, Step, CONNECTIONS, KEYS, REGISTERS, SCRIPTS};

/// A script that runs.
struct Run<'m, 'a> {
    machine: &'m mut Machine<'a>,
    script: u8,
    page: u8,
    /// The host of the page, whose cookies are read and written.
    host: u32,
    /// The connection of the response, whose sets decide.
    running_on: u8,
    registers: [u32; REGISTERS],
    place: u32,
    steps: u32,
}

/// What comes of a step that does not end the script by itself.
enum Met {
    Done { did: Did, skipped: u32 },
    Asked(Asked),
}

/// A request of step 5 or 7 whose fields are in range, and why it is not allowed, where it is not.
struct Asked {
    named: u8,
    connection: u8,
    pending: Pending,
    lacks: Vec<Lack>,
}

impl Machine<'_> {
    /// Runs a script to its end; how many steps were met.
    pub fn run(
        &mut self,
        script: u8,
        page: u8,
        running_on: u8,
        registers: [u32; REGISTERS],
    ) -> u32 {
        self.events.push(Event::ScriptStarted {
            script: script.into(),
            page: page.into(),
            connection: running_on.into(),
            registers,
        });
        let mut run = Run {
            script,
            page,
            host: self.host(page),
            running_on,
            registers,
            place: 0,
            steps: 0,
            machine: self,
        };
        let why = run.until_it_ends();
        let steps = run.steps;
        self.events.push(Event::ScriptEnded { steps, why });
        steps
    }
}

impl Run<'_, '_> {
    fn until_it_ends(&mut self) -> End {
        while let Some(step) = self.step_here() {
            self.steps += 1;
            if let Some(why) = self.meet(step) {
                return why;
            }
        }
        End::PastTheLast
    }

    fn step_here(&self) -> Option<Step> {
        let bytes = self.machine.scripts.step(self.script.into(), self.place)?;
        Some(Step::of(bytes))
    }

    /// Runs one step and goes past it; the end, where it is one.
    fn meet(&mut self, step: Step) -> Option<End> {
        let met = self.run_step(step);
        self.machine.events.push(Event::StepRan {
            place: self.place,
            step,
            did: did(&met),
            registers: self.registers,
        });
        match met {
            Ok(Met::Done { skipped, .. }) => self.go_on(skipped),
            Ok(Met::Asked(asked)) => self.ask(asked),
            Err(why) => Some(why),
        }
    }

    fn run_step(&mut self, step: Step) -> Result<Met, End> {
        match step {
            Step::End => Err(End::Step0 { place: self.place }),
            Step::Set { register, value } => self.set(register, value.into()),
            Step::Add {
                register,
                left,
                right,
            } => self.add(register, left, right),
            Step::Read { register, key } => self.read(register, key),
            Step::Write { key, register } => self.write(key, register),
            Step::Request {
                url,
                connection,
                handler,
            } => self.request(url, connection, handler),
            Step::SkipIfZero { register, steps } => self.skip_if_zero(register, steps),
            Step::Picture { url, connection } => {
                self.asked(url, connection, |_| Ok(PendingKind::Picture))
            }
            Step::Other { bytes: [op, ..] } => Err(End::UnknownOp {
                place: self.place,
                op: op.into(),
            }),
        }
    }

    fn set(&mut self, register: u8, value: u32) -> Result<Met, End> {
        let place = self.register(register)?;
        self.registers[place] = value;
        Ok(done(Did::Set {
            register: register.into(),
            value,
        }))
    }

    fn add(&mut self, register: u8, left: u8, right: u8) -> Result<Met, End> {
        self.register(register)?;
        let left = self.registers[self.register(left)?];
        let right = self.registers[self.register(right)?];
        self.set(register, left.wrapping_add(right))
    }

    fn read(&mut self, register: u8, key: u8) -> Result<Met, End> {
        let to = self.register(register)?;
        let key = self.key(key)?;
        let place = self.place;
        let lacks = rules::read(self.machine.policy, self.running_on.into(), self.host, key);
        if !lacks.is_empty() {
            return Err(End::NotAllowed { place, lacks });
        }
        let cookie = self.machine.state.cookie(self.host, key);
        let value = cookie.ok_or(End::NoCookie { place, key })?;
        self.registers[to] = value;
        Ok(done(Did::Read {
            register: register.into(),
            key,
            value,
        }))
    }

    fn write(&mut self, key: u8, register: u8) -> Result<Met, End> {
        let key = self.key(key)?;
        let value = self.registers[self.register(register)?];
        let lacks = rules::write(self.machine.policy, self.running_on.into(), self.host, key);
        if !lacks.is_empty() {
            return Ok(done(Did::PassedOver { key, value, lacks }));
        }
        let before = self.machine.state.cookie(self.host, key);
        self.machine.set_cookie(self.host, key, value);
        Ok(done(Did::Wrote { key, value, before }))
    }

    fn skip_if_zero(&mut self, register: u8, steps: u8) -> Result<Met, End> {
        if self.registers[self.register(register)?] != 0 {
            return Ok(done(Did::Nothing));
        }
        let steps = steps.into();
        Ok(Met::Done {
            did: Did::Skipped { steps },
            skipped: steps,
        })
    }

    fn request(&mut self, url: u8, connection: u8, handler: u8) -> Result<Met, End> {
        let origin = self.page;
        self.asked(url, connection, |run| {
            run.in_range("handler", handler, SCRIPTS)?;
            Ok(PendingKind::Script { origin, handler })
        })
    }

    /// A request whose kind, where that has a field, is looked at after URL and connection.
    fn asked(
        &self,
        named: u8,
        connection: u8,
        kind: impl Fn(&Self) -> Result<PendingKind, End>,
    ) -> Result<Met, End> {
        let policy = self.machine.policy;
        if policy.url(named.into()).is_none() {
            return Err(self.out_of_range("URL", named));
        }
        self.in_range("connection", connection, CONNECTIONS)?;
        let kind = kind(self)?;
        let url = self.machine.asked_for(named);
        let lacks = rules::request(
            policy,
            self.running_on.into(),
            url.into(),
            connection.into(),
        );
        Ok(Met::Asked(Asked {
            named,
            connection,
            pending: Pending { kind, url },
            lacks,
        }))
    }

    /// Opens the connection and sends the request, or ends the script where it is not allowed.
    fn ask(&mut self, asked: Asked) -> Option<End> {
        self.machine.tell_asked(asked.named, asked.pending.url);
        if !asked.lacks.is_empty() {
            return Some(End::NotAllowed {
                place: self.place,
                lacks: asked.lacks,
            });
        }
        self.machine.open(asked.connection, asked.pending);
        self.go_on(0)
    }

    fn go_on(&mut self, skipped: u32) -> Option<End> {
        self.place += 1 + skipped;
        None
    }

    fn register(&self, register: u8) -> Result<usize, End> {
        self.in_range("register", register, REGISTERS)?;
        Ok(register.into())
    }

    fn key(&self, key: u8) -> Result<u32, End> {
        self.in_range("key", key, KEYS)?;
        Ok(key.into())
    }

    fn in_range(&self, what: &'static str, number: u8, count: usize) -> Result<(), End> {
        if usize::from(number) < count {
            Ok(())
        } else {
            Err(self.out_of_range(what, number))
        }
    }

    fn out_of_range(&self, what: &'static str, number: u8) -> End {
        End::OutOfRange {
            place: self.place,
            what,
            number: number.into(),
        }
    }
}

fn done(did: Did) -> Met {
    Met::Done { did, skipped: 0 }
}

fn did(met: &Result<Met, End>) -> Did {
    match met {
        Ok(Met::Done { did, .. }) => did.clone(),
        Ok(Met::Asked(asked)) if asked.lacks.is_empty() => Did::Requested,
        Ok(Met::Asked(_)) | Err(_) => Did::Nothing,
    }
}
