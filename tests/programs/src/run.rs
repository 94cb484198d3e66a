//! Runs of a program that takes arguments.

use std::io;

use cases::Random;

use crate::input::{Input, Parts};
use crate::program::{Arrival, Program};
use crate::suite::Checked;
use crate::verdict;

/// What a program is given. No argument has a zero byte.
pub struct Run {
    pub arguments: Vec<Vec<u8>>,
    pub input: Vec<u8>,
}

impl Run {
    /// Held to what it should print, or to a complaint where that is nothing. So many columns are for what is not run; the one behind them counts runs.
    pub fn check(
        &self,
        printed: Option<String>,
        records: u64,
        columns: usize,
        program: &Program,
        arrival: Arrival,
    ) -> io::Result<Checked> {
        let ran = program(&self.arguments, &self.input, arrival)?;
        let verdict = match &printed {
            Some(expected) => verdict::judge(expected, &ran),
            None => verdict::judge_complaint(&ran),
        };
        let mut more = vec![0; columns + 1];
        more[columns] = 1;
        Ok(Checked {
            verdict,
            expected: printed.unwrap_or_default(),
            found: ran.stdout,
            records,
            more,
        })
    }
}

impl Input for Run {
    /// Arguments are parted by zero bytes, as `xargs -0` reads them.
    fn parts(&self) -> Parts<'_> {
        vec![
            ("arguments", self.arguments.join(&0).into()),
            ("input", (&self.input).into()),
        ]
    }
}

/// Where an input is laid for the library, and how it reaches the program.
pub struct Draw {
    pub place: u64,
    pub arrival: Arrival,
}

impl Draw {
    pub fn random(random: &Random) -> Draw {
        Draw {
            place: random.bits(),
            arrival: Arrival::random(random),
        }
    }
}

/// Of a run, where the program is not tested.
pub fn left_out(columns: usize) -> Checked {
    Checked {
        verdict: Ok(()),
        expected: String::new(),
        found: Vec::new(),
        records: 0,
        more: vec![0; columns + 1],
    }
}
