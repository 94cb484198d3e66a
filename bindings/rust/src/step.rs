//! The steps of scripts.

use crate::STEP_BYTES;

/// One step of a script: four bytes, the op and three more. What each does is described in `include/monitor.h`.
///
/// ```
/// use zolherima::Step;
///
/// let set = Step::Set { register: 1, value: 300 };
/// assert_eq!(set.bytes(), [1, 1, 1, 44]);
/// assert_eq!(Step::of([1, 1, 1, 44]), set);
///
/// // Bytes that an op does not use are ignored.
/// assert_eq!(Step::of([0, 7, 7, 7]), Step::End);
/// assert_eq!(Step::of([8, 0, 0, 0]), Step::Other { bytes: [8, 0, 0, 0] });
/// ```
#[derive(Clone, Copy, Debug, PartialEq, Eq, Hash)]
pub enum Step {
    /// The script ends.
    End,
    /// A register becomes a number.
    Set {
        /// The register, 0 to 3.
        register: u8,
        /// What it becomes.
        value: u16,
    },
    /// A register becomes the sum of two, modulo 2^32.
    Add {
        /// The register, 0 to 3, that becomes the sum.
        register: u8,
        /// One that is added, 0 to 3.
        left: u8,
        /// The other.
        right: u8,
    },
    /// A register becomes a cookie of the page's host.
    Read {
        /// The register, 0 to 3.
        register: u8,
        /// The cookie's key, 0 to 7.
        key: u8,
    },
    /// A cookie of the page's host becomes a register.
    Write {
        /// The cookie's key, 0 to 7.
        key: u8,
        /// The register, 0 to 3.
        register: u8,
    },
    /// A script request goes out.
    Request {
        /// The URL that is named, 0 to 63.
        url: u8,
        /// The connection, 0 to 31.
        connection: u8,
        /// The script that runs when the response comes, 0 to 15.
        handler: u8,
    },
    /// Steps are skipped where a register is 0.
    SkipIfZero {
        /// The register, 0 to 3.
        register: u8,
        /// How many of the steps that follow.
        steps: u8,
    },
    /// A picture request goes out.
    Picture {
        /// The URL that is named, 0 to 63.
        url: u8,
        /// The connection, 0 to 31.
        connection: u8,
    },
    /// An op above 7, at which a script ends.
    Other {
        /// The bytes of the step.
        bytes: [u8; STEP_BYTES],
    },
}

impl Step {
    /// The four bytes of the step. Those that its op does not use are 0.
    pub const fn bytes(self) -> [u8; STEP_BYTES] {
        match self {
            Step::End => [0, 0, 0, 0],
            Step::Set { register, value } => {
                let [high, low] = value.to_be_bytes();
                [1, register, high, low]
            }
            Step::Add {
                register,
                left,
                right,
            } => [2, register, left, right],
            Step::Read { register, key } => [3, register, key, 0],
            Step::Write { key, register } => [4, key, register, 0],
            Step::Request {
                url,
                connection,
                handler,
            } => [5, url, connection, handler],
            Step::SkipIfZero { register, steps } => [6, register, steps, 0],
            Step::Picture { url, connection } => [7, url, connection, 0],
            Step::Other { bytes } => bytes,
        }
    }

    /// The step that four bytes are. Bytes that its op does not use are ignored, and numbers that are out of range are kept.
    pub const fn of(bytes: [u8; STEP_BYTES]) -> Step {
        let [op, a, b, c] = bytes;
        match op {
            0 => Step::End,
            1 => Step::Set {
                register: a,
                value: u16::from_be_bytes([b, c]),
            },
            2 => Step::Add {
                register: a,
                left: b,
                right: c,
            },
            3 => Step::Read {
                register: a,
                key: b,
            },
            4 => Step::Write {
                key: a,
                register: b,
            },
            5 => Step::Request {
                url: a,
                connection: b,
                handler: c,
            },
            6 => Step::SkipIfZero {
                register: a,
                steps: b,
            },
            7 => Step::Picture {
                url: a,
                connection: b,
            },
            _ => Step::Other { bytes },
        }
    }
}
