//! The text language for policies, scripts and sessions, as `docs/LANGUAGE.md` has it: a text is [parsed](parse) to a [`Plan`], in which every name
//! is resolved, and a plan [compiled](compile) to what walk reads. What is wrong with a text is told in [`Diagnostic`]s, which are [rendered](render)
//! with the line. [`show`] makes a text of words and bytes, and [`Names`] tells by which names all that is printed goes.
//!
//! ```
//! let text = b"host canteen\nconnection shop\n  readers http cantene\n  writers nobody\n";
//! let told = policy_text::parse(text).unwrap_err();
//! let shown = policy_text::render(&told[0], "post.policy", text);
//! assert!(shown.starts_with("error: there is no host `cantene`\n --> post.policy:3:16\n"));
//!
//! let plan = policy_text::parse(b"host canteen always https\n")?;
//! assert!(policy_text::builder(&plan).build().unwrap().is_always_https(0));
//! # Ok::<(), Vec<policy_text::Diagnostic>>(())
//! ```

#![warn(missing_docs)]

mod compile;
mod diagnostic;
mod errors;
mod kind;
mod lex;
mod names;
mod nearest;
mod numbering;
mod parse;
mod plan;
mod render;
mod resolve;
mod show;
mod span;
mod words;

pub use compile::{builder, compile, scripts, FIRST_RECORD, POLICY_BYTES, WALK_BYTES};
pub use diagnostic::{Diagnostic, Level};
pub use names::Names;
pub use parse::{parse, TEXT_BYTES};
pub use plan::{Connection, Cookie, Host, Named, Plan, RecordLine, Script, Url};
pub use render::render;
pub use show::show;
pub use span::{Clause, Span};
