#![doc = include_str!("../README.md")]
#![deny(missing_docs, unsafe_code, rustdoc::broken_intra_doc_links)]

mod builder;
mod call;
mod draw;
mod explain;
mod library;
mod list;
mod number;
#[allow(unsafe_code)] // the calls into the library stand there and nowhere else
pub mod raw;
mod readers;
mod refusal;
mod refused;
mod session;
mod show;
mod text;
mod types;

pub use builder::SSABuilder;
pub use call::{Call, Other, Use};
pub use library::{check, Misfit};
pub use list::List;
pub use number::{Block, Branch, Value, Variable};
pub use readers::{Destination, Row, ValueData};
pub use refusal::{Refusal, RefusedWhole};
pub use refused::{Refused, RunError};
pub use session::Session;
pub use text::ParseError;
pub use types::{Kind, Sort, Type};
