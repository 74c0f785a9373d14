//! Reads CIF files through `libchuntarek.a`, a library that is proved to follow its rules.
//!
//! [`Document::read`] is the way in for most programs: it reads a text and keeps its records.
//!
//! ```
//! use chuntarek::{Document, Kind};
//!
//! let document = Document::read(b"data_t\n_a 1.50(2)\nloop_ _b _c\nx ?\n")?;
//! for record in document.records() {
//!     match record.kind {
//!         Kind::Tag | Kind::LoopTag => println!("tag {}", record.text().unwrap_or_default()),
//!         Kind::Number | Kind::Uncertain => println!("number {}", record.decimal.unwrap_or_default()),
//!         _ => {}
//!     }
//! }
//! document.check_names()?;
//! assert_eq!(document.render()?, b"data_t\n_a\n1.50(2)\nloop_\n_b\n_c\nx\n?\n");
//! # Ok::<(), chuntarek::Refusal>(())
//! ```
//!
//! A file may be read by the standard's own rules too ([`Reading::Strict`]), which take several blocks:
//!
//! ```
//! use chuntarek::{Document, Reading};
//!
//! let document = Document::read_as(Reading::Strict, b"data_x _a 'a dog's life' data_y _a 1")?;
//! let value = document.records().nth(2).and_then(|record| record.text());
//! assert_eq!(value, Some("a dog's life"));
//! # Ok::<(), chuntarek::Refusal>(())
//! ```
//!
//! What changed from one document to another ([`Document::compare`]), numbers as exact decimals:
//!
//! ```
//! use chuntarek::{Case, Document};
//!
//! let monday = Document::read(b"data_x _cell_length_a 5.661(2) _cell_angle_beta 90")?;
//! let tuesday = Document::read(b"data_x _cell_length_a 5.658(2) _cell_angle_beta 90.0")?;
//! for entry in monday.compare(&tuesday)? {
//!     let [old, new] = [entry.old, entry.new].map(|value| value.and_then(|value| value.record.decimal));
//!     match entry.case {
//!         Case::Rewritten => {} // 90 and 90.0 are the same number
//!         case => println!("{case:?}: {} became {}", old.unwrap_or_default(), new.unwrap_or_default()),
//!     }
//! }
//! # Ok::<(), chuntarek::Refusal>(())
//! ```
//!
//! Below it stand the library's own services over lent slices, for programs that keep their buffers
//! themselves: [`read`], [`outline`], [`render`], [`names`], [`compare`], [`content`] and [`record_at`].
//! Each takes the [`Reading`] first. Their answers are those of the header `chuntarek.h`.

#![cfg_attr(
    not(test),
    deny(
        clippy::unwrap_used,
        clippy::expect_used,
        clippy::panic,
        clippy::indexing_slicing
    )
)]

mod answer;
mod case;
mod decimal;
mod document;
mod entries;
mod foreign;
mod incomparable;
mod reading;
mod reason;
mod record;
mod refusal;
mod services;
mod value;

pub use answer::Answer;
pub use case::Case;
pub use decimal::Decimal;
pub use document::{Document, Records};
pub use entries::{Entries, Entry};
pub use incomparable::{Incomparable, Side};
pub use reading::Reading;
pub use reason::Reason;
pub use record::{Kind, Place, Record};
pub use refusal::{number, Refusal};
pub use services::{compare, content, names, outline, read, record_at, render, ENTRY_LENGTH};
pub use value::Value;

/// The most bytes of a text that is read, and of a text that is rendered.
pub const TEXT_LIMIT: usize = 16_777_216;

/// The example of the README, tried as the examples above are.
#[cfg(doctest)]
#[doc = include_str!("../../../README.md")]
struct Readme;
