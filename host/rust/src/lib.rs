//! Proved block lists for a Rust host.
//!
//! Up to eight workers hand fixed blocks of one page of memory to each other through lists that are linked inside the
//! blocks: their own lists, a shared list S, and a tagged list T. What each call does is proved of the archive that
//! this crate links (`tools/build archive`); the rules are docs/RULES.md of the repository, cited here as document 01.
//!
//! [`Page`] is the safe face: it owns or borrows its words, and nothing that a caller hands in is undefined. Every
//! call has an answer for every input; a refusal changes nothing. [`ffi`] has the same calls over plain words.
//!
//! # Example
//!
//! Worker 1 pushes block 9 on the shared list; worker 0 takes the list, puts it before its own and pops the block.
//!
//! ```
//! use albmerik::{Answer, Page, Refusal, Request};
//!
//! let mut page = Page::fresh(63, 4, 8)?;
//! page.entry_mut(9)?.copy_from_slice(&[70, 71, 72]);
//!
//! // A push is started by its request and takes three moves: load, write, exchange.
//! assert_eq!(page.request(1, Request::PushShared { block: 9 }), Answer::UnderWay);
//! assert_eq!(page.make_move(1, false), Answer::UnderWay);
//! assert_eq!(page.make_move(1, false), Answer::UnderWay);
//! assert_eq!(page.make_move(1, false), Answer::Done(0));
//! assert_eq!(page.entry(9), Err(Refusal::Listed));
//!
//! assert_eq!(page.request(0, Request::TakeShared), Answer::UnderWay);
//! assert_eq!(page.make_move(0, false), Answer::UnderWay);
//! assert_eq!(page.make_move(0, false), Answer::Done(9));
//! assert_eq!(page.request(0, Request::Append), Answer::Done(1));
//! assert_eq!(page.request(0, Request::Pop), Answer::Done(9));
//! assert_eq!(page.entry(9)?, [70, 71, 72]);
//! # Ok::<(), Refusal>(())
//! ```

#![deny(unsafe_code)]
#![warn(missing_docs)]

mod answer;
mod event;
pub mod ffi;
mod page;

pub use answer::{Answer, Refusal};
pub use event::{Event, Request};
pub use page::Page;
