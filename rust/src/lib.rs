//! An index of picture frames in lent 64-bit words, and workers that insert, remove or look up one key, one small step at a
//! time, so that an event loop never stalls. The code is proved; this crate is the safe door to it.
//!
//! ```
//! use pannuqreik::{words_for, Answer, Fields, Key, Table, Work, Worker};
//!
//! // a camera without leading zeros wrote 9:58, somewhere in its metadata block
//! let block = b"..2024:06:15 9:58:07\0..";
//! let moment = pannuqreik::read_text(block, 2, 19)?;
//! let key = Key::pack(Fields { moment, hundredth: 0, camera: 1, number: 101 })?;
//!
//! let mut words = [0; words_for(64)]; // 64 slots: the root, and room for 63 frames
//! let mut table = Table::fresh(&mut words)?;
//! let mut reader = Worker::new();
//! reader.start(&mut table, Work::Insert, key)?;
//! while reader.step(&mut table)? == Answer::Going {
//!     // the event loop does other things here: any number of workers take turns
//! }
//! assert_eq!(table.first(0)?, key);
//! assert_eq!(key.to_string(), "2024:06:15 09:58:07.00 camera 1 file 101");
//! # Ok::<(), pannuqreik::Refusal>(())
//! ```
mod answer;
mod key;
pub mod raw;
mod table;
mod text;
mod worker;

pub use answer::{Answer, Refusal};
pub use key::{Fields, Key, Moment};
pub use raw::{words_for, FEWEST_SLOTS, FEWEST_WORDS, MOST_SLOTS, MOST_WORDS, SLOT_WORDS};
pub use table::Table;
pub use text::{read_sub_second, read_text, write_text};
pub use worker::{Work, Worker};
