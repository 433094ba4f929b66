//! A set of preview keys in one lent region of memory, proved in Rattle and wrapped here.
//!
//! Every entry of the proved library takes any region, list and number, and refuses by number; this crate gives the
//! refusals names and the numbers types. Nothing here is `unsafe` to use.
//!
//! ```
//! use brothowl::{Card, Fields, Folder, Frame, Key, Kind, Numbers, Rollover, Set};
//!
//! let raw = Fields { card: Card(5), rollover: Rollover(0), folder: Folder(100), frame: Frame(1), kind: Kind::Raw };
//! let sidecar = Fields { kind: Kind::Sidecar, ..raw };
//! let mut cached = Set::new(Numbers::for_keys(4, 8))?; // room for four cards and eight trie nodes
//! assert!(cached.insert(Key::pack(raw)?.word())?);
//! assert!(!cached.remove(Key::pack(sidecar)?.word())?); // never cached: nothing is removed
//! assert_eq!(cached.len(), 1);
//! # Ok::<(), brothowl::Refusal>(())
//! ```
//!
//! | module | what |
//! |---|---|
//! | [`set`] | a set over owned or lent memory: insert, remove, contains, lists, iterator, operators |
//! | [`memory`] | the memory that a set owns |
//! | [`key`] | preview keys: pack and unpack |
//! | [`region`] | the entries as they stand, over slices |
//! | [`refusal`] | the refusals, by name |
#![warn(missing_docs)]
#![deny(unsafe_op_in_unsafe_fn)]

mod ffi;
pub mod key;
pub mod memory;
pub mod refusal;
pub mod region;
pub mod set;

pub use key::{Card, Fields, Folder, Frame, Key, Kind, Rollover};
pub use memory::Memory;
pub use refusal::{Field, Refusal};
pub use region::{all_members, check, combine, make, run, walk, Numbers, Operation};
pub use set::{Command, Iter, Set, Stopped};
