// Stands in for the crate root, src/lib.rs of CBL.
// Certain: the module names. The published root also names cbl, kmer and necklace,
// which are no part of the word set and whose source is not here.
// Ours: the modules are public, so that the driver can reach every layer,
// and `probe` looks at containers without changing them.
#![allow(incomplete_features)]
#![feature(generic_const_exprs)]

pub mod bitvector;
pub mod ffi;
pub mod probe;
pub mod sliced_int;
pub mod trie;
pub mod trievec;
pub mod wordset;
