//! Arrays and streams of the Arrow C interfaces, made by hand and compared with plain loops.
mod blocks;
mod cells;
mod changing;
mod checker;
mod dictionary;
mod export;
mod flags;
mod formats;
mod honest;
mod hostile;
#[cfg(target_pointer_width = "64")]
mod huge;
mod import;
mod made;
mod malformed;
#[cfg(not(miri))]
mod memory;
mod nested;
mod offsets;
#[cfg(feature = "std")]
mod panics;
mod parts;
mod plain;
mod plugin;
mod predicates;
mod ranges;
mod raw;
mod refused;
mod released;
mod select;
mod shared;
mod sizes;
mod stream;
mod strict;
mod texts;
mod unseen;
mod unselected;
mod walks;
