//! An independent second reading of document 01 and of the requests that have landed: every call of the library, written
//! from the documents alone, the cases it is compared on, and the protocol they travel in.

pub mod answers;
pub mod call;
pub mod comparison;
pub mod console;
pub mod dsqdata;
pub mod elements;
pub mod every_run;
pub mod fields;
pub mod generate;
pub mod headers;
pub mod identifiers;
pub mod index;
pub mod limits;
pub mod line;
pub mod listing;
pub mod lookup;
pub mod metadata;
pub mod nucleotides;
pub mod options;
pub mod outcome;
pub mod packets;
pub mod page;
pub mod records;
pub mod residues;
pub mod room;
pub mod runs;
pub mod sequence;
pub mod serve;
pub mod shape;
pub mod stream;
pub mod table;
pub mod values;
pub mod volume;
pub mod worked;
