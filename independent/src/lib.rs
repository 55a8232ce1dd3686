//! An independent reading of document 01: a reader, a simplifier and a writer for lift condition blocks.
//! Plain lists and exact numbers, in document 01's order and words; slow where that is simpler.

// "Signs"
pub mod signs;

// Signs of monomials and polynomials, and "Normal form"
pub mod polynomial;

// A formula as a tree of AND, OR and atoms
pub mod tree;

// "The block" and "Refusal numbers"
pub mod block;

// Deductions, rounds and tries, counted
pub mod count;

// "Deducing p from q"
pub mod deduce;

// "Deducing p from q" with single values of t, for a person (document 02, #110)
pub mod plain;

// Two atoms at once (document 02, #111)
pub mod two_atoms;

// "Rounds over a list of atoms joined by AND"
pub mod rounds;

// "A level"
pub mod level;

// Bytes in, verdict and bytes out; "The program"
pub mod answer;

// "Conditions with known results"
pub mod cases;

// When a formula holds: what answers are checked against
pub mod meaning;

// Numbers from a seed, and what is made with them: corpora, and the self-check
pub mod check;
pub mod corpus;
pub mod random;

// The fixed edge blocks, and those that only edition 2 can have
pub mod edge;
pub mod pairs;

// Request #109: a block in the other edition
pub mod convert;

// Blocks whose polynomials in are known
pub mod uses;

// The claims that the book is held to
pub mod book;

// Deductions and lists of atoms, for the inner functions
pub mod engine;

// The blocks that the cost is measured on
pub mod bench;
pub mod search;
pub mod together;

// A formula as other solvers read it
pub mod smt;

// Request #112: a script for the makers' tools, written and read; and texts to read
pub mod script;
pub mod scripts;

// Request #102: a block run on readings
pub mod evaluate;

// Loading that a power cut cannot hurt
pub mod loading;

// Request #113: a pool of polynomials for a release
pub mod pool;

// Request #106: why is the clause gone?
pub mod why;
