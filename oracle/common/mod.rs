// What the drivers share.
pub mod bits;
pub mod block_call;
pub mod counts;
pub mod dice;
pub mod header;
pub mod header_call;
pub mod heading;
pub mod macroblock_call;
pub mod numbers;
pub mod sentence;
pub mod setting;
pub mod smallest;
pub mod stopped;
pub mod symbol_call;
pub mod tally;
pub mod test;
pub mod whole_call;
