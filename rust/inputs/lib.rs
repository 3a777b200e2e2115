// The inputs that the programs share: random numbers, edge doubles, the doubles that matter to the quantile and to the inverse error function, records of a
// journal, and logs.
// Everything is the same on every run: a generator starts from a seed that its caller gives.

pub mod doubles;
pub mod inverse;
pub mod journal;
pub mod log;
pub mod quantile;
pub mod random;
