// What the two programs use: the port as a Rust program calls it, the clock, random calls and what they must answer.
pub mod calls;
pub mod clock;
pub mod example;
pub mod expected;
pub mod port;
