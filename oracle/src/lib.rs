// The original's code, brought into the build by build.rs, with document 01's exponential and logarithm in place of the
// platform's: `vmf` with counters and probes, `plain` with neither. Beside it what the lists of cases are made of;
// `timed` is the original as it is timed.
pub mod auto;
pub mod bessel;
pub mod cases;
pub mod counts;
pub mod document;
pub mod files;
pub mod leaves;
pub mod mixture;
pub mod original;
pub mod spherical;
pub mod standins;
pub mod timed;
pub mod vectors;
pub mod rng {
    include!(concat!(env!("OUT_DIR"), "/rng.rs"));
}
pub mod vmf {
    use crate::standins::Document;
    include!(concat!(env!("OUT_DIR"), "/vmf.rs"));
}
pub mod plain {
    use crate::standins::Document;
    include!(concat!(env!("OUT_DIR"), "/plain.rs"));
}
