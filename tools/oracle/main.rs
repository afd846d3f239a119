//! The oracle: the Rust of the documents' folder, with shims for what its modules lean on. `build` beside this file compiles it.
//!
//!     oracle make MODULE SEED COUNT     cases with the Rust's answers, to standard output
//!     oracle distance A B               how far the first answers (floats) of two files of cases lie apart
//!     oracle listings A B               the same of two files of pass files with their listings
//!     oracle trace_links SEED COUNT     what whole links show after each call, to standard output
//!     oracle trace_pass                 the same of the pass file on standard input
//!     oracle apart A B                  how far two builds' traces lie apart
//!     oracle demand3 SEED COUNT         looks for a list that breaks demand 3 among so many calls
//!     oracle zero_sizes SIZE            the user's failure: the first half second's packets have this size
//!     oracle entries                    how far the growth table lies from this machine's `powf`
//!     oracle passes SEED COUNT SIZE     pass files with the Rust's listings, to standard output; SIZE is short, long or longer
//!     oracle case ROOM                  the same of the pass file on standard input, with an output of ROOM bytes; ROOM may be enough
//!     oracle lent SEED CALLS            calls on lent links with the Rust's answers and its state after each, to standard output
//!     oracle lent_paths SEED CALLS      how often those calls take which path
//!     oracle feedback SEED COUNT        feedback messages with document 02's answers, to standard output; the Rust's are held to a model of where it parts from them
//!     oracle feedback_counts SEED COUNT how often those messages get which answer, and which part of the Rust's changes it
//!     oracle feedback_real              the messages of samples/feedback.jsonl on standard input with the file's own readings, to standard output
//!     oracle feedback_differences       where the Rust's reading parts from document 02's, as rows of a table
//!     oracle limits KIND                cases at each limit and beside it; KIND is modules, links, passes (pass files), files (their lengths and outputs) or feedback (messages)
//!     oracle list                       as passrun: the listing of the pass file on standard input, or the number of the question that it fails
//!
//! A case is 12 words of 8 bytes, little-endian: an operation, 5 inputs, 6 answers. drive.rs has the operations, make.rs the cases.
#[macro_export]
macro_rules! log_stat {
    ($($arg:tt)*) => {};
}

macro_rules! trace {
    ($($arg:tt)*) => {};
}

macro_rules! warn {
    ($($arg:tt)*) => {};
}

mod bandwidth;
pub use bandwidth::Bitrate;

mod table;

/// What stands in for `powf(1.08, seconds)`: the table at whole ms, at most 1,000.
pub fn growth_factor(since: std::time::Duration) -> f64 {
    f64::from_bits(table::FACTORS[(since.as_millis() as usize).min(1000)])
}

mod rtp_ {
    pub use crate::bandwidth::{Bitrate, DataSize};

    #[derive(Debug, Clone, Copy, PartialEq, Eq, PartialOrd, Ord)]
    pub struct TwccSeq(pub u64);

    impl TwccSeq {
        pub fn inc(&mut self) -> TwccSeq {
            self.0 += 1;
            TwccSeq(self.0 - 1)
        }
    }

    impl From<u64> for TwccSeq {
        fn from(v: u64) -> Self {
            TwccSeq(v)
        }
    }

    impl std::fmt::Display for TwccSeq {
        fn fmt(&self, f: &mut std::fmt::Formatter<'_>) -> std::fmt::Result {
            self.0.fmt(f)
        }
    }

    impl std::ops::Deref for TwccSeq {
        type Target = u64;

        fn deref(&self) -> &u64 {
            &self.0
        }
    }

    #[derive(Debug, Clone, Copy, PartialEq, Eq)]
    pub struct TwccClusterId(pub u64);
}

mod rtcp;

mod average;

mod util {
    pub use crate::average::MovingAverage;
    use std::sync::LazyLock;
    use std::time::{Duration, Instant};

    static START: LazyLock<Instant> = LazyLock::new(|| Instant::now() + Duration::from_secs(10_000));

    /// Instant 0 of the cases.
    pub fn zero() -> Instant {
        *START
    }

    /// An hour before instant 0: before the first report its age is over any limit.
    pub fn already_happened() -> Instant {
        zero() - Duration::from_secs(3600)
    }
}

mod bwe {
    use crate::rtp_::{Bitrate, DataSize, TwccSeq};
    use std::cmp::Ordering;
    use std::fmt;
    use std::time::{Duration, Instant};

    mod acked_bitrate_estimator;
    mod macros;
    mod time;

    pub mod delay {
        pub mod arrival_group;
        pub mod control;
        pub mod rate_control;
        pub mod trendline;
    }

    include!("items.rs");

    pub mod drive;
    pub mod link;
    pub mod pass;
}

mod apart;
#[cfg(bench)]
mod bench;
mod demand3;
mod distance;
mod feedback;
#[cfg(bench)]
mod feedback_bench;
mod feedback_limits;
mod feedback_make;
mod feedback_real;
mod lent;
mod lent_make;
mod lent_state;
mod limits;
mod limits_calls;
mod longer;
mod make;
mod pass_files;

fn main() {
    let words: Vec<String> = std::env::args().collect();
    match words.get(1).map(String::as_str) {
        Some("make") if words.len() == 5 => make::make(&words[2], words[3].parse().unwrap(), words[4].parse().unwrap()),
        Some("distance") if words.len() == 4 => distance::distance(&words[2], &words[3]),
        Some("listings") if words.len() == 4 => distance::listings(&words[2], &words[3]),
        Some("trace_links") if words.len() == 4 => apart::trace_links(words[2].parse().unwrap(), words[3].parse().unwrap()),
        Some("trace_pass") if words.len() == 2 => apart::trace_pass(),
        Some("apart") if words.len() == 4 => apart::apart(&words[2], &words[3]),
        Some("demand3") if words.len() == 4 => demand3::demand3(words[2].parse().unwrap(), words[3].parse().unwrap()),
        Some("zero_sizes") if words.len() == 3 => bwe::link::zero_sizes(words[2].parse().unwrap()),
        Some("entries") if words.len() == 2 => distance::entries(),
        Some("lent") if words.len() == 4 => lent::make(words[2].parse().unwrap(), words[3].parse().unwrap()),
        Some("lent_paths") if words.len() == 4 => lent::paths(words[2].parse().unwrap(), words[3].parse().unwrap()),
        Some("feedback") if words.len() == 4 => feedback::make(words[2].parse().unwrap(), words[3].parse().unwrap()),
        Some("feedback_counts") if words.len() == 4 => feedback::counts(words[2].parse().unwrap(), words[3].parse().unwrap()),
        Some("feedback_real") if words.len() == 2 => feedback_real::real(),
        Some("feedback_differences") if words.len() == 2 => feedback_real::differences(),
        Some("list") if words.len() == 2 => pass_files::list(),
        Some("passes") if words.len() == 5 => pass_files::make(words[2].parse().unwrap(), words[3].parse().unwrap(), &words[4]),
        Some("case") if words.len() == 3 => pass_files::case(&words[2]),
        Some("limits") if words.len() == 3 => match words[2].as_str() {
            "modules" => limits::modules(),
            "links" => limits_calls::links(),
            "passes" => limits_calls::passes(),
            "files" => limits_calls::lengths(),
            "feedback" => feedback_limits::feedback(),
            _ => panic!("no such kind"),
        },
        #[cfg(bench)]
        Some("bench") if words.len() == 4 => {
            let (processes, rounds) = (words[2].parse().unwrap(), words[3].parse().unwrap());
            bench::bench(processes, rounds);
            feedback_bench::bench(processes, rounds);
        }
        #[cfg(bench)]
        Some("times") if words.len() == 3 => bench::times(words[2].parse().unwrap()),
        #[cfg(bench)]
        Some("feedback_bench") if words.len() == 4 => feedback_bench::bench(words[2].parse().unwrap(), words[3].parse().unwrap()),
        #[cfg(bench)]
        Some("feedback_times") if words.len() == 3 => feedback_bench::times(words[2].parse().unwrap()),
        #[cfg(bench)]
        Some("turns") if words.len() == 5 => bench::turns(&words[2], &words[3], words[4].parse().unwrap()),
        _ => {
            eprintln!("usage: oracle make MODULE SEED COUNT | distance A B | listings A B | trace_links SEED COUNT | trace_pass | apart A B | demand3 SEED COUNT | zero_sizes SIZE | entries | passes SEED COUNT SIZE | case ROOM | feedback SEED COUNT | feedback_counts SEED COUNT | feedback_real | feedback_differences | limits KIND | lent SEED CALLS | lent_paths SEED CALLS | list");
            std::process::exit(2);
        }
    }
}
