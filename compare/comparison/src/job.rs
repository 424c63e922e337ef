//! What the directed and exhaustive cases hand to the threads.

use crate::report::Bench;

/// A piece of work that needs no random numbers.
pub type Job = Box<dyn Fn(&mut Bench<'_>) + Send + Sync>;
