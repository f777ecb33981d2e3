//! Loaders and writers that fail at one of their calls. Each is a wrapper of another one.

mod schedule;
mod scheduled_loader;
mod scheduled_writer;

pub use scheduled_loader::{LoadFault, ScheduledLoader};
pub use scheduled_writer::{ScheduledWriter, WriteFault};
