// Generated from crates/trac_devices/src/lib.rt by hosts/rust/generate, and never edited.
//! What a machine reads from and writes to: sources and sinks over memory, over a reader and over a writer,
//! with buffers and without. That they report their failures, and what each does after one, is this
//! processor's own choice.

#[cfg(feature = "std")]
mod buffered;
mod characters;
#[cfg(feature = "std")]
mod counted;
mod device;
mod digits;
#[cfg(feature = "std")]
mod input;
#[cfg(feature = "std")]
mod output;
#[cfg(feature = "std")]
mod read_source;
#[cfg(feature = "std")]
mod retrying;
mod slice_sink;
mod slice_source;
#[cfg(feature = "std")]
mod write_sink;

#[cfg(feature = "std")]
pub use buffered::{BufferedReader, BufferedWriter};
pub use characters::{Characters, write_characters};
pub use device::{Next, Sink, SinkFailed, Source};
pub use digits::decimal_len;
#[cfg(feature = "std")]
pub use input::Input;
#[cfg(feature = "std")]
pub use output::Output;
#[cfg(feature = "std")]
pub use read_source::ReadSource;
#[cfg(feature = "std")]
pub use retrying::{RetryingReader, RetryingWriter, TRIES};
pub use slice_sink::SliceSink;
pub use slice_source::SliceSource;
#[cfg(feature = "std")]
pub use write_sink::WriteSink;
