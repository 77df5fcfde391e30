//! What Rust asks of the engine's types that Rattle doesn't: their errors as text, and what `{:?}` shows of them.

#[cfg(feature = "std")]
use crate::{
    BufferedReader, BufferedWriter, Input, Output, ReadSource, RetryingReader, RetryingWriter, WriteSink,
};
use crate::{Characters, Forms, Machine, SinkFailed, SliceSink, SliceSource, StoredForm, TextBody, Work};
use core::error::Error;
use core::fmt::{Debug, Display, Formatter, Result};

impl Display for SinkFailed {
    fn fmt(&self, to: &mut Formatter<'_>) -> Result {
        to.write_str("sink failed")
    }
}

impl Error for SinkFailed {}

// Shows what these methods give, and no cells or bytes: there may be millions.
macro_rules! debug {
    ($($name:ident $(<$inner:ident>)?, $type:ty, $($method:ident)*;)*) => {$(
        impl $(<$inner>)? Debug for $type {
            fn fmt(&self, to: &mut Formatter<'_>) -> Result {
                to.debug_struct(stringify!($name))
                    $(.field(stringify!($method), &self.$method()))*
                    .finish_non_exhaustive()
            }
        }
    )*};
}

debug! {
    Machine, Machine<'_>, room size steps peak report;
    Work, Work<'_>, room used;
    Forms, Forms<'_>, len;
    StoredForm, StoredForm<'_>, body_len pointer;
    TextBody, TextBody<'_>,;
    Characters, Characters<'_>, len;
    SliceSource, SliceSource<'_>,;
    SliceSink, SliceSink<'_>,;
}

#[cfg(feature = "std")]
debug! {
    Input<R>, Input<R>,;
    Output<W>, Output<W>,;
    ReadSource<R>, ReadSource<R>,;
    WriteSink<W>, WriteSink<W>,;
    RetryingReader<R>, RetryingReader<R>,;
    RetryingWriter<W>, RetryingWriter<W>,;
    BufferedReader<R>, BufferedReader<R>,;
    BufferedWriter<W>, BufferedWriter<W>,;
}
