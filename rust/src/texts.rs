//! The buffers of a call, which become the texts that it gives.

use crate::error::Error;
use crate::library;

/// How many bytes a buffer has at first, beside those for the input.
const LEAST: usize = 1024;

/// Buffers for an output and for messages.
pub(crate) struct Texts {
    pub output: Vec<u8>,
    pub messages: Vec<u8>,
}

impl Texts {
    /// Returns buffers for what is made of so many bytes: more than most scores want.
    pub(crate) fn for_input(length: usize) -> Result<Texts, Error> {
        Ok(Texts {
            output: filled(length.saturating_mul(2).saturating_add(LEAST))?,
            messages: filled(LEAST)?,
        })
    }

    /// Returns whether texts of these lengths fit. Where one does not, its buffer is made anew with room for it.
    pub(crate) fn fit(&mut self, output: usize, messages: usize) -> Result<bool, Error> {
        let fits = output <= self.output.len() && messages <= self.messages.len();
        for (buffer, length) in [(&mut self.output, output), (&mut self.messages, messages)] {
            if buffer.len() < length {
                *buffer = filled(length)?;
            }
        }
        Ok(fits)
    }

    /// Returns the texts that these buffers begin with.
    pub(crate) fn take(self, output: usize, messages: usize) -> Result<(String, String), Error> {
        Ok((text_of(self.output, output)?, text_of(self.messages, messages)?))
    }
}

/// Returns so many default values, or that there is not enough memory.
pub(crate) fn filled<T: Clone + Default>(length: usize) -> Result<Vec<T>, Error> {
    let mut values = Vec::new();
    values.try_reserve_exact(length).map_err(|_| Error::NoMemory)?;
    values.resize(length, T::default());
    Ok(values)
}

/// Returns the text that `buffer` begins with, in no more memory than it wants. Every text of the library is UTF-8.
pub(crate) fn text_of(mut buffer: Vec<u8>, length: usize) -> Result<String, Error> {
    buffer.truncate(length);
    buffer.shrink_to_fit();
    String::from_utf8(buffer).map_err(|_| Error::Library(library::WHOLE))
}
