//! The picture of a score.

use crate::error::Error;
use crate::library;
use crate::texts::{filled, text_of};

/// How many bytes a picture has room for at first, for each byte of the score, and beside these:
/// more than most want, since a second call draws the score again.
const TIMES: usize = 40;
const LEAST: usize = 4096;
/// How many bytes it has room for at most, at first.
const MOST: usize = 1 << 26;

/// Which messages stand in a picture, each at its place.
#[derive(Clone, Copy, Debug, Default, PartialEq, Eq, Hash)]
#[non_exhaustive]
pub enum ShownMessages {
    /// None.
    #[default]
    None,
    /// Errors and fatal faults.
    Errors,
    /// All: warnings too.
    All,
}

/// The options of a picture. The default is the usual width, with no messages.
///
/// # Examples
///
/// ```
/// use gregorio_chant::{PictureOptions, ShownMessages};
///
/// let options = PictureOptions::default().with_width(36_000).with_messages(ShownMessages::All);
/// assert_eq!((options.width, options.messages), (Some(36_000), ShownMessages::All));
/// ```
#[derive(Clone, Copy, Debug, Default, PartialEq, Eq, Hash)]
#[non_exhaustive]
pub struct PictureOptions {
    /// The width in thousandths of a staff space; one below 12,000 counts as 12,000. The usual
    /// one, for `None`, is 72,000.
    pub width: Option<u32>,
    /// Which messages stand in the picture.
    pub messages: ShownMessages,
}

impl PictureOptions {
    /// Returns these options with this `width`, in thousandths of a staff space.
    #[must_use]
    pub fn with_width(self, width: u32) -> PictureOptions {
        PictureOptions {
            width: Some(width),
            ..self
        }
    }

    /// Returns these options with these `messages`.
    #[must_use]
    pub fn with_messages(self, messages: ShownMessages) -> PictureOptions {
        PictureOptions { messages, ..self }
    }
}

/// Reads `score` under the default limits, and returns its picture, as SVG. The outlines of notes
/// and signs are references by their names, as `#punctum`: `docs/PICTURES.md` of the project says
/// where the outlines are had.
///
/// # Errors
///
/// [`Error::NoMemory`], and [`Error::Library`] if the library is of another version, and refuses
/// the options.
///
/// # Examples
///
/// ```
/// use gregorio_chant::{draw, PictureOptions};
///
/// let picture = draw("name: Kyrie;\n%%\n(c4) Ky(f)ri(gfg)", &PictureOptions::default())?;
/// assert!(picture.starts_with("<svg ") && picture.contains("<title>Kyrie</title>"));
/// assert!(picture.contains("<use href=\"#punctum\""));
/// # Ok::<(), gregorio_chant::Error>(())
/// ```
pub fn draw(score: impl AsRef<[u8]>, options: &PictureOptions) -> Result<String, Error> {
    let score = score.as_ref();
    let room = score.len().saturating_mul(TIMES).saturating_add(LEAST);
    let mut picture = filled(room.min(MOST))?;
    loop {
        let mut count = 0;
        match library::draw(options, score, &mut picture, &mut count) {
            library::WHOLE if count <= picture.len() => return text_of(picture, count),
            library::WHOLE => picture = filled(count)?,
            library::NO_MEMORY => return Err(Error::NoMemory),
            other => return Err(Error::Library(other)),
        }
    }
}
