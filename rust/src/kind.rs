//! What the nodes of a tree are.

/// Declares the kinds with their numbers, and the way back from a number.
macro_rules! kinds {
    ($($(#[$what:meta])* $name:ident = $number:literal,)*) => {
        /// What a node of a [`Tree`](crate::Tree) is.
        #[derive(Clone, Copy, Debug, PartialEq, Eq, PartialOrd, Ord, Hash)]
        #[non_exhaustive]
        pub enum Kind {
            $($(#[$what])* $name = $number,)*
        }

        impl Kind {
            /// Returns the kind with this number.
            pub(crate) fn with_number(number: u16) -> Option<Kind> {
                match number {
                    $($number => Some(Kind::$name),)*
                    _ => None,
                }
            }
        }
    };
}

kinds! {
    /// The whole input.
    File = 0,
    /// A header, with its `;`.
    Header = 1,
    /// The name of a header.
    HeaderName = 2,
    /// The value of a header.
    HeaderValue = 3,
    /// A header or a line of the headers that is left out.
    HeaderLeftOut = 4,
    /// A comment in the headers, from its `%` to the line's end.
    HeaderComment = 5,
    /// The `%%` that ends the headers.
    ScoreLine = 6,
    /// A text with its notes in parentheses.
    Syllable = 7,
    /// Characters of a text, one after the other, all in the same styles.
    Characters = 8,
    /// A character that a `$` makes plain, with its `$`.
    Escape = 9,
    /// A blank of a text.
    TextBlank = 10,
    /// A raw part of a text with its tags, as `<sp>V/</sp>`.
    Raw = 11,
    /// A tag that is not known.
    Tag = 12,
    /// A tag that opens or closes the span of `eu` or `nlba`.
    SpanMark = 13,
    /// A tag that opens or closes a style.
    StyleTag = 14,
    /// A centring brace.
    Brace = 15,
    /// A translation with its brackets.
    Translation = 16,
    /// What stands between two of the marks `(`, `|` and `)`: GABC or a line of NABC.
    Snippet = 17,
    /// A neume of one or more notes.
    Glyph = 18,
    /// A note.
    Note = 19,
    /// A flat, a natural or a sharp.
    Alteration = 20,
    /// A clef, or two joined by `@`.
    Clef = 21,
    /// A bar.
    Bar = 22,
    /// A space between notes.
    Spacing = 23,
    /// A custos.
    Custos = 24,
    /// A line break.
    LineBreak = 25,
    /// A text in brackets, as `[nm1]`.
    Attribute = 26,
    /// An `@`, `@[` or `]`.
    Fusion = 27,
    /// A descriptor of NABC: glyphs with their points and letters.
    Descriptor = 28,
    /// A space of NABC.
    NabcSpace = 29,
    /// A glyph of a descriptor.
    NabcGlyph = 30,
    /// Subpuncta or prepuncta of a descriptor.
    NabcPoints = 31,
    /// Significant or tironian letters of a descriptor.
    NabcLetters = 32,
    /// A comment of the body, from its `%` to the line's end.
    Comment = 33,
    /// A character that is left out.
    LeftOut = 34,
    /// Blanks after one that is kept, and blanks of NABC.
    FurtherBlank = 35,
    /// A U+FEFF, or the LF directly after a CR.
    Silent = 36,
    /// What is not read after a fatal fault.
    Unread = 37,
}

impl Kind {
    /// Returns its number in C, which never changes.
    #[must_use]
    pub fn number(self) -> u16 {
        self as u16
    }

    /// Returns whether what is of this kind is not kept of a text or of notes.
    #[must_use]
    pub fn is_not_kept(self) -> bool {
        matches!(
            self,
            Kind::HeaderComment | Kind::Comment | Kind::LeftOut | Kind::FurtherBlank | Kind::Silent
        )
    }
}
