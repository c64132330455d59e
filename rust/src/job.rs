//! Jobs.

/// The format of the output.
#[derive(Clone, Copy, Debug, Default, PartialEq, Eq, Hash)]
pub enum Format {
    /// Canonical GABC: one fixed spelling.
    #[default]
    Canonical,
    /// A line for each syllable, neume, note and sign.
    Dump,
}

/// Whether warnings are reported, beside errors and fatal faults.
#[derive(Clone, Copy, Debug, Default, PartialEq, Eq, Hash)]
pub enum Warnings {
    /// They are reported.
    #[default]
    Told,
    /// They are not.
    Untold,
}

/// Limits in bytes.
#[derive(Clone, Copy, Debug, PartialEq, Eq, Hash)]
pub struct Limits {
    /// The limit of all headers: 64 to 16,777,216.
    pub header: u32,
    /// The limit of a syllable: 64 to 16,777,216.
    pub syllable: u32,
    /// The limit of the whole input: at least 64.
    pub input: u32,
}

impl Default for Limits {
    /// Returns the default limits: 65,536 bytes of headers, 16,384 of a syllable, 4,294,967,295 of input.
    fn default() -> Limits {
        Limits {
            header: 65_536,
            syllable: 16_384,
            input: u32::MAX,
        }
    }
}

/// The options of a call or a run. The default is canonical GABC, with warnings, under the default limits.
#[derive(Clone, Copy, Debug, Default, PartialEq, Eq, Hash)]
pub struct Job {
    /// The format of the output.
    pub format: Format,
    /// Whether warnings are reported.
    pub warnings: Warnings,
    /// The limits.
    pub limits: Limits,
}
