//! What each call can refuse, and nothing that it cannot: document 01's numbers as enums, each with a sentence.

use std::fmt;

/// Why a pattern text is refused.
#[derive(Clone, Copy, Debug, PartialEq, Eq, Hash)]
pub enum PatternError {
    /// More than 255 bytes.
    Long,
    /// No legal pattern begins with the bytes up to and including this place.
    Form {
        /// The first byte up to which no legal pattern begins, or the text's length.
        place: usize,
    },
    /// A 17th parenthesis is open at once.
    Deep {
        /// Where that parenthesis stands.
        place: usize,
    },
    /// More than 64 records.
    Big,
}

/// Why bytes are not a net.
#[derive(Clone, Copy, Debug, PartialEq, Eq, Hash)]
pub enum NetError {
    /// An item of a kind that is not allowed there.
    Kind,
    /// The bytes end too early.
    Short,
    /// A field is out of range.
    Field,
    /// Bytes follow the last record.
    Extra,
}

/// Why a net has no table.
#[derive(Clone, Copy, Debug, PartialEq, Eq, Hash)]
pub enum BuildError {
    /// A situation needs more than 64 registers.
    Registers,
    /// There are more than 96 situations.
    Situations,
}

/// Why bytes are not a table that can be run.
#[derive(Clone, Copy, Debug, PartialEq, Eq, Hash)]
pub enum TableError {
    /// Not the form of a table.
    Form,
    /// Some line would read a register that nothing was stored in.
    EmptyRead,
}

/// Why a line has no reading.
#[derive(Clone, Copy, Debug, PartialEq, Eq, Hash)]
pub enum LineError {
    /// More than 32,767 bytes.
    Long,
    /// The line is not one that the pattern describes.
    NoMatch,
}

/// Why a reading has no part between two tags.
#[derive(Clone, Copy, Debug, PartialEq, Eq, Hash)]
pub enum PartError {
    /// One of the two tags has no place.
    Absent,
    /// The part would end before it starts.
    Back,
    /// The part would end past the line.
    Past,
}

/// Any refusal, for a caller who does not tell the calls apart.
#[derive(Clone, Copy, Debug, PartialEq, Eq, Hash)]
pub enum Error {
    /// Of a pattern text.
    Pattern(PatternError),
    /// Of the bytes of a net.
    Net(NetError),
    /// Of a build.
    Build(BuildError),
    /// Of the bytes of a table.
    Table(TableError),
    /// Of a line.
    Line(LineError),
    /// Of a part.
    Part(PartError),
}

macro_rules! refusals {
    ($($name:ident in $case:ident { $($pattern:pat => $number:literal $sentence:literal,)* })*) => {
        $(
            impl $name {
                /// The number that document 01 gives this refusal.
                pub fn number(&self) -> u8 {
                    match self {
                        $($pattern => $number,)*
                    }
                }

                fn sentence(&self) -> &'static str {
                    match self {
                        $($pattern => $sentence,)*
                    }
                }
            }

            impl std::error::Error for $name {}

            impl From<$name> for Error {
                fn from(e: $name) -> Error {
                    Error::$case(e)
                }
            }
        )*

        impl Error {
            /// The number that document 01 gives this refusal.
            pub fn number(&self) -> u8 {
                match self {
                    $(Error::$case(e) => e.number(),)*
                }
            }
        }

        impl fmt::Display for Error {
            fn fmt(&self, f: &mut fmt::Formatter) -> fmt::Result {
                match self {
                    $(Error::$case(e) => e.fmt(f),)*
                }
            }
        }
    };
}

refusals! {
    PatternError in Pattern {
        PatternError::Long => 1 "the pattern has more than 255 bytes",
        PatternError::Form { .. } => 2 "no legal pattern begins like this",
        PatternError::Deep { .. } => 3 "a 17th parenthesis is open",
        PatternError::Big => 4 "the pattern needs more than 64 records",
    }
    NetError in Net {
        NetError::Kind => 5 "the net has an item of a kind not allowed there",
        NetError::Short => 6 "the net ends too early",
        NetError::Field => 7 "the net has a field out of range",
        NetError::Extra => 8 "bytes follow the net's last record",
    }
    BuildError in Build {
        BuildError::Registers => 10 "a situation needs more than 64 registers",
        BuildError::Situations => 11 "there are more than 96 situations",
    }
    TableError in Table {
        TableError::Form => 13 "the bytes have not the form of a table",
        TableError::EmptyRead => 14 "some line would read an empty register",
    }
    LineError in Line {
        LineError::Long => 15 "the line has more than 32767 bytes",
        LineError::NoMatch => 16 "the line does not match",
    }
    PartError in Part {
        PartError::Absent => 17 "one of the two tags has no place",
        PartError::Back => 18 "the part would end before it starts",
        PartError::Past => 19 "the part would end past the line",
    }
}

impl std::error::Error for Error {}

impl fmt::Display for PatternError {
    fn fmt(&self, f: &mut fmt::Formatter) -> fmt::Result {
        match self {
            PatternError::Form { place } | PatternError::Deep { place } => {
                write!(f, "{} at byte {place}", self.sentence())
            }
            _ => f.write_str(self.sentence()),
        }
    }
}

macro_rules! sentence_alone {
    ($($name:ident)*) => {
        $(impl fmt::Display for $name {
            fn fmt(&self, f: &mut fmt::Formatter) -> fmt::Result {
                f.write_str(self.sentence())
            }
        })*
    };
}

sentence_alone! { NetError BuildError TableError LineError PartError }
