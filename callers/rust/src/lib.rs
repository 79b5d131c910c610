//! Chorvugdan: a tagged pattern matcher for payload-scale feeds.
//!
//! A [`Pattern`] gives a [`Net`], a net gives a [`Table`], a table reads lines: each [`Reading`] holds its line and the
//! places of eight tags. A table comes into being only by building or by loading, so that a run never meets one that
//! was not judged. All the work is done by the proved library; this crate only makes its calls safe.
//!
//! ```
//! use chorvugdan::{Pattern, Tag};
//!
//! let pattern = Pattern::new(r"TRK-@0[0-9]+@1; *@2[0-9]+@3 @4(kg|t)@5")?;
//! let table = pattern.build()?;
//! let reading = table.read(b"TRK-0417;  23450 kg")?;
//! assert_eq!(reading.part(Tag::T0, Tag::T1)?, b"0417");
//! assert_eq!(reading.part(Tag::T2, Tag::T3)?, b"23450");
//! assert_eq!(reading.part(Tag::T4, Tag::T5)?, b"kg");
//! assert_eq!(table.read(b"TRK-;;;").unwrap_err().to_string(), "the line does not match");
//! # Ok::<(), chorvugdan::Error>(())
//! ```
#![deny(missing_docs)]

mod calls;
mod error;

pub use error::{BuildError, Error, LineError, NetError, PartError, PatternError, TableError};

/// Bytes of the longest net.
const NET_MAX: usize = 2148;
/// Bytes of work memory that a build needs.
const WORK: usize = 65536;
/// Bytes that most tables fit in, and bytes of the longest table: HEAD, 64 SETs, 96 times a SITUATION with 256 rows of
/// 64 MOVEs.
const TABLE_ROOM: usize = 65536;
const TABLE_MAX: usize = 5 + 64 * 2 + 96 * (10 + 256 * (4 + 64 * 3));

/// Words of an image for each situation.
const IMAGE_WORDS: usize = 257;

/// A code that the call's promise excludes for what this crate hands it.
fn excluded(call: &str, code: u8) -> ! {
    unreachable!("{call} answered {code}")
}

/// One of the eight tags that a pattern can store a place with.
#[derive(Clone, Copy, Debug, PartialEq, Eq, PartialOrd, Ord, Hash)]
#[repr(u8)]
#[allow(missing_docs)]
pub enum Tag {
    T0,
    T1,
    T2,
    T3,
    T4,
    T5,
    T6,
    T7,
}

impl Tag {
    /// All tags in order.
    pub const ALL: [Tag; 8] = [Tag::T0, Tag::T1, Tag::T2, Tag::T3, Tag::T4, Tag::T5, Tag::T6, Tag::T7];
}

/// A legal pattern text, and its net.
#[derive(Clone, Debug, PartialEq, Eq)]
pub struct Pattern {
    text: Vec<u8>,
    net: Net,
}

impl Pattern {
    /// Reads a pattern text.
    ///
    /// ```
    /// use chorvugdan::{Pattern, PatternError};
    ///
    /// assert!(Pattern::new("a*@0b*").is_ok());
    /// assert_eq!(Pattern::new("a**"), Err(PatternError::Form { place: 2 }));
    /// assert_eq!(PatternError::Form { place: 2 }.to_string(), "no legal pattern begins like this at byte 2");
    /// ```
    pub fn new(text: impl AsRef<[u8]>) -> Result<Pattern, PatternError> {
        let text = text.as_ref();
        let mut net = vec![0; NET_MAX];
        let (code, place, length) = calls::pattern(text, &mut net);
        match code {
            0 => {
                net.truncate(length);
                Ok(Pattern { text: text.to_vec(), net: Net { bytes: net } })
            }
            1 => Err(PatternError::Long),
            2 => Err(PatternError::Form { place }),
            3 => Err(PatternError::Deep { place }),
            4 => Err(PatternError::Big),
            code => excluded("cv_pattern", code),
        }
    }

    /// The text it was read from.
    pub fn text(&self) -> &[u8] {
        &self.text
    }

    /// Its automaton.
    pub fn net(&self) -> &Net {
        &self.net
    }

    /// The table of its automaton.
    pub fn build(&self) -> Result<Table, BuildError> {
        self.net.build()
    }
}

impl std::str::FromStr for Pattern {
    type Err = PatternError;

    fn from_str(text: &str) -> Result<Pattern, PatternError> {
        Pattern::new(text)
    }
}

/// A legal automaton file.
#[derive(Clone, Debug, PartialEq, Eq)]
pub struct Net {
    bytes: Vec<u8>,
}

impl Net {
    /// Judges the bytes of an automaton file.
    ///
    /// ```
    /// use chorvugdan::{Net, NetError};
    ///
    /// let end_alone = [0x10, 1, 0, 1, 0x15, 0];
    /// assert!(Net::load(end_alone).is_ok());
    /// assert_eq!(Net::load(&end_alone[..5]), Err(NetError::Short));
    /// ```
    pub fn load(bytes: impl Into<Vec<u8>>) -> Result<Net, NetError> {
        let bytes = bytes.into();
        // The byte count judges the whole file first; 20 says that it is legal, though record 0 takes no bytes.
        match calls::count(&bytes, 0).0 {
            0 | 20 => Ok(Net { bytes }),
            5 => Err(NetError::Kind),
            6 => Err(NetError::Short),
            7 => Err(NetError::Field),
            8 => Err(NetError::Extra),
            code => excluded("cv_count", code),
        }
    }

    /// The file.
    pub fn bytes(&self) -> &[u8] {
        &self.bytes
    }

    /// How many of the 256 bytes a record takes; none for a record that is absent or takes no byte by its kind.
    ///
    /// ```
    /// # use chorvugdan::Pattern;
    /// let pattern = Pattern::new("[[:digit:]]@0")?;
    /// assert_eq!(pattern.net().takes(0), Some(10));
    /// assert_eq!(pattern.net().takes(1), None);
    /// # Ok::<(), chorvugdan::Error>(())
    /// ```
    pub fn takes(&self, record: usize) -> Option<u32> {
        match calls::count(&self.bytes, record) {
            (0, count) => Some(count),
            (20, _) => None,
            (code, _) => excluded("cv_count", code),
        }
    }

    /// Its table.
    ///
    /// ```
    /// # use chorvugdan::{BuildError, Pattern};
    /// let pattern = Pattern::new(".*a......")?;
    /// assert_eq!(pattern.net().build(), Err(BuildError::Situations));
    /// # Ok::<(), chorvugdan::Error>(())
    /// ```
    pub fn build(&self) -> Result<Table, BuildError> {
        let mut work = vec![0; WORK];
        for room in [TABLE_ROOM, TABLE_MAX] {
            let mut bytes = vec![0; room];
            match calls::build(&self.bytes, &mut work, &mut bytes) {
                (0, length) => {
                    bytes.truncate(length);
                    bytes.shrink_to_fit();
                    return Ok(Table { bytes });
                }
                (10, _) => return Err(BuildError::Registers),
                (11, _) => return Err(BuildError::Situations),
                (12, _) if room < TABLE_MAX => {}
                (code, _) => excluded("cv_build", code),
            }
        }
        excluded("cv_build", 12)
    }
}

/// A table that no line gets stuck in: built, or loaded and found good. There is no third way to one:
///
/// ```compile_fail,E0451
/// let unjudged = chorvugdan::Table { bytes: vec![0x21] };
/// ```
#[derive(Clone, Debug, PartialEq, Eq)]
pub struct Table {
    bytes: Vec<u8>,
}

impl Table {
    /// Judges the bytes of a table file.
    ///
    /// ```
    /// use chorvugdan::{Table, TableError, Tag};
    ///
    /// // One situation that answers 0 and reads register 0, which nothing was stored in.
    /// let mut bytes = vec![0x21, 1, 1, 1, 1, 0x22, 0, 0, 255, 255, 255, 255, 255, 255, 255, 0x23, 0, 255, 0];
    /// assert_eq!(Table::load(bytes.clone()), Err(TableError::EmptyRead));
    /// bytes.splice(5..5, [0x25, 0]);
    /// assert_eq!(Table::load(bytes)?.read(b"any")?.place(Tag::T0), Some(0));
    /// # Ok::<(), chorvugdan::Error>(())
    /// ```
    pub fn load(bytes: impl Into<Vec<u8>>) -> Result<Table, TableError> {
        let bytes = bytes.into();
        match calls::load(&bytes) {
            0 => Ok(Table { bytes }),
            13 => Err(TableError::Form),
            14 => Err(TableError::EmptyRead),
            code => excluded("cv_load", code),
        }
    }

    /// The file.
    pub fn bytes(&self) -> &[u8] {
        &self.bytes
    }

    /// How many situations it has.
    pub fn situations(&self) -> usize {
        self.bytes[4] as usize
    }

    /// How many registers it has.
    pub fn registers(&self) -> usize {
        self.bytes[3] as usize
    }

    /// Runs over a line.
    ///
    /// ```
    /// # use chorvugdan::{LineError, Pattern, Tag};
    /// let table = Pattern::new("a*@0b*")?.build()?;
    /// assert_eq!(table.read(b"aab")?.place(Tag::T0), Some(2));
    /// assert_eq!(table.read(b"ba"), Err(LineError::NoMatch));
    /// # Ok::<(), chorvugdan::Error>(())
    /// ```
    pub fn read<'l>(&self, line: &'l [u8]) -> Result<Reading<'l>, LineError> {
        Reading::told(calls::run(&self.bytes, line), line)
    }

    /// Lays the table out for lines to ride over: judged once, not once a line.
    pub fn mount(self) -> Mounted {
        let mut image = vec![0; IMAGE_WORDS * self.situations()];
        match calls::mount(&self.bytes, &mut image) {
            0 => Mounted { table: self, image },
            code => excluded("cv_mount", code),
        }
    }
}

/// A table with its image: reads the same as the table, faster.
///
/// ```
/// # use chorvugdan::{Pattern, Tag};
/// let mounted = Pattern::new("a*@0b*")?.build()?.mount();
/// assert_eq!(mounted.read(b"aab")?.place(Tag::T0), Some(2));
/// # Ok::<(), chorvugdan::Error>(())
/// ```
#[derive(Clone, Debug, PartialEq, Eq)]
pub struct Mounted {
    table: Table,
    image: Vec<u32>,
}

impl Mounted {
    /// The table.
    pub fn table(&self) -> &Table {
        &self.table
    }

    /// Rides over a line.
    pub fn read<'l>(&self, line: &'l [u8]) -> Result<Reading<'l>, LineError> {
        Reading::told(calls::ride(&self.table.bytes, &self.image, line), line)
    }

    /// Rides over two lines in step: what [`read`](Mounted::read) gives of each.
    ///
    /// ```
    /// # use chorvugdan::{LineError, Pattern, Tag};
    /// let mounted = Pattern::new("a*@0b*")?.build()?.mount();
    /// let (first, second) = mounted.read_two(b"aab", b"ba");
    /// assert_eq!(first?.place(Tag::T0), Some(2));
    /// assert_eq!(second, Err(LineError::NoMatch));
    /// # Ok::<(), chorvugdan::Error>(())
    /// ```
    pub fn read_two<'l, 'o>(
        &self,
        line: &'l [u8],
        other: &'o [u8],
    ) -> (Result<Reading<'l>, LineError>, Result<Reading<'o>, LineError>) {
        let [first, second] = calls::ride_two(&self.table.bytes, &self.image, line, other);
        (Reading::told(first, line), Reading::told(second, other))
    }
}

/// What a run gave: the line, the answer, and a place for each tag that stored one.
#[derive(Clone, Copy, Debug, PartialEq, Eq)]
pub struct Reading<'l> {
    line: &'l [u8],
    answer: u8,
    places: [i16; 8],
}

impl<'l> Reading<'l> {
    /// What a run over a judged table, or a ride over its own image, told.
    fn told((code, answer, places): (u8, u8, [i16; 8]), line: &'l [u8]) -> Result<Reading<'l>, LineError> {
        match code {
            0 => Ok(Reading { line, answer, places }),
            15 => Err(LineError::Long),
            16 => Err(LineError::NoMatch),
            code => excluded("a run", code),
        }
    }

    /// The line.
    pub fn line(&self) -> &'l [u8] {
        self.line
    }

    /// The answer of the END that was reached: 0 for a pattern's table.
    pub fn answer(&self) -> u8 {
        self.answer
    }

    /// The place that a tag stored, at most the line's length.
    pub fn place(&self, tag: Tag) -> Option<usize> {
        usize::try_from(self.places[tag as usize]).ok()
    }

    /// The part of the line between the places of two tags.
    ///
    /// ```
    /// # use chorvugdan::{PartError, Pattern, Tag};
    /// let table = Pattern::new("a*@0b*@1(@2c)?")?.build()?;
    /// let reading = table.read(b"aabbb")?;
    /// assert_eq!(reading.part(Tag::T0, Tag::T1)?, b"bbb");
    /// assert_eq!(reading.part(Tag::T1, Tag::T0), Err(PartError::Back));
    /// assert_eq!(reading.part(Tag::T1, Tag::T2), Err(PartError::Absent));
    /// # Ok::<(), chorvugdan::Error>(())
    /// ```
    pub fn part(&self, from: Tag, to: Tag) -> Result<&'l [u8], PartError> {
        match calls::reading_code(self.line, &self.places, from as u8, to as u8) {
            0 => Ok(&self.line[self.places[from as usize] as usize..self.places[to as usize] as usize]),
            17 => Err(PartError::Absent),
            18 => Err(PartError::Back),
            19 => Err(PartError::Past),
            code => excluded("cv_reading_code", code),
        }
    }

    /// The length of that part, 0 if there is none; the part is copied to the front of `out` if it fits, else `out`
    /// stays as it is.
    ///
    /// ```
    /// # use chorvugdan::{Pattern, Tag};
    /// let table = Pattern::new("a*@0b*@1")?.build()?;
    /// let mut weight = *b"......";
    /// assert_eq!(table.read(b"aabbb")?.copy_part(Tag::T0, Tag::T1, &mut weight), 3);
    /// assert_eq!(&weight, b"bbb...");
    /// # Ok::<(), chorvugdan::Error>(())
    /// ```
    pub fn copy_part(&self, from: Tag, to: Tag, out: &mut [u8]) -> usize {
        calls::reading(self.line, &self.places, from as u8, to as u8, out)
    }
}
