//! What the operations answer.

use std::error::Error;
use std::fmt::{self, Display, Formatter};

/// Why a table, a file, a form, a report or a call is refused. The value is the refusal's number;
/// the word in brackets is document 01's.
#[derive(Clone, Copy, Debug, PartialEq, Eq, PartialOrd, Ord, Hash)]
#[repr(u32)]
pub enum Reason {
    /// (ragged) No words, or not a multiple of four; of lines of figures, not a
    /// multiple of seven, or not a line for each name.
    PartialNode = 1,
    /// (oversize) More than 4,096 nodes or list entries.
    TooLarge = 2,
    /// (odd node) An unknown kind, or a field outside its range.
    MalformedNode = 3,
    /// (forward) An operand or body at or above its own node.
    ForwardReference = 4,
    /// (overhang) A block's range passes the end of the list.
    RangePastEnd = 5,
    /// (crowd) This block's count brings the sum of counts over 4,096.
    TooManyVariables = 6,
    /// (bad name) An entry of the block's range is no variable, or stands in it
    /// twice.
    BadVariable = 7,
    /// (not a tree) The lowest node below the last that isn't named exactly once.
    NotATree = 8,
    /// (no room) An output buffer is shorter than the size needed.
    BufferTooShort = 9,
    /// A file over 65,536 bytes, or a byte, or the file's end, where no file
    /// can go on.
    MalformedText = 10,
    /// A name where it can't stand: a gate defined twice or also in a list, an
    /// input not after its definition, a name twice in a list.
    MisplacedName = 11,
    /// A variable that no block above binds and no free line names.
    UnboundVariable = 12,
    /// A gate that is not used exactly once.
    GateNotUsedOnce = 13,
    /// A form's matrix with a fault of 1, 3, 4 or 8, a block node, over 40,960
    /// nodes, or a name over 77,823.
    MalformedMatrix = 14,
    /// A prefix that is not whole blocks of kind 5 or 6, a range outside the
    /// list, or a name outside 1 to 77,823 or earlier in the prefix.
    MalformedPrefix = 15,
    /// A block's count is 0.
    EmptyBlock = 16,
    /// More than 256 names, or lines of figures.
    TooManyNames = 20,
    /// A name of more than 255 bytes.
    NameTooLong = 21,
    /// A file that can't be opened or read to its end, in its line of figures. No
    /// call answers it.
    Unreadable = 22,
    /// The number given for the format to write is no format's.
    UnknownFormat = 23,
    /// Memory lent to work in is shorter than the form's nodes.
    MemoryTooShort = 24,
}

impl Reason {
    pub const ALL: [Reason; 21] = [
        Reason::PartialNode,
        Reason::TooLarge,
        Reason::MalformedNode,
        Reason::ForwardReference,
        Reason::RangePastEnd,
        Reason::TooManyVariables,
        Reason::BadVariable,
        Reason::NotATree,
        Reason::BufferTooShort,
        Reason::MalformedText,
        Reason::MisplacedName,
        Reason::UnboundVariable,
        Reason::GateNotUsedOnce,
        Reason::MalformedMatrix,
        Reason::MalformedPrefix,
        Reason::EmptyBlock,
        Reason::TooManyNames,
        Reason::NameTooLong,
        Reason::Unreadable,
        Reason::UnknownFormat,
        Reason::MemoryTooShort,
    ];

    /// Why a table is refused, in the order of the tests.
    pub const OF_TABLES: [Reason; 9] = [
        Reason::PartialNode,
        Reason::TooLarge,
        Reason::MalformedNode,
        Reason::ForwardReference,
        Reason::RangePastEnd,
        Reason::EmptyBlock,
        Reason::TooManyVariables,
        Reason::BadVariable,
        Reason::NotATree,
    ];

    pub fn from_number(number: u32) -> Option<Reason> {
        Reason::ALL.into_iter().find(|r| r.number() == number)
    }

    pub fn number(self) -> u32 {
        self as u32
    }

    /// The refusal for this reason at a position, 0 if it speaks of none. It
    /// names no users.
    pub const fn at(self, position: usize) -> Refusal {
        Refusal {
            reason: self,
            position: position as u64,
            users: None,
        }
    }
}

impl Display for Reason {
    fn fmt(&self, f: &mut Formatter<'_>) -> fmt::Result {
        f.write_str(match self {
            Reason::PartialNode => {
                "no words, a part of a node or line, or not a line for each name"
            }
            Reason::TooLarge => "too many nodes or list entries",
            Reason::MalformedNode => "malformed node",
            Reason::ForwardReference => "operand or body not below its node",
            Reason::RangePastEnd => "range past the end of the list",
            Reason::TooManyVariables => "too many bound variables",
            Reason::BadVariable => "bad variable in a range",
            Reason::NotATree => "not a tree",
            Reason::BufferTooShort => "output buffer too short",
            Reason::MalformedText => "spelling or length",
            Reason::MisplacedName => "name misplaced",
            Reason::UnboundVariable => "unbound variable",
            Reason::GateNotUsedOnce => "gate not used exactly once",
            Reason::MalformedMatrix => "malformed matrix",
            Reason::MalformedPrefix => "malformed prefix",
            Reason::EmptyBlock => "empty block",
            Reason::TooManyNames => "more than 256 names or lines",
            Reason::NameTooLong => "name longer than 255 bytes",
            Reason::Unreadable => "file can't be read",
            Reason::UnknownFormat => "unknown format",
            Reason::MemoryTooShort => "lent memory too short",
        })
    }
}

/// A refusal and its position: the node, byte (10, 11), name (12, 13) or prefix
/// block (15) that it speaks of, 0 where it speaks of none.
#[derive(Clone, Copy, Debug, PartialEq, Eq)]
pub struct Refusal {
    pub reason: Reason,
    pub position: u64,
    /// The two lowest nodes that name a node not named exactly once (8); one
    /// that names it twice stands twice. None if no node names it, and for
    /// every other reason.
    pub users: Option<[u32; 2]>,
}

impl Refusal {
    /// The same refusal with these users.
    pub const fn used_by(self, users: Option<[u32; 2]>) -> Refusal {
        Refusal { users, ..self }
    }

    /// Number and position, where neither passes 32 bits: everywhere but in an
    /// answer of writing a form.
    fn number_and_position(self) -> [u32; 2] {
        let position = u32::try_from(self.position);
        [
            self.reason.number(),
            position.expect("a position of 32 bits"),
        ]
    }

    /// The verdict that an answer over a table begins with: number, position,
    /// first user, second user.
    fn words(self) -> [u32; 4] {
        // A user is above the node that it names, so no user is node 0.
        let [first, second] = self.users.unwrap_or_default();
        let [number, position] = self.number_and_position();
        [number, position, first, second]
    }
}

impl Display for Refusal {
    fn fmt(&self, f: &mut Formatter<'_>) -> fmt::Result {
        let number = self.reason.number();
        write!(f, "refused: {number} at {} ({}", self.position, self.reason)?;
        match (self.reason, self.users) {
            (Reason::NotATree, None) => f.write_str(": named by no node)"),
            (Reason::NotATree, Some([first, second])) if first == second => {
                write!(f, ": named twice by node {first})")
            }
            (Reason::NotATree, Some([first, second])) => {
                write!(f, ": named by nodes {first} and {second})")
            }
            _ => f.write_str(")"),
        }
    }
}

impl Error for Refusal {}

/// Sizes of an accepted table and of its prenex form.
#[derive(Clone, Copy, Debug, Default, PartialEq, Eq)]
pub struct Sizes {
    /// Nodes of the table.
    pub n: u32,
    /// Blocks of the table.
    pub b: u32,
    /// The sum of the blocks' counts.
    pub q: u32,
    /// The largest number of blocks on a path from the root.
    pub depth: u32,
    /// Nodes of the prenex form, four words each.
    pub nodes: u32,
    /// Prefix blocks of the prenex form, three words each.
    pub blocks: u32,
    /// Prefix variables of the prenex form, one word each.
    pub entries: u32,
}

impl Sizes {
    /// Sizes from their words, in the order that the C interface has them.
    pub fn from_words([n, b, q, depth, nodes, blocks, entries]: [u32; 7]) -> Sizes {
        Sizes {
            n,
            b,
            q,
            depth,
            nodes,
            blocks,
            entries,
        }
    }

    /// The words of the sizes, in the same order.
    pub fn words(self) -> [u32; 7] {
        [
            self.n,
            self.b,
            self.q,
            self.depth,
            self.nodes,
            self.blocks,
            self.entries,
        ]
    }
}

/// How much reading a QCIR file writes.
#[derive(Clone, Copy, Debug, Default, PartialEq, Eq)]
pub struct Written {
    /// Words of nodes, four to a node.
    pub words: u32,
    /// List entries.
    pub entries: u32,
}

/// What lifting a text says of the text that it writes.
#[derive(Clone, Copy, Debug, PartialEq, Eq)]
pub struct WrittenText {
    /// Its bytes.
    pub bytes: usize,
    /// The sizes of the table that was read and of its prenex form.
    pub sizes: Sizes,
}

/// A line of figures: what a growth report says of a file beside its name. The
/// refusal number, or 0, then of an accepted file n, b, q, depth, nodes and
/// entries of its [`Sizes`], and of a refused one zeros.
pub type Line = [u32; 7];

/// The line of figures of a file that is measured so.
pub fn line(measured: Result<Sizes, Refusal>) -> Line {
    match measured {
        Ok(s) => [0, s.n, s.b, s.q, s.depth, s.nodes, s.entries],
        Err(r) => [r.reason.number(), 0, 0, 0, 0, 0, 0],
    }
}

/// What a growth report says of all its files.
#[derive(Clone, Copy, Debug, Default, PartialEq, Eq)]
pub struct Growth {
    /// Files that were read: all but those with number 22.
    pub read: u64,
    /// Files with a refusal, 22 too.
    pub refused: u64,
    /// The sums of the six figures that follow the number in a [`Line`].
    pub sums: [u64; 6],
    /// Nodes written and input nodes of the file that grew most, the first if
    /// there are several; 0 and 0 if no accepted file has input nodes.
    pub written: u64,
    pub input: u64,
}

impl Growth {
    /// The figures from their words, in the order that the C interface and a
    /// report have them.
    pub fn from_words(words: [u64; 10]) -> Growth {
        let [read, refused, sums @ .., written, input] = words;
        Growth {
            read,
            refused,
            sums,
            written,
            input,
        }
    }

    /// The words of the figures, in the same order.
    pub fn words(self) -> [u64; 10] {
        let [n, b, q, depth, nodes, entries] = self.sums;
        let [read, refused, written, input] = [self.read, self.refused, self.written, self.input];
        [
            read, refused, n, b, q, depth, nodes, entries, written, input,
        ]
    }
}

/// Answers of measuring and lifting as the C interface gives them.
pub type SizesAnswer = [u32; 11];

/// Answers of listing free variables and of removing empty blocks as the C
/// interface gives them: how many names, or nodes, are written.
pub type CountAnswer = [u32; 5];

/// Answers of reading a file as the C interface gives them.
pub type WrittenAnswer = [u32; 4];

/// Answers of writing a form or a report as the C interface gives them: number,
/// position, bytes.
pub type TextAnswer = [u64; 3];

/// Answers of lifting a text as the C interface gives them: number, position,
/// bytes, sizes.
pub type LiftTextAnswer = [u64; 10];

/// Answers of measuring a text as the C interface gives them: number, position,
/// sizes.
pub type MeasureTextAnswer = [u32; 9];

/// Answers of adding up lines of figures as the C interface gives them: number,
/// position, the words of [`Growth`].
pub type GrowthAnswer = [u64; 12];

/// Answers of counting names as the C interface gives them: number, position,
/// names.
pub type NamesAnswer = [u32; 3];

/// The words of an answer of measuring or lifting.
pub fn size_words(answer: Result<Sizes, Refusal>) -> SizesAnswer {
    let mut words = SizesAnswer::default();
    match answer {
        Ok(sizes) => words[4..].copy_from_slice(&sizes.words()),
        Err(r) => words[..4].copy_from_slice(&r.words()),
    }
    words
}

/// The words of an answer of listing free variables or removing empty blocks.
pub fn count_words(answer: Result<u32, Refusal>) -> CountAnswer {
    match answer {
        Ok(written) => [0, 0, 0, 0, written],
        Err(r) => {
            let [number, position, first, second] = r.words();
            [number, position, first, second, 0]
        }
    }
}

/// The words of an answer of reading.
pub fn written_words(answer: Result<Written, Refusal>) -> WrittenAnswer {
    match answer {
        Ok(Written { words, entries }) => [0, 0, words, entries],
        Err(r) => {
            let [number, position] = r.number_and_position();
            [number, position, 0, 0]
        }
    }
}

/// The words of an answer of writing a form or a report.
pub fn text_words(answer: Result<usize, Refusal>) -> TextAnswer {
    match answer {
        Ok(bytes) => [0, 0, bytes as u64],
        Err(r) => [r.reason.number().into(), r.position, 0],
    }
}

/// The words of an answer of lifting a text.
pub fn lift_text_words(answer: Result<WrittenText, Refusal>) -> LiftTextAnswer {
    let mut words = LiftTextAnswer::default();
    words[..3].copy_from_slice(&text_words(answer.map(|written| written.bytes)));
    if let Ok(WrittenText { sizes, .. }) = answer {
        words[3..].copy_from_slice(&sizes.words().map(u64::from));
    }
    words
}

/// The words of an answer of measuring a text.
pub fn measure_text_words(answer: Result<Sizes, Refusal>) -> MeasureTextAnswer {
    let mut words = MeasureTextAnswer::default();
    match answer {
        Ok(sizes) => words[2..].copy_from_slice(&sizes.words()),
        Err(r) => words[..2].copy_from_slice(&r.number_and_position()),
    }
    words
}

/// The words of an answer of adding up lines of figures.
pub fn growth_words(answer: Result<Growth, Refusal>) -> GrowthAnswer {
    let mut words = GrowthAnswer::default();
    match answer {
        Ok(growth) => words[2..].copy_from_slice(&growth.words()),
        Err(r) => words[..2].copy_from_slice(&r.number_and_position().map(u64::from)),
    }
    words
}

/// The words of an answer of counting names.
pub fn names_words(answer: Result<u32, Refusal>) -> NamesAnswer {
    match answer {
        Ok(names) => [0, 0, names],
        Err(r) => {
            let [number, position] = r.number_and_position();
            [number, position, 0]
        }
    }
}
