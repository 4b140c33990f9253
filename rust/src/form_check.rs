//! What the two writers of prenex forms share ([`write_qcir`](mod@crate::write_qcir)
//! and [`write_qdimacs`](mod@crate::write_qdimacs)): which forms are refused, sets
//! of names, and a text put into a buffer whole.

use crate::answer::{Reason, Refusal};
use crate::reference::{Node, WIDTH};
use crate::reference::{CONSTANT, EXISTS, FOR_ALL, NOT, OPERATOR, VARIABLE};

/// The most nodes of a matrix that is written.
pub const MOST_NODES: usize = 40_960;
/// The highest name of a form that is written.
pub const HIGHEST_NAME: u32 = 77_823;

/// How large a form may be.
#[derive(Clone, Copy, Debug)]
pub struct Limits {
    pub nodes: usize,
    pub highest: u32,
}

impl Limits {
    /// What the library allows.
    pub const LIBRARY: Limits = Limits {
        nodes: MOST_NODES,
        highest: HIGHEST_NAME,
    };
    /// No limits but that names and gate numbers stay below 2 to the 31.
    pub const NONE: Limits = Limits {
        nodes: 1 << 30,
        highest: (1 << 30) - 1,
    };
}

/// Names, a bit for each.
#[derive(Default)]
pub(crate) struct Names(Vec<u64>);

impl Names {
    /// Adds a name and says whether it was new.
    pub(crate) fn insert(&mut self, name: u32) -> bool {
        let at = name as usize / 64;
        if at >= self.0.len() {
            self.0.resize(at + 1, 0);
        }
        let bit = 1 << (name % 64);
        let new = self.0[at] & bit == 0;
        self.0[at] |= bit;
        new
    }

    pub(crate) fn contains(&self, name: u32) -> bool {
        let word = self.0.get(name as usize / 64);
        word.is_some_and(|word| word >> (name % 64) & 1 == 1)
    }

    /// The names, ascending.
    pub(crate) fn iter(&self) -> impl Iterator<Item = u32> + '_ {
        self.0.iter().zip(0..).flat_map(|(&word, at)| {
            let mut left = word;
            std::iter::from_fn(move || {
                (left != 0).then(|| {
                    let bit = left.trailing_zeros();
                    left &= left - 1;
                    64 * at + bit
                })
            })
        })
    }
}

/// Tests a matrix for faults 1, 3, 4 and 8, a block being fault 3.
pub(crate) fn check_matrix(words: &[u32], limits: Limits) -> Result<&[Node], Refusal> {
    let (nodes, rest) = words.as_chunks::<WIDTH>();
    if nodes.is_empty() || !rest.is_empty() || nodes.len() > limits.nodes {
        return Err(Reason::MalformedMatrix.at(0));
    }
    let mut uses = vec![0u32; nodes.len()];
    for (i, &[kind, a, b, c]) in nodes.iter().enumerate() {
        let is_lower = |operand: u32| (operand as usize) < i;
        let well_formed = match kind {
            CONSTANT => a <= 1 && b == 0 && c == 0,
            VARIABLE => a != 0 && a <= limits.highest && b == 0 && c == 0,
            NOT => b == 0 && c == 0 && is_lower(a),
            OPERATOR => a <= 15 && is_lower(b) && is_lower(c),
            _ => false,
        };
        if !well_formed {
            return Err(Reason::MalformedMatrix.at(i));
        }
        if kind == NOT {
            uses[a as usize] += 1;
        } else if kind == OPERATOR {
            uses[b as usize] += 1;
            uses[c as usize] += 1;
        }
    }
    match uses[..nodes.len() - 1].iter().position(|&uses| uses != 1) {
        Some(i) => Err(Reason::MalformedMatrix.at(i)),
        None => Ok(nodes),
    }
}

/// A prefix that has passed its test: kind, first and count of each block, the
/// names and the highest of them, 0 if there are none.
pub(crate) struct Prefix<'a> {
    pub(crate) blocks: &'a [[u32; 3]],
    pub(crate) names: Names,
    pub(crate) highest: u32,
}

/// The names of a block.
pub(crate) fn range<'a>(variables: &'a [u32], &[_, first, count]: &[u32; 3]) -> &'a [u32] {
    &variables[first as usize..][..count as usize]
}

/// Tests that a prefix is blocks over ranges of the list, with names all
/// different and within the limits.
pub(crate) fn check_prefix<'a>(
    words: &'a [u32],
    variables: &[u32],
    limits: Limits,
) -> Result<Prefix<'a>, Refusal> {
    let (blocks, rest) = words.as_chunks::<3>();
    if !rest.is_empty() {
        return Err(Reason::MalformedPrefix.at(0));
    }
    let mut names = Names::default();
    let mut highest = 0;
    for (i, block) in blocks.iter().enumerate() {
        let &[kind, first, count] = block;
        let end = u64::from(first) + u64::from(count);
        if !matches!(kind, EXISTS | FOR_ALL) || end > variables.len() as u64 {
            return Err(Reason::MalformedPrefix.at(i));
        }
        for &name in range(variables, block) {
            if name == 0 || name > limits.highest || !names.insert(name) {
                return Err(Reason::MalformedPrefix.at(i));
            }
            highest = highest.max(name);
        }
    }
    Ok(Prefix {
        blocks,
        names,
        highest,
    })
}

/// Puts a text into a buffer and says how many bytes it takes; a buffer that is
/// too short is left as it is.
pub(crate) fn put(written: &[u8], text: &mut [u8]) -> Result<usize, Refusal> {
    match text.get_mut(..written.len()) {
        Some(room) => room.copy_from_slice(written),
        None => return Err(Reason::BufferTooShort.at(0)),
    }
    Ok(written.len())
}
