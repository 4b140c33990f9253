//! The four operations over tables in plain Rust, independent of the static library: the
//! other side of the comparison tests and of the benchmark.
//!
//! All passes are linear in nodes, list entries covered, words written and the
//! highest number.

use crate::answer::{Reason, Refusal, Sizes};

/// Most nodes, list entries and bound variables of a table.
pub const LIMIT: usize = 4096;
/// The highest variable number of a table.
pub const HIGHEST: u32 = 65_535;

pub(crate) const CONSTANT: u32 = 1;
pub(crate) const VARIABLE: u32 = 2;
pub(crate) const NOT: u32 = 3;
pub(crate) const OPERATOR: u32 = 4;
pub(crate) const EXISTS: u32 = 5;
pub(crate) const FOR_ALL: u32 = 6;

pub(crate) const XOR: u32 = 6;
pub(crate) const AND: u32 = 8;
const IFF: u32 = 9;
const IMPLIES: u32 = 11;
pub(crate) const OR: u32 = 14;

/// The words of a node: a kind and three fields.
pub const WIDTH: usize = 4;

pub type Node = [u32; WIDTH];

/// A set of variable numbers.
struct NumberSet([u64; 1024]);

impl NumberSet {
    fn new() -> NumberSet {
        NumberSet([0; 1024])
    }

    /// Adds a number up to 65,535 and says whether it was new.
    fn insert(&mut self, number: u32) -> bool {
        let word = &mut self.0[number as usize / 64];
        let bit = 1 << (number % 64);
        let new = *word & bit == 0;
        *word |= bit;
        new
    }

    fn remove(&mut self, number: u32) {
        self.0[number as usize / 64] &= !(1 << (number % 64));
    }

    fn contains(&self, number: u32) -> bool {
        self.0[number as usize / 64] >> (number % 64) & 1 == 1
    }
}

/// Whether a table may have blocks that bind nothing.
#[derive(Clone, Copy, PartialEq)]
enum EmptyBlocks {
    Refused,
    Allowed,
}

/// A table that is not refused, and what checking it finds out on its way.
struct Summary<'a> {
    table: &'a [Node],
    /// The highest number at a variable node or in a range, 0 if none.
    highest: u32,
    blocks: u32,
    /// How many of the blocks are empty.
    empty: u32,
    /// The sum of the blocks' counts.
    bound: u32,
    depth: u32,
}

impl Summary<'_> {
    /// Count of the root if it is a block.
    fn root_count(&self) -> Option<u32> {
        match self.table {
            [.., [EXISTS | FOR_ALL, _, count, _]] => Some(*count),
            _ => None,
        }
    }

    /// The sizes of a table without empty blocks, and of its form.
    fn sizes(&self) -> Sizes {
        let n = self.table.len() as u32;
        let (b, q, depth) = (self.blocks, self.bound, self.depth);
        let mut sizes = Sizes {
            n,
            b,
            q,
            depth,
            // Each block's definition has 5 nodes and 4 for each variable.
            nodes: n + 5 * b + 4 * q,
            blocks: if b == 0 { 0 } else { depth + 1 },
            entries: 2 * q + b,
        };
        if let Some(count) = self.root_count() {
            // A root block goes, needs no definition and opens the prefix.
            sizes.nodes -= 1 + 5 + 4 * count;
            sizes.blocks -= 1;
            sizes.entries -= count + 1;
        }
        sizes
    }
}

/// Tests a table for refusals 1 to 8, and for 16 if empty blocks are refused.
fn check<'a>(
    words: &'a [u32],
    list: &[u32],
    empty_blocks: EmptyBlocks,
) -> Result<Summary<'a>, Refusal> {
    let (table, rest) = words.as_chunks::<4>();
    if table.is_empty() || !rest.is_empty() {
        return Err(Reason::PartialNode.at(0));
    }
    if table.len() > LIMIT || list.len() > LIMIT {
        return Err(Reason::TooLarge.at(0));
    }
    let mut uses = vec![0u16; table.len()];
    // Quantifier depth of the subformula at each node.
    let mut depth = vec![0u16; table.len()];
    let mut seen = NumberSet::new();
    let mut highest = 0;
    let mut blocks = 0;
    let mut empty = 0;
    let mut bound = 0;
    for (i, &[kind, a, b, c]) in table.iter().enumerate() {
        match kind {
            CONSTANT => {
                if a > 1 || b != 0 || c != 0 {
                    return Err(Reason::MalformedNode.at(i));
                }
            }
            VARIABLE => {
                if a == 0 || a > HIGHEST || b != 0 || c != 0 {
                    return Err(Reason::MalformedNode.at(i));
                }
                highest = highest.max(a);
            }
            NOT => {
                if b != 0 || c != 0 {
                    return Err(Reason::MalformedNode.at(i));
                }
                let operand = a as usize;
                if operand >= i {
                    return Err(Reason::ForwardReference.at(i));
                }
                uses[operand] += 1;
                depth[i] = depth[operand];
            }
            OPERATOR => {
                if a > 15 {
                    return Err(Reason::MalformedNode.at(i));
                }
                let (left, right) = (b as usize, c as usize);
                if left >= i || right >= i {
                    return Err(Reason::ForwardReference.at(i));
                }
                uses[left] += 1;
                uses[right] += 1;
                depth[i] = depth[left].max(depth[right]);
            }
            EXISTS | FOR_ALL => {
                let body = c as usize;
                if body >= i {
                    return Err(Reason::ForwardReference.at(i));
                }
                let (first, count) = (a as usize, b as usize);
                if count > list.len() || first > list.len() - count {
                    return Err(Reason::RangePastEnd.at(i));
                }
                if count == 0 && empty_blocks == EmptyBlocks::Refused {
                    return Err(Reason::EmptyBlock.at(i));
                }
                if bound + count > LIMIT {
                    return Err(Reason::TooManyVariables.at(i));
                }
                let range = &list[first..first + count];
                for &number in range {
                    if number == 0 || number > HIGHEST || !seen.insert(number) {
                        return Err(Reason::BadVariable.at(i));
                    }
                    highest = highest.max(number);
                }
                for &number in range {
                    seen.0[number as usize / 64] = 0;
                }
                uses[body] += 1;
                depth[i] = depth[body] + 1;
                blocks += 1;
                empty += u32::from(count == 0);
                bound += count;
            }
            _ => return Err(Reason::MalformedNode.at(i)),
        }
    }
    let last = table.len() - 1;
    if let Some(i) = uses[..last].iter().position(|&u| u != 1) {
        return Err(Reason::NotATree.at(i).used_by(two_users(table, i as u32)));
    }
    Ok(Summary {
        table,
        highest,
        blocks,
        empty,
        bound: bound as u32,
        depth: depth[last].into(),
    })
}

/// The nodes that a node names.
fn operands(node: &Node) -> &[u32] {
    match node[0] {
        NOT => &node[1..2],
        OPERATOR => &node[2..4],
        EXISTS | FOR_ALL => &node[3..4],
        _ => &[],
    }
}

/// The two lowest nodes that name node x, one that names it twice standing
/// twice.
fn two_users(table: &[Node], x: u32) -> Option<[u32; 2]> {
    let mut users = (0..).zip(table).flat_map(|(i, node)| {
        let names = operands(node).iter().filter(move |&&operand| operand == x);
        names.map(move |_| i)
    });
    Some([users.next()?, users.next()?])
}

/// The sizes of a table and of its prenex form.
pub fn measure(words: &[u32], list: &[u32]) -> Result<Sizes, Refusal> {
    Ok(check(words, list, EmptyBlocks::Refused)?.sizes())
}

/// A block and the names it is given. A root block has level 0 and neither
/// copies nor a definition variable.
struct Block {
    kind: u32,
    count: u32,
    body: u32,
    level: u32,
    names: u32,
    copies: u32,
    definition: u32,
}

/// The nodes of a form, written one after the other.
struct Nodes<'a> {
    out: &'a mut [Node],
    len: usize,
}

impl Nodes<'_> {
    fn push(&mut self, node: Node) -> u32 {
        let at = self.len;
        self.out[at] = node;
        self.len += 1;
        at as u32
    }

    fn variable(&mut self, name: u32) -> u32 {
        self.push([VARIABLE, name, 0, 0])
    }

    fn operator(&mut self, truth_table: u32, left: u32, right: u32) -> u32 {
        self.push([OPERATOR, truth_table, left, right])
    }
}

/// Prefix variables, written one after the other.
struct Variables<'a> {
    out: &'a mut [u32],
    len: usize,
}

impl Variables<'_> {
    /// Writes `count` names from `first` up.
    fn push(&mut self, first: u32, count: u32) {
        let end = self.len + count as usize;
        for (out, name) in self.out[self.len..end].iter_mut().zip(first..) {
            *out = name;
        }
        self.len = end;
    }
}

/// Writes a table's prenex form into three buffers.
pub fn lift(
    words: &[u32],
    list: &[u32],
    nodes: &mut [u32],
    prefix: &mut [u32],
    variables: &mut [u32],
) -> Result<Sizes, Refusal> {
    let summary = check(words, list, EmptyBlocks::Refused)?;
    let sizes = summary.sizes();
    let nodes_len = WIDTH * sizes.nodes as usize;
    let prefix_len = 3 * sizes.blocks as usize;
    let variables_len = sizes.entries as usize;
    if nodes.len() < nodes_len || prefix.len() < prefix_len || variables.len() < variables_len {
        return Err(Reason::BufferTooShort.at(0));
    }
    if sizes.b == 0 {
        nodes[..words.len()].copy_from_slice(words);
        return Ok(sizes);
    }
    let nodes = nodes[..nodes_len].as_chunks_mut::<4>().0;
    let prefix = prefix[..prefix_len].as_chunks_mut::<3>().0;
    let variables = &mut variables[..variables_len];

    let root_count = summary.root_count();
    let kept = summary.table.len() - usize::from(root_count.is_some());
    let mut blocks = write_matrix(&summary, list, &mut nodes[..kept]);
    // The root has the highest index, so a root block is the last.
    let root = root_count.and_then(|_| blocks.pop());
    let levels = by_level(&blocks, sizes.blocks as usize - 1);
    let outermost = root.as_ref().map_or(FOR_ALL, |root| root.kind);

    write_definitions(
        &levels,
        outermost,
        Nodes {
            out: nodes,
            len: kept,
        },
    );
    write_prefix(&levels, outermost, root.as_ref(), prefix, variables);
    Ok(sizes)
}

/// Writes the table's nodes but for a root block, with bound variables renamed
/// and inner blocks replaced by their definition variables. Returns the blocks
/// in node order.
fn write_matrix(summary: &Summary, list: &[u32], out: &mut [Node]) -> Vec<Block> {
    let table = summary.table;
    let inner_bound = summary.bound - summary.root_count().unwrap_or(0);
    let mut names = summary.highest + 1;
    let mut copies = names + summary.bound;
    let mut definition = copies + inner_bound;
    let mut blocks = Vec::with_capacity(summary.blocks as usize);
    let mut block_at = vec![0u16; table.len()];
    for (i, &[kind, _, count, body]) in table.iter().enumerate() {
        if kind == EXISTS || kind == FOR_ALL {
            block_at[i] = blocks.len() as u16;
            blocks.push(Block {
                kind,
                count,
                body,
                level: 0,
                names,
                copies,
                definition,
            });
            names += count;
            copies += count;
            definition += 1;
        }
    }

    out.copy_from_slice(&table[..out.len()]);

    // From the root down, with the present name of every number at hand.
    enum Step {
        Enter(u32),
        Leave(u32),
    }
    let mut name_of: Vec<u32> = (0..=summary.highest).collect();
    let mut hidden = Vec::with_capacity(summary.bound as usize);
    let mut level = 0;
    let mut steps = Vec::with_capacity(table.len());
    let mut i = table.len() - 1;
    loop {
        let [kind, a, b, c] = table[i];
        match kind {
            VARIABLE => out[i][1] = name_of[a as usize],
            NOT => {
                i = a as usize;
                continue;
            }
            OPERATOR => {
                steps.push(Step::Enter(b));
                i = c as usize;
                continue;
            }
            EXISTS | FOR_ALL => {
                let block = &mut blocks[block_at[i] as usize];
                for (&number, name) in list[a as usize..][..b as usize].iter().zip(block.names..) {
                    hidden.push(std::mem::replace(&mut name_of[number as usize], name));
                }
                if i < out.len() {
                    level += 1;
                    block.level = level;
                    out[i] = [VARIABLE, block.definition, 0, 0];
                    steps.push(Step::Leave(i as u32));
                }
                i = c as usize;
                continue;
            }
            _ => {}
        }
        i = loop {
            match steps.pop() {
                Some(Step::Enter(next)) => break next as usize,
                Some(Step::Leave(block)) => {
                    let [_, first, count, _] = table[block as usize];
                    let range = &list[first as usize..][..count as usize];
                    let since = hidden.len() - range.len();
                    for (&number, &name) in range.iter().zip(&hidden[since..]) {
                        name_of[number as usize] = name;
                    }
                    hidden.truncate(since);
                    level -= 1;
                }
                None => return blocks,
            }
        };
    }
}

/// Inner blocks by level, in node order within a level.
struct Levels<'a> {
    blocks: Vec<&'a Block>,
    /// Where each level ends in `blocks`; `ends[0]` is 0.
    ends: Vec<usize>,
}

impl Levels<'_> {
    fn count(&self) -> usize {
        self.ends.len() - 1
    }

    /// The blocks of a level from 1 up; none past the last.
    fn level(&self, level: usize) -> &[&Block] {
        match self.ends.get(level) {
            Some(&end) => &self.blocks[self.ends[level - 1]..end],
            None => &[],
        }
    }
}

fn by_level(blocks: &[Block], levels: usize) -> Levels<'_> {
    let mut ends = vec![0; levels + 1];
    for block in blocks {
        ends[block.level as usize] += 1;
    }
    // Now starts of the levels; each moves to its level's end below.
    let mut start = 0;
    for end in &mut ends[1..] {
        start += std::mem::replace(end, start);
    }
    let Some(any) = blocks.first() else {
        return Levels {
            blocks: Vec::new(),
            ends,
        };
    };
    let mut sorted = vec![any; blocks.len()];
    for block in blocks {
        let place = &mut ends[block.level as usize];
        sorted[*place] = block;
        *place += 1;
    }
    Levels {
        blocks: sorted,
        ends,
    }
}

fn dual(kind: u32) -> u32 {
    EXISTS + FOR_ALL - kind
}

/// Writes the definitions of all levels, joining each level's to the matrix.
fn write_definitions(levels: &Levels, outermost: u32, mut nodes: Nodes) {
    let mut kind = outermost;
    let mut matrix = nodes.len as u32 - 1;
    for level in 1..=levels.count() {
        let mut all = None;
        for block in levels.level(level) {
            let one = write_definition(block, &mut nodes);
            all = Some(match all {
                None => one,
                Some(before) => nodes.operator(AND, before, one),
            });
        }
        if let Some(all) = all {
            matrix = if kind == FOR_ALL {
                nodes.operator(AND, matrix, all)
            } else {
                nodes.operator(IMPLIES, all, matrix)
            };
        }
        kind = dual(kind);
    }
}

/// Writes the definition of one inner block: its definition variable has the
/// body's value, and unless that value decides the block, the bound variables
/// have the values of their copies.
fn write_definition(block: &Block, nodes: &mut Nodes) -> u32 {
    let defined = nodes.variable(block.definition);
    let definition = nodes.operator(IFF, defined, block.body);
    let equality = |nodes: &mut Nodes, k: u32| {
        let name = nodes.variable(block.names + k);
        let copy = nodes.variable(block.copies + k);
        nodes.operator(IFF, name, copy)
    };
    let mut all = equality(nodes, 0);
    for k in 1..block.count {
        let equal = equality(nodes, k);
        all = nodes.operator(AND, all, equal);
    }
    let defined = nodes.variable(block.definition);
    let guard = if block.kind == EXISTS { OR } else { IMPLIES };
    let guarded = nodes.operator(guard, defined, all);
    nodes.operator(AND, definition, guarded)
}

/// Writes the prefix blocks and their variables.
fn write_prefix(
    levels: &Levels,
    outermost: u32,
    root: Option<&Block>,
    prefix: &mut [[u32; 3]],
    variables: &mut [u32],
) {
    let mut variables = Variables {
        out: variables,
        len: 0,
    };
    let mut kind = outermost;
    for (j, out) in prefix.iter_mut().enumerate() {
        let first = variables.len;
        if j == 0 {
            if let Some(root) = root {
                variables.push(root.names, root.count);
            }
        } else {
            for block in levels.level(j) {
                variables.push(block.names, block.count);
                variables.push(block.definition, 1);
            }
        }
        for block in levels.level(j + 1) {
            variables.push(block.copies, block.count);
        }
        *out = [kind, first as u32, (variables.len - first) as u32];
        kind = dual(kind);
    }
}

/// Calls `found` with the number at each variable node that no block above it
/// covers.
fn each_free_leaf(summary: &Summary, list: &[u32], mut found: impl FnMut(u32)) {
    let table = summary.table;
    if summary.blocks == 0 {
        for &[kind, number, _, _] in table {
            if kind == VARIABLE {
                found(number);
            }
        }
        return;
    }
    // From the root down, with the numbers that the blocks above cover at hand:
    // as a set, and in the order in which they came to it.
    let mut covered = NumberSet::new();
    let mut order = Vec::with_capacity(summary.bound as usize);
    // Left operands to come, each with how many numbers are covered above it.
    let mut lefts = Vec::with_capacity(table.len() / 2);
    let mut i = table.len() as u32 - 1;
    loop {
        let [kind, a, b, c] = table[i as usize];
        i = match kind {
            NOT => a,
            OPERATOR => {
                lefts.push((b, order.len() as u32));
                c
            }
            EXISTS | FOR_ALL => {
                for &number in &list[a as usize..][..b as usize] {
                    if covered.insert(number) {
                        order.push(number);
                    }
                }
                c
            }
            _ => {
                if kind == VARIABLE && !covered.contains(a) {
                    found(a);
                }
                let Some((left, above)) = lefts.pop() else {
                    return;
                };
                for &number in &order[above as usize..] {
                    covered.remove(number);
                }
                order.truncate(above as usize);
                left
            }
        };
    }
}

/// Writes the numbers with a variable node that no block above it covers,
/// ascending and once each, and says how many they are.
pub fn free_variables(words: &[u32], list: &[u32], names: &mut [u32]) -> Result<u32, Refusal> {
    let summary = check(words, list, EmptyBlocks::Refused)?;
    let mut free = NumberSet::new();
    let mut written = 0;
    each_free_leaf(&summary, list, |number| {
        written += u32::from(free.insert(number));
    });
    if names.len() < written as usize {
        return Err(Reason::BufferTooShort.at(0));
    }
    let mut out = names.iter_mut();
    let used = &free.0[..=summary.highest as usize / 64];
    for (i, &word) in used.iter().enumerate() {
        let mut left = word;
        while left != 0 {
            *out.next().expect("counted above") = 64 * i as u32 + left.trailing_zeros();
            left &= left - 1;
        }
    }
    Ok(written)
}

/// Writes a table's nodes without its empty blocks and says how many are left.
pub fn remove_empty_blocks(words: &[u32], list: &[u32], nodes: &mut [u32]) -> Result<u32, Refusal> {
    let Summary { table, empty, .. } = check(words, list, EmptyBlocks::Allowed)?;
    let left = table.len() - empty as usize;
    if nodes.len() < WIDTH * left {
        return Err(Reason::BufferTooShort.at(0));
    }
    let out = &mut nodes.as_chunks_mut::<4>().0[..left];
    // Where each node goes, and for an empty block where its body does.
    let mut places = vec![0u16; table.len()];
    let mut written = 0;
    for (i, &[kind, a, b, c]) in table.iter().enumerate() {
        let place = |x: u32| u32::from(places[x as usize]);
        let node = match kind {
            NOT => [kind, place(a), b, c],
            OPERATOR => [kind, a, place(b), place(c)],
            EXISTS | FOR_ALL if b == 0 => {
                places[i] = places[c as usize];
                continue;
            }
            EXISTS | FOR_ALL => [kind, a, b, place(c)],
            _ => [kind, a, b, c],
        };
        places[i] = written as u16;
        out[written] = node;
        written += 1;
    }
    Ok(left as u32)
}
