//! Pairs of tables to try: alpha-equivalent ones, ones that break one of the
//! conditions of [`alpha`](crate::alpha), and ones that differ in entries that no
//! block covers. The same seed always gives the same pairs.

use crate::alpha::{highest, Binder, Condition, Tree};
use crate::generate::{shuffle, Rng, Table, EDGES};
use crate::reference::{HIGHEST, LIMIT};
use crate::Node;
use std::collections::HashSet;

/// A table whose ranges have no place in a list yet.
struct Unpacked {
    /// Where ranges begin is left open.
    nodes: Vec<Node>,
    /// The numbers that each node binds: none if it is no block.
    ranges: Vec<Vec<u32>>,
}

/// One of some things, none if there are none.
fn any<T: Copy>(rng: &mut Rng, from: &[T]) -> Option<T> {
    from.get(rng.below(from.len().max(1))).copied()
}

/// A word for an entry that no block covers.
fn any_entry(rng: &mut Rng) -> u32 {
    match rng.below(3) {
        0 => rng.pick(&EDGES),
        1 => rng.bits() as u32,
        _ => rng.between(1, 9) as u32,
    }
}

/// A number from 1 to `most`.
fn any_number(rng: &mut Rng, most: u32) -> u32 {
    rng.between(1, most as usize) as u32
}

/// A number from 1 to `most` that is none of these. None if none was found.
fn any_number_but(rng: &mut Rng, most: u32, these: impl Fn(u32) -> bool) -> Option<u32> {
    let tries: Vec<u32> = (0..8).map(|_| any_number(rng, most)).collect();
    tries.into_iter().find(|&number| !these(number))
}

/// Where a range goes in a list: to numbers that stand there already, if it may
/// share them, all of it or its start over the list's end, else behind the list.
fn place(list: &mut Vec<u32>, range: &[u32], shared: bool) -> usize {
    let mut common = 0;
    if shared {
        if let Some(first) = list.windows(range.len()).position(|w| w == range) {
            return first;
        }
        let mut lengths = (1..range.len()).rev();
        let ends = lengths.find(|&k| list.ends_with(&range[..k]));
        common = ends.unwrap_or(0);
    }
    list.extend(&range[common..]);
    list.len() - range.len()
}

impl Unpacked {
    fn of(table: &Table) -> Unpacked {
        let mut ranges = vec![Vec::new(); table.len()];
        for block in table.blocks() {
            ranges[block] = table.list[table.range(block)].to_vec();
        }
        Unpacked {
            nodes: (0..table.len()).map(|i| table.node(i)).collect(),
            ranges,
        }
    }

    /// The table with its ranges packed into a list: in any order, shared where
    /// they agree or not, with entries between them that no block covers or
    /// without.
    fn packed(mut self, rng: &mut Rng) -> Table {
        let mut blocks = self.where_kind(|kind| kind >= 5);
        match rng.below(3) {
            0 => {}
            1 => blocks.reverse(),
            _ => shuffle(rng, &mut blocks),
        }
        let shared = !rng.one_in(3);
        let unused = rng.pick(&[0, 0, 1, 5]);
        let mut list = Vec::new();
        // Room for the ranges to come.
        let mut left: usize = self.ranges.iter().map(Vec::len).sum();
        let fill = |rng: &mut Rng, list: &mut Vec<u32>, left: usize| {
            let many = rng.between(0, unused).min(LIMIT - left - list.len());
            list.extend((0..many).map(|_| any_entry(rng)));
        };
        for block in blocks {
            fill(rng, &mut list, left);
            let range = &self.ranges[block];
            let first = place(&mut list, range, shared);
            left -= range.len();
            self.nodes[block][1..3].copy_from_slice(&[first as u32, range.len() as u32]);
        }
        fill(rng, &mut list, 0);
        Table::new(&self.nodes, &list)
    }

    fn where_kind(&self, wanted: impl Fn(u32) -> bool) -> Vec<usize> {
        let nodes = self.nodes.iter().enumerate();
        let wanted = nodes.filter(|(_, node)| wanted(node[0]));
        wanted.map(|(i, _)| i).collect()
    }
}

/// Which numbers a block tries first when it is given new ones.
#[derive(Clone, Copy)]
enum Way {
    Lowest,
    Highest,
    /// From one of them on.
    Successive,
    /// Those that stand in its own range.
    Old,
    /// Those that stand in the table.
    InPlay,
    Any,
}

/// The ways, those that give most numbers to several blocks more than once.
const WAYS: [Way; 9] = [
    Way::Lowest,
    Way::Lowest,
    Way::Highest,
    Way::Successive,
    Way::Old,
    Way::InPlay,
    Way::InPlay,
    Way::InPlay,
    Way::Any,
];

/// All numbers up to `most` in the order in which they are tried, some of them
/// twice.
fn in_order(
    rng: &mut Rng,
    way: Way,
    old: &[u32],
    in_play: &[u32],
    most: u32,
) -> impl Iterator<Item = u32> {
    let wanted: Vec<u32> = match way {
        Way::Old => old.to_vec(),
        Way::InPlay => old.iter().map(|_| rng.pick(in_play)).collect(),
        Way::Any => old.iter().map(|_| any_number(rng, most)).collect(),
        _ => Vec::new(),
    };
    let start = match way {
        Way::Highest => most.saturating_sub(old.len() as u32) + 1,
        Way::Successive => any_number(rng, most),
        _ => 1,
    };
    let wanted = wanted.into_iter().filter(move |&number| number <= most);
    wanted.chain(start..=most).chain(1..start)
}

/// A table with new numbers in its ranges: every variable node keeps its binder
/// and its position, a free one its number. The highest number is `most`. None if
/// that can't be; with the table's own highest number it can.
fn renamed(rng: &mut Rng, table: &Table, most: u32) -> Option<Unpacked> {
    let tree = Tree::new(table);
    let mut renamed = Unpacked::of(table);
    // By block, the variable nodes that it binds, with their positions, and those
    // that it is passed by: they are below it, and free or bound above it.
    let mut bound = vec![Vec::new(); table.len()];
    let mut passing: Vec<Vec<usize>> = vec![Vec::new(); table.len()];
    let mut reached = 0;
    for leaf in table.where_kind(|kind| kind == 2) {
        passing_blocks(&tree, leaf).for_each(|block| passing[block].push(leaf));
        match tree.binder(leaf) {
            Some(Binder { block, position }) => bound[block].push((leaf, position)),
            None => reached = reached.max(table.node(leaf)[1]),
        }
    }
    let in_play = in_play(table);
    let usual = rng.pick(&WAYS);
    let blocks = table.blocks();
    // What binds the highest number unless it is free or bound above.
    let chosen = any(rng, &blocks);
    // From the root down: what a block is passed by has its number when the block
    // is given its own, and no more numbers are taken by it than in the table.
    for &block in blocks.iter().rev() {
        let old = &table.list[table.range(block)];
        let numbers = passing[block].iter().map(|&leaf| renamed.nodes[leaf][1]);
        let mut taken: HashSet<u32> = numbers.collect();
        let other = rng.pick(&WAYS);
        let way = if rng.one_in(8) { other } else { usual };
        let mut range: Vec<u32> = in_order(rng, way, old, &in_play, most)
            .filter(|&number| taken.insert(number))
            .take(old.len())
            .collect();
        if range.len() < old.len() {
            return None;
        }
        if rng.one_in(3) {
            shuffle(rng, &mut range);
        }
        if chosen == Some(block) && reached < most && !range.contains(&most) {
            let at = rng.below(range.len());
            range[at] = most;
        }
        reached = range.iter().copied().fold(reached, u32::max);
        for &(leaf, position) in &bound[block] {
            renamed.nodes[leaf][1] = range[position];
        }
        renamed.ranges[block] = range;
    }
    (reached == most).then_some(renamed)
}

/// The blocks above a variable node that are nearer than its binder, all if it is
/// free.
fn passing_blocks<'a>(tree: &'a Tree, leaf: usize) -> impl Iterator<Item = usize> + 'a {
    let binder = tree.binder(leaf).map(|binder| binder.block);
    let above = tree.blocks_above(leaf);
    above.take_while(move |&block| Some(block) != binder)
}

/// The numbers at a table's variable nodes and in its ranges.
fn in_play(table: &Table) -> Vec<u32> {
    let leaves = table.where_kind(|kind| kind == 2).into_iter();
    let blocks = table.blocks().into_iter();
    leaves
        .map(|leaf| table.node(leaf)[1])
        .chain(blocks.flat_map(|block| table.list[table.range(block)].iter().copied()))
        .collect()
}

/// An alpha-equivalent table with the same highest number, now and then with the
/// same numbers, and its list packed anew.
pub fn alpha_equivalent(rng: &mut Rng, table: &Table) -> Table {
    let other = if rng.one_in(10) {
        Unpacked::of(table)
    } else {
        renamed(rng, table, highest(table)).expect("its own numbers are enough")
    };
    other.packed(rng)
}

/// One thing to change in a table, and with it in its prenex form.
#[derive(Clone, Copy, Debug, PartialEq, Eq)]
pub enum Change {
    /// A not more or less at the root.
    Length,
    /// A variable for a constant or a not for a block, or the other way round.
    Kind,
    Constant,
    TruthTable,
    /// Two operands or bodies exchanged.
    Operands,
    Count,
    Quantifier,
    /// Another number at a free variable node.
    FreeNumber,
    /// A bound variable node bound by another block.
    OtherBlock,
    /// A bound variable node free.
    Freed,
    /// A free variable node bound.
    Bound,
    /// A number of a block replaced by one that passes it.
    Captured,
    /// A bound variable node at another position of its block's range.
    Position,
    HigherNumber,
    LowerNumber,
}

impl Change {
    pub const ALL: [Change; 15] = [
        Change::Length,
        Change::Kind,
        Change::Constant,
        Change::TruthTable,
        Change::Operands,
        Change::Count,
        Change::Quantifier,
        Change::FreeNumber,
        Change::OtherBlock,
        Change::Freed,
        Change::Bound,
        Change::Captured,
        Change::Position,
        Change::HigherNumber,
        Change::LowerNumber,
    ];

    /// The one condition that it breaks.
    pub fn breaks(self) -> Condition {
        match self {
            Change::Length
            | Change::Kind
            | Change::Constant
            | Change::TruthTable
            | Change::Operands
            | Change::Count
            | Change::Quantifier => Condition::Nodes,
            Change::FreeNumber => Condition::FreeNumbers,
            Change::OtherBlock | Change::Freed | Change::Bound | Change::Captured => {
                Condition::Binders
            }
            Change::Position => Condition::Positions,
            Change::HigherNumber | Change::LowerNumber => Condition::Highest,
        }
    }
}

/// An accepted table that is alpha-equivalent and has the same highest number but
/// for one change. None if no place for it was found.
pub fn changed(rng: &mut Rng, table: &Table, change: Change) -> Option<Table> {
    let own = highest(table);
    let most = match change {
        Change::HigherNumber if own < HIGHEST => match rng.below(2) {
            0 => own + 1,
            _ => own + any_number(rng, HIGHEST - own),
        },
        Change::LowerNumber if own > 1 => match rng.below(2) {
            0 => own - 1,
            _ => any_number(rng, own - 1),
        },
        Change::HigherNumber | Change::LowerNumber => return None,
        _ => own,
    };
    let mut other = renamed(rng, table, most)?;
    match change.breaks() {
        Condition::Nodes => other.change_node(rng, change)?,
        Condition::Highest => {}
        _ => other.change_number(rng, change, &Tree::new(table), most)?,
    }
    let other = other.packed(rng);
    (change.breaks() == Condition::Nodes || highest(&other) == most).then_some(other)
}

impl Unpacked {
    /// Makes a change that breaks the condition on nodes.
    fn change_node(&mut self, rng: &mut Rng, change: Change) -> Option<()> {
        let kinds = match change {
            Change::Constant => 1..=1,
            Change::TruthTable => 4..=4,
            Change::Count | Change::Quantifier => 5..=6,
            _ => 1..=6,
        };
        let i = any(rng, &self.where_kind(|kind| kinds.contains(&kind)))?;
        let bound: usize = self.ranges.iter().map(Vec::len).sum();
        let Unpacked { nodes, ranges } = self;
        match change {
            Change::Length => {
                if matches!(nodes[..], [.., [3, ..]]) && rng.one_in(2) {
                    nodes.pop();
                    ranges.pop();
                } else if nodes.len() < LIMIT {
                    let root = nodes.len() as u32 - 1;
                    nodes.push([3, root, 0, 0]);
                    ranges.push(Vec::new());
                } else {
                    return None;
                }
            }
            Change::Kind => {
                let number = any_number(rng, HIGHEST);
                nodes[i] = match nodes[i] {
                    [1, ..] => [2, number, 0, 0],
                    [2, ..] => [1, rng.below(2) as u32, 0, 0],
                    [3, operand, ..] if bound < LIMIT => {
                        ranges[i] = vec![number];
                        [rng.pick(&[5, 6]), 0, 1, operand]
                    }
                    [5 | 6, _, _, body] => {
                        ranges[i].clear();
                        [3, body, 0, 0]
                    }
                    _ => return None,
                }
            }
            Change::Constant => nodes[i][1] ^= 1,
            Change::TruthTable => nodes[i][1] ^= rng.between(1, 15) as u32,
            Change::Operands => self.exchange_operands(rng)?,
            Change::Count => {
                let range = &mut ranges[i];
                let at = rng.below(range.len());
                if range.len() > 1 && rng.one_in(2) {
                    range.remove(at);
                } else if bound < LIMIT {
                    let new = any_number_but(rng, HIGHEST, |number| range.contains(&number))?;
                    range.insert(at, new);
                } else {
                    return None;
                }
            }
            Change::Quantifier => nodes[i][0] = 5 + 6 - nodes[i][0],
            _ => return None,
        }
        Some(())
    }

    /// Exchanges two operands or bodies. Nodes still name lower ones.
    fn exchange_operands(&mut self, rng: &mut Rng) -> Option<()> {
        let named = |node: &Node| match node[0] {
            3 => 1..2,
            4 => 2..4,
            5 | 6 => 3..4,
            _ => 0..0,
        };
        let nodes = self.nodes.iter().enumerate();
        let fields: Vec<(usize, usize)> = nodes
            .flat_map(|(i, node)| named(node).map(move |field| (i, field)))
            .collect();
        let (i, field) = any(rng, &fields)?;
        let operand = self.nodes[i][field];
        let mut others = fields;
        others.retain(|&(j, other)| operand < j as u32 && j <= i && (j, other) != (i, field));
        let (j, other) = any(rng, &others)?;
        self.nodes[i][field] = std::mem::replace(&mut self.nodes[j][other], operand);
        Some(())
    }

    /// Makes a change that breaks the condition on free numbers, binders or
    /// positions. The tree is that of the table from which this one comes.
    fn change_number(
        &mut self,
        rng: &mut Rng,
        change: Change,
        tree: &Tree,
        most: u32,
    ) -> Option<()> {
        let mut leaves = self.where_kind(|kind| kind == 2);
        leaves.retain(|&leaf| match change {
            Change::FreeNumber | Change::Bound => tree.binder(leaf).is_none(),
            Change::Captured => true,
            _ => tree.binder(leaf).is_some(),
        });
        let leaf = any(rng, &leaves)?;
        let old = self.nodes[leaf][1];
        let Unpacked { nodes, ranges } = self;
        if change == Change::Captured {
            let passing: Vec<usize> = passing_blocks(tree, leaf).collect();
            let range = &mut ranges[any(rng, &passing)?];
            let at = rng.below(range.len());
            range[at] = old;
            return Some(());
        }
        // The numbers that are bound where this one stands, each with its block.
        let mut covered = HashSet::new();
        let mut bound = Vec::new();
        for block in tree.blocks_above(leaf) {
            let numbers = ranges[block].iter().copied();
            let new = numbers.filter(|&number| covered.insert(number));
            bound.extend(new.map(|number| (block, number)));
        }
        let binder = tree.binder(leaf).map(|binder| binder.block);
        bound.retain(|&(block, number)| match change {
            Change::OtherBlock => Some(block) != binder,
            Change::Position => Some(block) == binder && number != old,
            _ => true,
        });
        match change {
            Change::FreeNumber | Change::Freed => {
                let taken = |number| number == old || covered.contains(&number);
                nodes[leaf][1] = any_number_but(rng, most, taken)?;
            }
            Change::Position if rng.one_in(2) => {
                let (block, new) = any(rng, &bound)?;
                for entry in &mut ranges[block] {
                    if *entry == old {
                        *entry = new;
                    } else if *entry == new {
                        *entry = old;
                    }
                }
            }
            _ => nodes[leaf][1] = any(rng, &bound)?.1,
        }
        Some(())
    }
}

/// A table, accepted or not, with other entries where no block covers them, and
/// how many these are.
pub fn with_other_unused(rng: &mut Rng, table: &Table) -> (Table, usize) {
    let mut unused = vec![true; table.list.len()];
    for i in 0..table.len() {
        if let [5 | 6, first, count, _] = table.node(i) {
            let from = unused.iter_mut().skip(first as usize);
            from.take(count as usize).for_each(|unused| *unused = false);
        }
    }
    let mut other = table.clone();
    for (entry, &unused) in other.list.iter_mut().zip(&unused) {
        if unused {
            *entry = any_entry(rng);
        }
    }
    (other, unused.into_iter().filter(|&unused| unused).count())
}
