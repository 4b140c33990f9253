//! Tables to try: random accepted ones, the same with empty blocks, damaged ones,
//! and the families of the benchmark. The same seed always gives the same tables.

use crate::answer::{Reason, Refusal};
use crate::reference::{Node, HIGHEST, LIMIT, WIDTH};
pub use crate::Table;

/// A small generator of pseudo-random numbers (splitmix64).
pub struct Rng(u64);

impl Rng {
    pub fn new(seed: u64) -> Rng {
        Rng(seed)
    }

    pub fn bits(&mut self) -> u64 {
        self.0 = self.0.wrapping_add(0x9E37_79B9_7F4A_7C15);
        let mut z = self.0;
        z = (z ^ z >> 30).wrapping_mul(0xBF58_476D_1CE4_E5B9);
        z = (z ^ z >> 27).wrapping_mul(0x94D0_49BB_1331_11EB);
        z ^ z >> 31
    }

    /// A number below `n`, which is not 0.
    pub fn below(&mut self, n: usize) -> usize {
        (self.bits() % n as u64) as usize
    }

    /// A number from `low` to `high`, both included.
    pub fn between(&mut self, low: usize, high: usize) -> usize {
        low + self.below(high - low + 1)
    }

    pub fn one_in(&mut self, n: usize) -> bool {
        self.below(n) == 0
    }

    pub fn pick<T: Copy>(&mut self, from: &[T]) -> T {
        from[self.below(from.len())]
    }
}

impl Table {
    pub fn new(nodes: &[Node], list: &[u32]) -> Table {
        Table {
            words: nodes.concat(),
            list: list.to_vec(),
        }
    }

    pub fn len(&self) -> usize {
        self.words.len() / WIDTH
    }

    pub fn is_empty(&self) -> bool {
        self.words.is_empty()
    }

    pub fn node(&self, i: usize) -> Node {
        self.words[WIDTH * i..WIDTH * i + WIDTH]
            .try_into()
            .expect("the words of a node")
    }

    pub fn node_mut(&mut self, i: usize) -> &mut [u32] {
        &mut self.words[WIDTH * i..WIDTH * i + WIDTH]
    }

    /// Adds a node and gives its index.
    pub fn push(&mut self, node: Node) -> u32 {
        self.words.extend(node);
        self.len() as u32 - 1
    }

    fn variable(&mut self, number: u32) -> u32 {
        self.push([2, number, 0, 0])
    }

    fn not(&mut self, operand: u32) -> u32 {
        self.push([3, operand, 0, 0])
    }

    fn operator(&mut self, truth_table: u32, left: u32, right: u32) -> u32 {
        self.push([4, truth_table, left, right])
    }

    /// Adds a block whose range is new in the list.
    fn block(&mut self, kind: u32, numbers: &[u32], body: u32) -> u32 {
        let first = self.list.len() as u32;
        self.list.extend(numbers);
        self.push([kind, first, numbers.len() as u32, body])
    }

    pub(crate) fn blocks(&self) -> Vec<usize> {
        self.where_kind(|kind| kind == 5 || kind == 6)
    }

    pub(crate) fn where_kind(&self, wanted: impl Fn(u32) -> bool) -> Vec<usize> {
        (0..self.len())
            .filter(|&i| wanted(self.node(i)[0]))
            .collect()
    }

    pub(crate) fn range(&self, block: usize) -> std::ops::Range<usize> {
        let [_, first, count, _] = self.node(block);
        first as usize..(first + count) as usize
    }
}

/// Which of the nodes that nothing names yet become operands.
#[derive(Clone, Copy, Debug)]
pub enum Order {
    /// The newest: nodes come in post-order, and trees are deep.
    Newest,
    /// The oldest: nodes come by height, and trees are flat.
    Oldest,
    /// Any: nodes come in no particular order.
    Any,
    /// The newest or any.
    Mixed,
}

/// What a random table is made of.
#[derive(Clone, Debug)]
pub struct Profile {
    pub nodes: usize,
    /// Numbers at variable nodes and in ranges, all different.
    pub numbers: Vec<u32>,
    pub order: Order,
    /// How often leaves, nots, operators and blocks come.
    pub weights: [usize; 4],
    /// The largest count of a block, which has a variable at least.
    pub most_count: usize,
    /// The largest sum of counts.
    pub most_bound: usize,
}

impl Profile {
    /// Something of everything, over a table of this many nodes.
    pub fn random(rng: &mut Rng, nodes: usize) -> Profile {
        let many = match rng.below(4) {
            0 => rng.between(1, 3),
            1 => rng.between(4, 12),
            _ => rng.between(1, 2 * nodes.min(1500) + 2),
        };
        let order = rng.pick(&[Order::Newest, Order::Oldest, Order::Any, Order::Mixed]);
        let weights = rng.pick(&[
            [4, 1, 3, 1],
            [4, 1, 3, 3],
            [2, 1, 1, 6],
            [6, 0, 1, 3],
            [5, 2, 4, 0],
            [1, 1, 1, 20],
            [1, 1, 1, 200],
        ]);
        let most_count = match rng.below(8) {
            0 | 1 => 1,
            2 | 3 => 3,
            4 | 5 => 10,
            6 => 100,
            _ => LIMIT,
        };
        Profile {
            nodes,
            numbers: numbers(rng, many),
            order,
            weights,
            most_count,
            most_bound: LIMIT,
        }
    }

    /// A table small enough for brute force.
    pub fn tiny(rng: &mut Rng) -> Profile {
        let nodes = rng.between(1, 16);
        let many = rng.between(1, 4);
        Profile {
            numbers: numbers(rng, many),
            most_count: rng.between(1, 3),
            most_bound: rng.between(1, 5),
            weights: rng.pick(&[[4, 1, 3, 2], [3, 1, 2, 3], [4, 2, 2, 4], [5, 1, 4, 1]]),
            ..Profile::random(rng, nodes)
        }
    }

    /// Few numbers and many small blocks: most numbers are free in one place
    /// and bound in another.
    pub fn few_numbers(rng: &mut Rng, nodes: usize) -> Profile {
        let many = rng.between(1, 3 + nodes / 12) as u32;
        let highest = rng.pick(&[many, 4095, 4096, 4096 + many / 2, HIGHEST]);
        Profile {
            numbers: (highest + 1 - many..=highest).collect(),
            weights: rng.pick(&[[2, 1, 2, 2], [3, 0, 3, 5], [2, 1, 2, 8]]),
            most_count: rng.between(1, 3),
            ..Profile::random(rng, nodes)
        }
    }
}

/// Different variable numbers: the lowest, the highest, or spread out.
pub(crate) fn numbers(rng: &mut Rng, many: usize) -> Vec<u32> {
    let mut numbers: Vec<u32> = match rng.below(4) {
        0 | 1 => (1..=many as u32).collect(),
        2 => (0..many as u32).map(|k| HIGHEST - k).collect(),
        _ => {
            let step = HIGHEST / many as u32;
            let offset = rng.between(1, step as usize) as u32;
            (0..many as u32).map(|k| k * step + offset).collect()
        }
    };
    shuffle(rng, &mut numbers);
    numbers
}

pub(crate) fn shuffle<T>(rng: &mut Rng, items: &mut [T]) {
    for i in (1..items.len()).rev() {
        items.swap(i, rng.below(i + 1));
    }
}

/// An entry for places of the list that no block covers, or a number in play.
fn any_entry(rng: &mut Rng, numbers: &[u32]) -> u32 {
    match rng.below(6) {
        0 => 0,
        1 => 65_536,
        2 => u32::MAX,
        3 => rng.bits() as u32,
        _ => rng.pick(numbers),
    }
}

fn is_variable(entry: u32) -> bool {
    (1..=HIGHEST).contains(&entry)
}

/// Chooses a block's range, in the list as it is or in new entries of it. None
/// if no other variable may be bound, or none was found.
fn choose_range(
    rng: &mut Rng,
    profile: &Profile,
    list: &mut Vec<u32>,
    bound: usize,
) -> Option<(usize, usize)> {
    let most = profile.most_count.min(profile.most_bound - bound);
    if most == 0 {
        return None;
    }
    let high = if rng.one_in(3) { most } else { most.min(3) };
    let wanted = rng.between(1, high);
    if !list.is_empty() && rng.one_in(2) {
        // Overlap what is there, as far as it may stand in one range.
        let first = rng.below(list.len());
        let mut seen = std::collections::HashSet::new();
        let count = list[first..]
            .iter()
            .take(wanted)
            .take_while(|&&entry| is_variable(entry) && seen.insert(entry))
            .count();
        if count > 0 {
            return Some((first, count));
        }
    }
    while list.len() < LIMIT && rng.one_in(4) {
        list.push(any_entry(rng, &profile.numbers));
    }
    let count = wanted.min(profile.numbers.len()).min(LIMIT - list.len());
    if count == 0 {
        return None;
    }
    let first = list.len();
    let start = rng.below(profile.numbers.len());
    let cycle = profile.numbers.iter().cycle();
    list.extend(cycle.skip(start).take(count));
    if rng.one_in(2) {
        list[first..].reverse();
    }
    Some((first, count))
}

/// A random accepted table.
pub fn accepted(rng: &mut Rng, profile: &Profile) -> Table {
    let mut table = Table::default();
    let mut bound = 0;
    // Nodes that nothing names yet. In the end the root alone is left.
    let mut unnamed: Vec<u32> = Vec::new();
    for emitted in 0..profile.nodes {
        let left = profile.nodes - emitted;
        let take = |rng: &mut Rng, unnamed: &mut Vec<u32>| {
            let newest = unnamed.len() - 1;
            let at = match profile.order {
                Order::Newest => newest,
                Order::Oldest => 0,
                Order::Any => rng.below(unnamed.len()),
                Order::Mixed => {
                    if rng.one_in(4) {
                        rng.below(unnamed.len())
                    } else {
                        newest
                    }
                }
            };
            unnamed.remove(at)
        };
        // What may come so that the nodes left can still name all but the root.
        let many = unnamed.len();
        let allowed = [many < left, many > 0 && many <= left, many > 1];
        let [leaf, not, operator, block] = profile.weights;
        let leaf = if allowed[0] { leaf } else { 0 };
        let (not, block) = if allowed[1] { (not, block) } else { (0, 0) };
        let operator = if allowed[2] { operator } else { 0 };
        let (leaf, not, operator) = match leaf + not + operator + block {
            0 if many == 0 => (1, 0, 0),
            0 if many == 1 => (0, 1, 0),
            0 => (0, 0, 1),
            _ => (leaf, not, operator),
        };
        let choice = rng.below(leaf + not + operator + block);
        let node = if choice < leaf {
            if rng.one_in(8) {
                [1, rng.below(2) as u32, 0, 0]
            } else {
                [2, rng.pick(&profile.numbers), 0, 0]
            }
        } else if choice < leaf + not {
            [3, take(rng, &mut unnamed), 0, 0]
        } else if choice < leaf + not + operator {
            let one = take(rng, &mut unnamed);
            let other = take(rng, &mut unnamed);
            let (left, right) = if rng.one_in(2) {
                (one, other)
            } else {
                (other, one)
            };
            [4, rng.below(16) as u32, left, right]
        } else {
            let body = take(rng, &mut unnamed);
            match choose_range(rng, profile, &mut table.list, bound) {
                Some((first, count)) => {
                    bound += count;
                    [rng.pick(&[5, 6]), first as u32, count as u32, body]
                }
                None => [3, body, 0, 0],
            }
        };
        let index = table.push(node);
        unnamed.push(index);
    }
    assert_eq!(unnamed.len(), 1);
    while table.list.len() < LIMIT && rng.one_in(3) {
        table.list.push(any_entry(rng, &profile.numbers));
    }
    table
}

/// A table copied node by node, with empty blocks put on nodes that nothing
/// names yet.
struct Stored<'a> {
    from: &'a Table,
    table: Table,
    /// Where each node copied stands.
    places: Vec<u32>,
    /// Where the topmost of the empty blocks on each of them stands, or itself.
    tops: Vec<u32>,
    /// Those that nothing names yet, in order.
    unnamed: Vec<u32>,
}

impl Stored<'_> {
    fn new(from: &Table) -> Stored<'_> {
        let table = Table {
            words: Vec::new(),
            list: from.list.clone(),
        };
        Stored {
            from,
            table,
            places: Vec::new(),
            tops: Vec::new(),
            unnamed: Vec::new(),
        }
    }

    fn copy_next(&mut self) {
        let copied = self.places.len();
        let mut node = self.from.node(copied);
        let named = match node[0] {
            3 => 1..2,
            4 => 2..4,
            5 | 6 => 3..4,
            _ => 0..0,
        };
        for operand in &mut node[named] {
            self.unnamed.retain(|i| i != operand);
            *operand = self.tops[*operand as usize];
        }
        let place = self.table.push(node);
        self.places.push(place);
        self.tops.push(place);
        self.unnamed.push(copied as u32);
    }

    /// Puts an empty block on a node that is copied and that nothing names yet.
    fn put_on(&mut self, copied: u32, kind: u32, first: usize) {
        let top = &mut self.tops[copied as usize];
        *top = self.table.push([kind, first as u32, 0, *top]);
    }
}

/// A tree with empty blocks put in (none, a few, many, nests of them, or a nest
/// at the root), and where each of its own nodes stands. Without the blocks it is
/// the tree that is given.
pub fn with_empty_blocks(rng: &mut Rng, tree: &Table) -> (Table, Vec<u32>) {
    let way = rng.below(6);
    let mut stored = Stored::new(tree);
    for copied in 1..=tree.len() {
        stored.copy_next();
        let is_root = copied == tree.len();
        let nest = rng.pick(&stored.unnamed);
        let (many, in_nest) = match way {
            0 => (0, false),
            1 => (usize::from(rng.one_in(8)), false),
            2 => (rng.below(4), false),
            3 | 4 if rng.one_in(8) => (rng.between(2, 20), true),
            4 | 5 if is_root => (rng.between(1, 40), true),
            _ => (0, false),
        };
        // Room for the nodes to come.
        let room = LIMIT - stored.table.len() - (tree.len() - copied);
        for _ in 0..many.min(room) {
            let on = if in_nest {
                nest
            } else {
                rng.pick(&stored.unnamed)
            };
            let first = match rng.below(4) {
                0 => tree.list.len(),
                _ => rng.below(tree.list.len() + 1),
            };
            stored.put_on(on, rng.pick(&[5, 6]), first);
        }
    }
    (stored.table, stored.places)
}

/// Values at the edges of the ranges that fields have.
pub const EDGES: [u32; 18] = [
    0,
    1,
    2,
    3,
    15,
    16,
    4095,
    4096,
    4097,
    65_535,
    65_536,
    0x3FFF_FFFF,
    0x4000_0000,
    0x7FFF_FFFF,
    0x8000_0000,
    u32::MAX - 3,
    u32::MAX - 1,
    u32::MAX,
];

/// A table with one to four words changed to anything.
pub fn mutated(rng: &mut Rng, mut table: Table) -> Table {
    for _ in 0..rng.between(1, 4) {
        let value = match rng.below(3) {
            0 => rng.pick(&EDGES),
            1 => rng.bits() as u32,
            _ => rng.below(table.len() + 2) as u32,
        };
        if table.list.is_empty() || !rng.one_in(3) {
            let at = rng.below(table.words.len());
            table.words[at] = value;
        } else {
            let at = rng.below(table.list.len());
            table.list[at] = value;
        }
    }
    table
}

/// A tree with some operands and bodies replaced by other lower nodes, most of
/// them by the same few: nodes are shared, and others are left alone.
pub fn shared(rng: &mut Rng, mut table: Table) -> Table {
    let popular = rng.below(table.len());
    for _ in 0..rng.between(1, 1 + table.len() / 4) {
        if let Some((i, field)) = any_reference(rng, &table) {
            let lower = if popular < i && !rng.one_in(4) {
                popular
            } else {
                rng.below(i)
            };
            table.node_mut(i)[field] = lower as u32;
            if table.node(i)[0] == 4 && rng.one_in(3) {
                table.node_mut(i)[2..].fill(lower as u32);
            }
        }
    }
    table
}

/// An accepted table with the fault named, and the refusal it must get. None if
/// the table had no place for that fault.
pub fn damaged(rng: &mut Rng, profile: &Profile, reason: Reason) -> Option<(Table, Refusal)> {
    if reason == Reason::TooManyVariables {
        return Some(too_many(rng));
    }
    let table = accepted(rng, profile);
    damage(rng, table, reason)
}

/// An accepted table with empty blocks put in and the fault named, which is not
/// 16, and the refusal that removing them must give.
pub fn damaged_stored(
    rng: &mut Rng,
    profile: &Profile,
    reason: Reason,
) -> Option<(Table, Refusal)> {
    if reason == Reason::TooManyVariables {
        let (table, refusal) = too_many(rng);
        let (table, places) = with_empty_blocks(rng, &table);
        let position = places[refusal.position as usize];
        return Some((table, reason.at(position as usize)));
    }
    let table = accepted(rng, profile);
    let (table, _) = with_empty_blocks(rng, &table);
    damage(rng, table, reason)
}

fn damage(rng: &mut Rng, mut table: Table, reason: Reason) -> Option<(Table, Refusal)> {
    let mut users = None;
    let position = match reason {
        Reason::PartialNode => {
            let rest = rng.between(1, 3);
            match rng.below(3) {
                0 => table.words.clear(),
                1 => table.words.extend(&[2, 1, 0][..rest]),
                _ => table.words.truncate(table.words.len() - rest),
            }
            0
        }
        Reason::TooLarge => {
            let over = LIMIT + rng.pick(&[1, 1, 2, 100]);
            if rng.one_in(2) {
                table.words.resize(WIDTH * over, rng.pick(&EDGES));
            } else {
                table.list.resize(over, rng.pick(&EDGES));
            }
            0
        }
        Reason::MalformedNode => {
            let i = rng.below(table.len());
            let [kind, ..] = table.node(i);
            let over = |rng: &mut Rng, edges: &[u32]| match rng.below(3) {
                0 => edges[0],
                _ => rng.pick(edges),
            };
            let wrong_kind = [
                7,
                0,
                8,
                4096,
                u32::MAX,
                kind + 8,
                kind + 256,
                kind | 1 << 31,
            ];
            let high = [1, 2, 65_536, 0x8000_0000, u32::MAX];
            let (field, value) = match (kind, rng.below(4)) {
                (_, 0) => (0, rng.pick(&wrong_kind)),
                (1, 1) => (1, over(rng, &[2, 3, 0x8000_0000, u32::MAX])),
                (2, 1) => (1, over(rng, &[65_536, 0, 65_537, 0x8000_0001, u32::MAX])),
                (4, _) => (1, over(rng, &[16, 17, 255, 0x8000_0008, u32::MAX])),
                (1..=3, choice) => (2 + choice % 2, over(rng, &high)),
                _ => (0, rng.pick(&wrong_kind)),
            };
            table.node_mut(i)[field] = value;
            i
        }
        Reason::ForwardReference => {
            let (i, field) = any_reference(rng, &table)?;
            let (own, end) = (i as u32, table.len() as u32);
            // 0x4000_0000 and its like are low again once multiplied by four.
            let wrong = [
                own,
                own + 1,
                end - 1,
                end,
                u32::MAX,
                0x4000_0000,
                0x8000_0000,
            ];
            table.node_mut(i)[field] = rng.pick(&wrong).max(own);
            i
        }
        Reason::RangePastEnd => {
            let i = any_block(rng, &table)?;
            let [_, first, count, _] = table.node(i);
            let end = table.list.len() as u32;
            let (first, count) = match rng.below(8) {
                0 => (end - count + 1, count),
                1 => (first, end - first + 1),
                2 => (u32::MAX, count),
                3 => (u32::MAX, u32::MAX),
                4 => (1, u32::MAX),
                5 => (end + 1, 0),
                6 => (0x8000_0000, 0x8000_0000),
                _ => (first.max(1), u32::MAX - first.max(1) + 1),
            };
            if first.checked_add(count).is_some_and(|sum| sum <= end) {
                return None;
            }
            table.node_mut(i)[1..3].copy_from_slice(&[first, count]);
            i
        }
        Reason::EmptyBlock => {
            let i = any_block(rng, &table)?;
            let first = rng.below(table.list.len() + 1) as u32;
            table.node_mut(i)[1..3].copy_from_slice(&[first, 0]);
            i
        }
        Reason::BadVariable => {
            let mut blocks = table.blocks();
            blocks.retain(|&i| !table.range(i).is_empty());
            let i = *blocks.get(rng.below(blocks.len().max(1)))?;
            let range = table.range(i);
            let at = rng.between(range.start, range.end - 1);
            if range.len() > 1 && rng.one_in(2) {
                let from = if at == range.start { at + 1 } else { at - 1 };
                let from = if rng.one_in(2) {
                    from
                } else {
                    rng.between(range.start, range.end - 1)
                };
                if from == at {
                    return None;
                }
                table.list[at] = table.list[from];
            } else {
                table.list[at] = rng.pick(&[0, 65_536, 65_537, 0x8000_0001, u32::MAX]);
            }
            first_bad_range(&table)
        }
        Reason::NotATree => {
            if table.len() < LIMIT && rng.one_in(4) {
                // The root is left alone below a new root.
                table.push([1, 1, 0, 0]);
                table.len() - 2
            } else {
                let (i, field) = any_reference(rng, &table)?;
                let before = table.node(i)[field] as usize;
                let now = rng.below(i);
                if now == before {
                    return None;
                }
                if now < before {
                    // Its parent and node i, be they one or two.
                    let (i, parent) = (i as u32, parent(&table, now as u32));
                    users = Some([parent.min(i), parent.max(i)]);
                }
                table.node_mut(i)[field] = now as u32;
                before.min(now)
            }
        }
        // No fault of a table, or one that a table of its own is made for.
        Reason::BufferTooShort
        | Reason::TooManyVariables
        | Reason::MalformedText
        | Reason::MisplacedName
        | Reason::UnboundVariable
        | Reason::GateNotUsedOnce
        | Reason::MalformedMatrix
        | Reason::MalformedPrefix
        | Reason::TooManyNames
        | Reason::NameTooLong
        | Reason::Unreadable
        | Reason::UnknownFormat
        | Reason::MemoryTooShort => return None,
    };
    Some((table, reason.at(position).used_by(users)))
}

/// A block. None if there is none.
fn any_block(rng: &mut Rng, table: &Table) -> Option<usize> {
    let blocks = table.blocks();
    blocks.get(rng.below(blocks.len().max(1))).copied()
}

/// The node of an accepted table that names node x, which is not the last.
fn parent(table: &Table, x: u32) -> u32 {
    let names = |&i: &usize| match table.node(i) {
        [3, operand, ..] => operand == x,
        [4, _, left, right] => left == x || right == x,
        [5 | 6, _, _, body] => body == x,
        _ => false,
    };
    (0..table.len())
        .find(names)
        .expect("each node has a parent") as u32
}

/// A node that names another, and the field that does. None if there is none.
fn any_reference(rng: &mut Rng, table: &Table) -> Option<(usize, usize)> {
    let users = table.where_kind(|kind| kind >= 3);
    let i = *users.get(rng.below(users.len().max(1)))?;
    let field = match table.node(i)[0] {
        3 => 1,
        4 => rng.pick(&[2, 3]),
        _ => 3,
    };
    Some((i, field))
}

/// The first block with a fault in its range.
fn first_bad_range(table: &Table) -> usize {
    let bad = |&i: &usize| {
        let range = &table.list[table.range(i)];
        let repeated = |k: usize| range[..k].contains(&range[k]);
        (0..range.len()).any(|k| !is_variable(range[k]) || repeated(k))
    };
    table
        .blocks()
        .into_iter()
        .find(bad)
        .expect("one was damaged")
}

/// Blocks over overlapping ranges whose counts pass 4,096 together.
fn too_many(rng: &mut Rng) -> (Table, Refusal) {
    let mut table = Table {
        words: Vec::new(),
        list: (1..=LIMIT as u32).collect(),
    };
    let most = rng.pick(&[LIMIT, 2049, 600, 60]);
    let mut last = table.variable(1);
    let mut bound = 0;
    let mut position = None;
    for _ in 0..rng.between(2, 3) + 2 * LIMIT / most {
        let count = match LIMIT - bound {
            // Once at the limit itself, now and then, then past it by one.
            left if left > 0 && left < most && rng.one_in(2) => left,
            left if left < most && rng.one_in(2) => left + 1,
            _ => rng.between(most / 2, most),
        };
        let first = rng.between(0, LIMIT - count.min(LIMIT));
        let count = count.min(LIMIT);
        last = table.push([rng.pick(&[5, 6]), first as u32, count as u32, last]);
        if bound + count > LIMIT {
            position.get_or_insert(last as usize);
        } else if position.is_none() {
            bound += count;
        }
        if rng.one_in(3) {
            last = table.not(last);
        }
    }
    match position {
        Some(position) => (table, Reason::TooManyVariables.at(position)),
        None => too_many(rng),
    }
}

/// The table of one family of the benchmark, with this many nodes exactly.
pub type Family = fn(usize) -> Table;

/// The families of the benchmark.
pub const FAMILIES: [(&str, Family); 10] = [
    ("comparator chain", comparator_chain),
    ("parity chain", parity_chain),
    ("deep nest", deep_nest),
    ("wide row of blocks", wide_row),
    ("climb", climb),
    ("row, one number", one_number_row),
    ("row, leaves first", leaves_first_row),
    ("row, also free", also_free_row),
    ("climb, leaves bound", bound_climb),
    ("nest, one number", one_number_nest),
];

/// One family more for listing free variables, with the highest numbers.
pub const HIGH_LEAVES: (&str, Family) = ("free leaves, high", high_leaves);

/// Puts nots on the root until the table has `nodes` nodes.
fn fill_up(mut table: Table, nodes: usize) -> Table {
    assert!(table.len() <= nodes);
    while table.len() < nodes {
        let root = table.len() as u32 - 1;
        table.not(root);
    }
    table
}

/// A constant, then steps of `step` nodes while they fit, then nots. `add` is
/// given the root so far and the step's number from 1 up, and gives the new root.
fn repeated(
    nodes: usize,
    constant: u32,
    step: usize,
    add: impl Fn(&mut Table, u32, u32) -> u32,
) -> Table {
    let mut table = Table::default();
    let mut root = table.push([1, constant, 0, 0]);
    for k in 1..=(nodes - 1) / step {
        root = add(&mut table, root, k as u32);
    }
    fill_up(table, nodes)
}

/// x < y bit by bit from the lowest: x free, y bound eight bits at a time,
/// exists and for-all in turn.
pub fn comparator_chain(nodes: usize) -> Table {
    const STAGE: u32 = 8;
    repeated(
        nodes,
        0,
        9 * STAGE as usize + 1,
        |table, mut less, stage| {
            let bits = (stage - 1) * STAGE + 1..=stage * STAGE;
            for bit in bits.clone() {
                let (x, y) = (2 * bit, 2 * bit + 1);
                let left = table.variable(x);
                let left = table.not(left);
                let right = table.variable(y);
                let here = table.operator(8, left, right);
                let left = table.variable(x);
                let right = table.variable(y);
                let same = table.operator(9, left, right);
                let before = table.operator(8, same, less);
                less = table.operator(14, here, before);
            }
            let bound: Vec<u32> = bits.map(|bit| 2 * bit + 1).collect();
            table.block(6 - stage % 2, &bound, less)
        },
    )
}

/// One block in another, each over an operator of a variable of its own and
/// the body so far: the deepest nest with an operator in each block.
/// `truth_table` gives the operator's by the block's number from 1 up.
fn nest(nodes: usize, truth_table: impl Fn(u32) -> u32) -> Table {
    repeated(nodes, 1, 3, |table, body, number| {
        let variable = table.variable(number);
        let joined = table.operator(truth_table(number), variable, body);
        table.block(5 + number % 2, &[number], joined)
    })
}

/// A parity chain with a block at each link: every operator is xor.
pub fn parity_chain(nodes: usize) -> Table {
    nest(nodes, |_| 6)
}

/// The same nest with biconditionals and xors in turn.
pub fn deep_nest(nodes: usize) -> Table {
    nest(nodes, |number| if number % 2 == 0 { 9 } else { 6 })
}

/// Blocks side by side, two variables each.
pub fn wide_row(nodes: usize) -> Table {
    repeated(nodes, 1, 5, |table, row, k| {
        let left = table.variable(2 * k);
        let right = table.variable(2 * k + 1);
        let body = table.operator(9, left, right);
        let block = table.block(5 + k % 2, &[2 * k, 2 * k + 1], body);
        table.operator(8, row, block)
    })
}

/// Blocks side by side that all bind the same number.
pub fn one_number_row(nodes: usize) -> Table {
    repeated(nodes, 1, 3, |table, row, _| {
        let leaf = table.variable(1);
        let block = table.block(5, &[1], leaf);
        table.operator(8, row, block)
    })
}

/// As `one_number_row`, with all leaves first, then all blocks, then what
/// joins them.
pub fn leaves_first_row(nodes: usize) -> Table {
    let mut table = Table::default();
    let count = nodes as u32 / 3;
    for _ in 0..count {
        table.variable(1);
    }
    let blocks: Vec<u32> = (0..count).map(|leaf| table.block(5, &[1], leaf)).collect();
    blocks
        .into_iter()
        .reduce(|row, block| table.operator(8, row, block));
    fill_up(table, nodes)
}

/// Blocks side by side that all bind the same number, and between them leaves
/// where it is free.
pub fn also_free_row(nodes: usize) -> Table {
    repeated(nodes, 1, 5, |table, row, _| {
        let bound = table.variable(1);
        let block = table.block(5, &[1], bound);
        let row = table.operator(8, row, block);
        let free = table.variable(1);
        table.operator(8, row, free)
    })
}

/// Many leaves under a nest of blocks: half of the nodes are blocks. `leaf`
/// gives the number at each leaf from 0 up, `bound` the one that each block
/// from 1 up binds.
fn leaves_under_nest(nodes: usize, leaf: impl Fn(u32) -> u32, bound: impl Fn(u32) -> u32) -> Table {
    let mut table = Table::default();
    let mut body = table.variable(leaf(0));
    for k in 1.. {
        if table.len() + 2 > nodes / 2 {
            break;
        }
        let variable = table.variable(leaf(k));
        body = table.operator(6, body, variable);
    }
    for k in 1.. {
        if table.len() == nodes {
            break;
        }
        body = table.block(5 + k % 2, &[bound(k)], body);
    }
    table
}

/// Many free leaves under a deep nest; no block covers their numbers.
pub fn climb(nodes: usize) -> Table {
    leaves_under_nest(nodes, |k| nodes as u32 + k, |k| k)
}

/// As `climb`, with every leaf bound by the outermost block.
pub fn bound_climb(nodes: usize) -> Table {
    let outermost = climb(nodes).blocks().len() as u32;
    leaves_under_nest(nodes, |_| outermost, |k| k)
}

/// Many free leaves under a deep nest whose blocks all bind the same number,
/// which leaves the same remainder by 1,024 as the leaves' own.
pub fn one_number_nest(nodes: usize) -> Table {
    leaves_under_nest(nodes, |_| 1 + 1024, |_| 1)
}

/// The table of a family, but every fourth node is an empty block on the one
/// before. The number of nodes is a multiple of four.
pub fn every_fourth_empty(family: Family, nodes: usize) -> Table {
    let tree = family(nodes - nodes / 4);
    let mut stored = Stored::new(&tree);
    for copied in 0..tree.len() as u32 {
        stored.copy_next();
        if copied % 3 == 2 {
            stored.put_on(copied, 5 + copied % 2, 0);
        }
    }
    stored.table
}

/// A variable below empty blocks.
pub fn empty_nest(nodes: usize) -> Table {
    let mut table = Table::default();
    let mut body = table.variable(1);
    for k in 1..nodes as u32 {
        body = table.block(5 + k % 2, &[], body);
    }
    table
}

/// The largest form's table: a variable, 4,094 blocks in one another that bind
/// the 4,096 highest numbers, and a not, so that all blocks are inner ones. No
/// form has more nodes, prefix blocks or variables, or higher names.
pub fn largest_form() -> Table {
    let mut table = Table::default();
    let mut body = table.variable(HIGHEST);
    let mut next = HIGHEST - LIMIT as u32 + 1;
    for k in 0..LIMIT as u32 - 2 {
        // Two of the blocks bind two variables, the others one.
        let count = if k < 2 { 2 } else { 1 };
        let bound: Vec<u32> = (next..next + count).collect();
        body = table.block(5 + k % 2, &bound, body);
        next += count;
    }
    table.not(body);
    table
}

/// As many leaves as there may be, all of them free variables with numbers of
/// their own, the highest there are.
pub fn high_leaves(nodes: usize) -> Table {
    let mut table = Table::default();
    let mut joined = table.variable(HIGHEST);
    for k in 1..=(nodes as u32 - 1) / 2 {
        let leaf = table.variable(HIGHEST - k);
        joined = table.operator(6, joined, leaf);
    }
    fill_up(table, nodes)
}

/// A table with the most free variables.
pub fn most_free_variables() -> Table {
    high_leaves(LIMIT - 1)
}

#[cfg(test)]
mod tests {
    use super::*;
    use crate::reference;

    #[test]
    fn random_tables_are_accepted() {
        let mut rng = Rng::new(1);
        for _ in 0..2000 {
            let nodes = rng.between(1, 60);
            let profile = Profile::random(&mut rng, nodes);
            let table = accepted(&mut rng, &profile);
            let sizes = reference::measure(&table.words, &table.list);
            assert_eq!(sizes.map(|s| s.n as usize), Ok(nodes), "{table:?}");
        }
    }

    /// Blocks above a node.
    fn blocks_above(table: &Table, node: usize) -> Vec<usize> {
        let mut above = Vec::new();
        let mut below = node;
        for i in node + 1..table.len() {
            let operands = match table.node(i) {
                [3, a, _, _] => [a, a],
                [4, _, b, c] => [b, c],
                [5 | 6, _, _, c] => [c, c],
                _ => continue,
            };
            if operands.contains(&(below as u32)) {
                below = i;
                if table.node(i)[0] >= 5 {
                    above.push(i);
                }
            }
        }
        above
    }

    #[test]
    fn random_tables_have_every_feature() {
        let mut counts = [0; 5];
        let mut rng = Rng::new(2);
        for _ in 0..1000 {
            let nodes = rng.between(5, 60);
            let profile = Profile::random(&mut rng, nodes);
            let table = accepted(&mut rng, &profile);
            let blocks = table.blocks();
            let entries = |i: usize| &table.list[table.range(i)];
            let covers = |i: &usize, number: &u32| entries(*i).contains(number);
            let covered = |at: usize| blocks.iter().any(|&i| table.range(i).contains(&at));
            let leaves = table.where_kind(|kind| kind == 2);
            let features = [
                // A variable below two blocks that bind its number.
                leaves.iter().any(|&leaf| {
                    let number = table.node(leaf)[1];
                    let above = blocks_above(&table, leaf);
                    above.iter().filter(|i| covers(i, &number)).count() > 1
                }),
                // Overlapping ranges.
                blocks.iter().any(|&i| {
                    let mut others = blocks.iter().filter(|&&j| j > i);
                    others.any(|&j| table.range(i).any(|at| table.range(j).contains(&at)))
                }),
                // One number at two places of the list, both covered.
                (0..table.list.len()).any(|at| {
                    let again = table.list[..at].iter().position(|e| *e == table.list[at]);
                    covered(at) && again.is_some_and(covered)
                }),
                // An entry in no range that is no variable.
                (0..table.list.len()).any(|at| !is_variable(table.list[at]) && !covered(at)),
                // Not in post-order: an operand or body that isn't right below.
                (1..table.len()).any(|i| match table.node(i) {
                    [3, a, _, _] => a as usize != i - 1,
                    [4, _, b, c] => b.max(c) as usize != i - 1,
                    [5 | 6, _, _, c] => c as usize != i - 1,
                    _ => false,
                }),
            ];
            for (count, feature) in counts.iter_mut().zip(features) {
                *count += u32::from(feature);
            }
        }
        assert!(counts.iter().all(|&count| count > 100), "{counts:?}");
    }

    #[test]
    fn empty_blocks_stand_anywhere() {
        let mut counts = [0; 6];
        let mut rng = Rng::new(3);
        for _ in 0..1000 {
            let nodes = rng.between(5, 60);
            let profile = Profile::random(&mut rng, nodes);
            let tree = accepted(&mut rng, &profile);
            let (table, places) = with_empty_blocks(&mut rng, &tree);
            let mut empty = table.blocks();
            empty.retain(|&i| table.range(i).is_empty());
            assert_eq!(table.len(), tree.len() + empty.len());
            let kinds = |table: &Table, i: usize| table.node(i)[0];
            assert!((0..tree.len()).all(|i| kinds(&tree, i) == kinds(&table, places[i] as usize)));

            let body = |i: usize| table.node(i)[3] as usize;
            let features = [
                empty.is_empty(),
                // Two in one another, and ten.
                empty.iter().any(|&i| empty.contains(&body(i))),
                empty.iter().any(|&i| {
                    (0..10)
                        .try_fold(i, |i, _| empty.contains(&i).then(|| body(i)))
                        .is_some()
                }),
                empty.contains(&(table.len() - 1)),
                // From the end of the list on.
                empty
                    .iter()
                    .any(|&i| table.range(i).start == table.list.len()),
                // Not on the node before.
                empty.iter().any(|&i| body(i) != i - 1),
            ];
            for (count, feature) in counts.iter_mut().zip(features) {
                *count += u32::from(feature);
            }
        }
        assert!(counts.iter().all(|&count| count > 100), "{counts:?}");
    }

    #[test]
    fn families_have_the_nodes_asked_for() {
        let mut room = vec![0; WIDTH * LIMIT];
        for nodes in [1024, 2048, 4096] {
            for (name, family) in FAMILIES.into_iter().chain([HIGH_LEAVES]) {
                let table = family(nodes);
                let sizes = reference::measure(&table.words, &table.list);
                assert_eq!(sizes.map(|s| s.n as usize), Ok(nodes), "{name}");
                let table = every_fourth_empty(family, nodes);
                assert_eq!(table.len(), nodes, "{name}");
                let left = reference::remove_empty_blocks(&table.words, &table.list, &mut room);
                assert_eq!(left, Ok(nodes as u32 / 4 * 3), "{name}");
            }
            let table = empty_nest(nodes);
            assert_eq!(table.len(), nodes);
            let left = reference::remove_empty_blocks(&table.words, &table.list, &mut room);
            assert_eq!(left, Ok(1));
            let sizes = |table: Table| reference::measure(&table.words, &table.list).unwrap();
            assert_eq!(sizes(parity_chain(nodes)).depth as usize, (nodes - 1) / 3);
            assert_eq!(sizes(bound_climb(nodes)), sizes(climb(nodes)));
            assert_eq!(sizes(one_number_nest(nodes)), sizes(climb(nodes)));
            assert_eq!(sizes(also_free_row(nodes)).b as usize, (nodes - 1) / 5);
        }
    }
}
