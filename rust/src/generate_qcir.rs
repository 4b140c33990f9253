//! QCIR files to try: random good ones, damaged ones, and the families of the
//! benchmark. The same seed always gives the same files.

use crate::circuit::{Circuit, Gate, Literal, Operation, Quantifier};
use crate::generate::{numbers, Rng};
use crate::qcir::LONGEST;
use crate::reference::LIMIT;
use std::collections::BTreeSet;

/// What a random circuit is made of.
#[derive(Clone, Debug)]
pub struct Profile {
    /// Gates before the tree is closed, which takes up to two more.
    pub gates: usize,
    /// Nodes after which no gate is added but those that close the tree.
    pub nodes: usize,
    /// Variables of the free line and of the prefix lines.
    pub declared: usize,
    /// Variables that gates alone bind.
    pub local: usize,
    /// Most inputs of one gate.
    pub inputs: usize,
    /// Most variables of one list of a gate.
    pub list: usize,
    /// How often `and`, `or`, `xor` and quantifiers come.
    pub weights: [usize; 4],
    /// One in how many inputs is a gate where it could be.
    pub join: usize,
}

impl Profile {
    /// Something of everything, over about this many gates.
    pub fn random(rng: &mut Rng, gates: usize) -> Profile {
        Profile {
            gates,
            nodes: 4000,
            declared: rng.pick(&[0, 1, 2, 5, 12, 40]),
            local: rng.pick(&[0, 0, 1, 3, 10, 60]),
            inputs: rng.pick(&[1, 2, 3, 5, 9, 40]),
            list: rng.pick(&[1, 2, 3, 12]),
            weights: rng.pick(&[
                [1, 1, 1, 1],
                [3, 3, 2, 1],
                [1, 1, 1, 8],
                [1, 0, 0, 20],
                [1, 1, 6, 1],
                [4, 4, 1, 0],
            ]),
            join: rng.pick(&[1, 2, 2, 4]),
        }
    }

    /// A circuit small enough for brute force.
    pub fn tiny(rng: &mut Rng) -> Profile {
        let gates = rng.between(0, 7);
        Profile {
            declared: rng.between(0, 4),
            local: rng.between(0, 2),
            inputs: rng.between(1, 4),
            list: rng.between(1, 2),
            ..Profile::random(rng, gates)
        }
    }
}

/// A gate that nothing uses yet, and the local variables unbound below it.
struct Open {
    name: u32,
    unbound: BTreeSet<u32>,
}

/// A circuit under construction.
struct Builder {
    gates: Vec<Gate>,
    open: Vec<Open>,
    /// Names left for gates.
    names: Vec<u32>,
    /// No fewer than the nodes of the gates so far.
    nodes: usize,
}

impl Builder {
    fn add(&mut self, operation: Operation, inputs: Vec<Literal>, unbound: BTreeSet<u32>) {
        let name = self.names.pop().expect("names enough");
        let own = match operation {
            Operation::And | Operation::Or => inputs.len().abs_diff(1),
            Operation::Xor | Operation::Quantified(..) => 1,
        };
        self.nodes += own + 2 * inputs.len();
        self.gates.push(Gate {
            name,
            operation,
            inputs,
        });
        self.open.push(Open { name, unbound });
    }
}

/// A random good circuit: each gate used once and after its definition, each
/// variable declared or bound above, no name where it can't stand.
pub fn circuit(rng: &mut Rng, profile: &Profile) -> Circuit {
    let variables = profile.declared + profile.local;
    let mut names = numbers(rng, (variables + 2 * profile.gates + 8).min(60_000));
    let local: Vec<u32> = names.drain(..profile.local).collect();
    let declared: Vec<u32> = names.drain(..profile.declared).collect();
    let all: Vec<u32> = declared.iter().chain(&local).copied().collect();

    // Declared variables in a free line and in prefix lines.
    let mut free = declared.clone();
    let mut bound = free.split_off(rng.below(free.len() + 1));
    let mut prefix = Vec::new();
    while !bound.is_empty() {
        let rest = bound.split_off(rng.between(1, bound.len()));
        prefix.push((any_quantifier(rng), std::mem::replace(&mut bound, rest)));
    }

    let mut builder = Builder {
        gates: Vec::new(),
        open: Vec::new(),
        names,
        nodes: 0,
    };
    while builder.gates.len() < profile.gates && builder.nodes < profile.nodes {
        add_gate(rng, profile, &all, &local, &mut builder);
    }
    // One gate over all that is open, then one over all that is unbound.
    if builder.open.len() > 1 {
        let mut inputs = Vec::new();
        let mut unbound = BTreeSet::new();
        for open in std::mem::take(&mut builder.open) {
            inputs.push(any_sign(rng, open.name));
            unbound.extend(open.unbound);
        }
        let operation = if rng.one_in(2) {
            Operation::And
        } else {
            Operation::Or
        };
        builder.add(operation, inputs, unbound);
    }
    if let Some(open) = builder.open.pop_if(|open| !open.unbound.is_empty()) {
        let list = open.unbound.into_iter().collect();
        let operation = Operation::Quantified(any_quantifier(rng), list);
        let input = any_sign(rng, open.name);
        builder.add(operation, vec![input], BTreeSet::new());
    }
    if builder.open.is_empty() && declared.is_empty() {
        builder.add(Operation::And, Vec::new(), BTreeSet::new());
    }
    let output = match builder.open.pop() {
        Some(open) => open.name,
        None => rng.pick(&declared),
    };
    Circuit {
        free,
        prefix,
        output: any_sign(rng, output),
        gates: builder.gates,
    }
}

fn any_quantifier(rng: &mut Rng) -> Quantifier {
    rng.pick(&[Quantifier::Exists, Quantifier::ForAll])
}

fn any_sign(rng: &mut Rng, name: u32) -> Literal {
    Literal {
        name,
        negated: rng.one_in(3),
    }
}

/// Adds a random gate over open gates and variables.
fn add_gate(rng: &mut Rng, profile: &Profile, all: &[u32], local: &[u32], builder: &mut Builder) {
    let [and, or, xor, quantified] = profile.weights;
    let choice = rng.below(and + or + xor + quantified);
    let count = if choice < and + or {
        rng.below(profile.inputs + 1)
    } else if choice < and + or + xor {
        2
    } else {
        1
    };
    let mut inputs = Vec::new();
    let mut unbound = BTreeSet::new();
    for _ in 0..count {
        let gate = !builder.open.is_empty() && (all.is_empty() || rng.one_in(profile.join));
        if gate {
            let newest = builder.open.len() - 1;
            let at = if rng.one_in(3) {
                rng.below(newest + 1)
            } else {
                newest
            };
            let open = builder.open.remove(at);
            inputs.push(any_sign(rng, open.name));
            unbound.extend(open.unbound);
        } else if !all.is_empty() {
            let name = rng.pick(all);
            if local.contains(&name) {
                unbound.insert(name);
            }
            inputs.push(any_sign(rng, name));
        }
    }
    let operation = if choice < and {
        Operation::And
    } else if choice < and + or {
        Operation::Or
    } else if choice < and + or + xor && inputs.len() == 2 {
        Operation::Xor
    } else if all.is_empty() || inputs.len() != 1 {
        Operation::And
    } else {
        // Some of what is unbound below, or any variables.
        let mut list = BTreeSet::new();
        for _ in 0..rng.between(1, profile.list) {
            let from: Vec<u32> = unbound.iter().copied().collect();
            if from.is_empty() || rng.one_in(3) {
                list.insert(rng.pick(all));
            } else {
                list.insert(rng.pick(&from));
            }
        }
        let mut list: Vec<u32> = list.into_iter().collect();
        for name in &list {
            unbound.remove(name);
        }
        if rng.one_in(2) {
            list.reverse();
        }
        Operation::Quantified(any_quantifier(rng), list)
    };
    builder.add(operation, inputs, unbound);
}

/// Adds gates of one negated input until the circuit's table has this many
/// nodes exactly. None if it has more.
pub fn with_nodes(mut circuit: Circuit, nodes: usize) -> Option<Circuit> {
    let missing = nodes.checked_sub(circuit.node_count())?;
    let mut unused = unused_names(&circuit);
    for _ in 0..missing {
        let name = unused.next()?;
        // The output keeps its sign; its name becomes the new gate's.
        circuit.gates.push(Gate {
            name,
            operation: Operation::Or,
            inputs: vec![Literal {
                name: circuit.output.name,
                negated: true,
            }],
        });
        circuit.output.name = name;
    }
    Some(circuit)
}

/// Adds one quantified gate so that the sum of counts is this exactly. None if
/// it is so already, or is higher.
pub fn with_bound(mut circuit: Circuit, bound: usize) -> Option<Circuit> {
    let missing = bound.checked_sub(circuit.bound_count())?;
    let mut unused = unused_names(&circuit);
    let name = unused.next()?;
    let list: Vec<u32> = unused.take(missing).collect();
    if list.is_empty() || list.len() < missing {
        return None;
    }
    circuit.gates.push(Gate {
        name,
        operation: Operation::Quantified(Quantifier::ForAll, list),
        inputs: vec![circuit.output],
    });
    circuit.output = Literal {
        name,
        negated: false,
    };
    Some(circuit)
}

/// The names that a circuit doesn't mention, highest first.
fn unused_names(circuit: &Circuit) -> impl Iterator<Item = u32> {
    let mut used = vec![false; 1 << 16];
    let words = circuit.lines().into_iter().flatten();
    for name in words.filter_map(|word| word.parse::<usize>().ok()) {
        used[name] = true;
    }
    (1..=65_535)
        .rev()
        .filter(move |&name: &u32| !used[name as usize])
}

/// How a circuit is spelled.
#[derive(Clone, Copy, Debug)]
pub struct Layout {
    /// One in how many places between words and signs has blanks; 0 for none.
    pub blanks: usize,
    /// One in how many lines has blank lines or comments before it; 0 for none.
    pub between: usize,
}

impl Layout {
    pub fn random(rng: &mut Rng) -> Layout {
        Layout {
            blanks: rng.pick(&[0, 1, 2, 3, 10]),
            between: rng.pick(&[0, 1, 3, 10]),
        }
    }
}

fn push_blanks(rng: &mut Rng, layout: Layout, text: &mut Vec<u8>) {
    if layout.blanks > 0 && rng.one_in(layout.blanks) {
        let most = if rng.one_in(20) { 20 } else { 2 };
        for _ in 0..rng.between(1, most) {
            text.push(rng.pick(b"  \t"));
        }
    }
}

/// Blank lines and comments, of any bytes.
fn push_between(rng: &mut Rng, layout: Layout, text: &mut Vec<u8>) {
    while layout.between > 0 && rng.one_in(layout.between + 1) {
        push_blanks(rng, layout, text);
        match rng.below(4) {
            0 => {}
            1 => text.extend(b"# 7 = and(1, -2)"),
            2 => text.extend(b"#"),
            _ => {
                text.push(b'#');
                for _ in 0..rng.below(40) {
                    let byte = rng.bits() as u8;
                    text.push(if byte == b'\n' { b'#' } else { byte });
                }
            }
        }
        text.push(b'\n');
    }
}

/// A file that spells a circuit.
pub fn spelled(rng: &mut Rng, circuit: &Circuit, layout: Layout) -> Vec<u8> {
    let mut text = b"#QCIR-G14".to_vec();
    let headers: [&[u8]; 7] = [
        b"",
        b" 12",
        b"\t00",
        b" ",
        b" \t ",
        b"  99999999999 ",
        b"\t0\t",
    ];
    text.extend(rng.pick(&headers));
    text.push(b'\n');
    for line in circuit.lines() {
        push_between(rng, layout, &mut text);
        for word in line {
            push_blanks(rng, layout, &mut text);
            text.extend(word.bytes());
        }
        push_blanks(rng, layout, &mut text);
        text.push(b'\n');
    }
    push_between(rng, layout, &mut text);
    push_blanks(rng, layout, &mut text);
    match rng.below(4) {
        0 => {
            while text
                .pop_if(|byte| matches!(byte, b'\n' | b' ' | b'\t'))
                .is_some()
            {}
        }
        1 => text.extend(b"# no line feed"),
        _ => {}
    }
    text
}

/// Makes a good file this long, by blanks, blank lines and a comment after the
/// header. None if it is longer.
pub fn with_length(rng: &mut Rng, text: &[u8], length: usize) -> Option<Vec<u8>> {
    let missing = length.checked_sub(text.len())?;
    let header = text.iter().position(|&byte| byte == b'\n')? + 1;
    let mut filler = match rng.below(3) {
        0 => vec![b' '; missing],
        1 => vec![b'\n'; missing],
        _ => vec![b'#'; missing],
    };
    if let Some(last) = filler.last_mut() {
        *last = b'\n';
    }
    let (before, after) = text.split_at(header);
    Some([before, &filler, after].concat())
}

/// A random good circuit of any size that a file has room for, and its file.
pub fn good_file(rng: &mut Rng, gates: usize) -> (Circuit, Vec<u8>) {
    loop {
        let profile = Profile::random(rng, gates);
        let circuit = circuit(rng, &profile);
        let layout = Layout::random(rng);
        let text = spelled(rng, &circuit, layout);
        if text.len() <= LONGEST {
            return (circuit, text);
        }
    }
}

/// The places of the runs of digits in a text.
fn digit_runs(text: &[u8]) -> Vec<std::ops::Range<usize>> {
    let mut runs = Vec::new();
    let mut at = 0;
    while at < text.len() {
        let len = text[at..]
            .iter()
            .take_while(|byte| byte.is_ascii_digit())
            .count();
        if len > 0 {
            runs.push(at..at + len);
        }
        at += len + 1;
    }
    runs
}

/// The places of the lines of a text, each with its line feed.
fn line_ranges(text: &[u8]) -> Vec<std::ops::Range<usize>> {
    let mut lines = Vec::new();
    let mut at = 0;
    for line in text.split_inclusive(|&byte| byte == b'\n') {
        lines.push(at..at + line.len());
        at += line.len();
    }
    lines
}

/// Changes one place of a text in one way.
pub fn damage_once(rng: &mut Rng, text: &mut Vec<u8>) {
    const SIGNS: &[u8] = b"0123456789 \t\n\r\0#-=,;()aeforxuitlnds";
    if text.is_empty() {
        return text.push(rng.pick(SIGNS));
    }
    let at = rng.below(text.len());
    match rng.below(14) {
        0 => text[at] ^= 1 << rng.below(8),
        1 => text[at] = rng.bits() as u8,
        2 => text[at] = rng.pick(SIGNS),
        3 => {
            text.remove(at);
        }
        4 => {
            let end = text.len().min(at + rng.between(1, 12));
            text.drain(at..end);
        }
        5 => text.insert(at, rng.pick(SIGNS)),
        6 => text.truncate(at),
        7 | 8 => {
            // A line copied, moved or dropped.
            let lines = line_ranges(text);
            let from = lines[rng.below(lines.len())].clone();
            let to = lines[rng.below(lines.len())].start;
            let line = text[from.clone()].to_vec();
            if rng.one_in(3) {
                text.drain(from);
            } else {
                text.splice(to..to, line);
            }
        }
        // A name replaced by another one of the text, or by any.
        _ => {
            let runs = digit_runs(text);
            if runs.is_empty() {
                return text.insert(at, rng.pick(SIGNS));
            }
            let to = runs[rng.below(runs.len())].clone();
            let from = runs[rng.below(runs.len())].clone();
            let name = match rng.below(8) {
                0 => rng
                    .pick(&[&b"0"[..], b"1", b"65535", b"65536", b"01", b"99999"])
                    .to_vec(),
                1 => rng.between(1, 65_535).to_string().into_bytes(),
                _ => text[from].to_vec(),
            };
            text.splice(to, name);
        }
    }
}

/// Exchanges two names, or replaces one by another, inside the lists and gate
/// lines, so that the spelling stays good.
pub fn exchange_names(rng: &mut Rng, circuit: &mut Circuit) {
    let mut names: Vec<&mut u32> = circuit.free.iter_mut().collect();
    names.extend(circuit.prefix.iter_mut().flat_map(|(_, list)| list));
    names.push(&mut circuit.output.name);
    for gate in &mut circuit.gates {
        names.push(&mut gate.name);
        if let Operation::Quantified(_, list) = &mut gate.operation {
            names.extend(list);
        }
        names.extend(gate.inputs.iter_mut().map(|input| &mut input.name));
    }
    let (one, other) = (rng.below(names.len()), rng.below(names.len()));
    let (a, b) = (*names[one], *names[other]);
    *names[one] = b;
    if rng.one_in(2) {
        *names[other] = a;
    } else if rng.one_in(8) {
        *names[one] = rng.between(1, 65_535) as u32;
    }
}

/// The file of one family of the benchmark, with this many bytes exactly.
pub type Family = fn(usize) -> Vec<u8>;

/// The families of the benchmark.
pub const FAMILIES: [(&str, Family); 14] = [
    ("deep nest", |bytes| deep_nest(bytes, |k| k / 5)),
    ("deep nest, many uses", |bytes| deep_nest(bytes, |k| 2 * k)),
    ("deep nest, one unbound", unbound_nest),
    ("row of blocks", row_of_blocks),
    ("wide gate", wide_gate),
    ("wide gate, blanks", spaced_wide_gate),
    ("gates, long names", |bytes| {
        chain(bytes, 60_000, 50_000, "")
    }),
    ("gates, short names", |bytes| chain(bytes, 10, 1, "")),
    ("gates, commented", commented_chain),
    ("comparators", |bytes| comparators(bytes, "")),
    ("comparators, commented", commented_comparators),
    ("long prefix line", long_prefix_line),
    ("comments", comments),
    ("blanks", blanks),
];

/// The longest of some files, by the size asked for, that fits, with a comment
/// at its end for the bytes that are missing.
fn fill_up(bytes: usize, file: impl Fn(usize) -> String) -> Vec<u8> {
    let (mut fits, mut over) = (0, bytes);
    while over - fits > 1 {
        let size = fits.midpoint(over);
        if file(size).len() + 2 <= bytes {
            fits = size;
        } else {
            over = size;
        }
    }
    let mut text = file(fits).into_bytes();
    text.push(b'#');
    text.resize(bytes - 1, b'.');
    text.push(b'\n');
    text
}

const HEADER: &str = "#QCIR-G14\n";

/// One quantified gate in another, each with a variable of its own, and as
/// many uses as asked for at the bottom, of the variables bound at the top.
fn nest(levels: usize, uses: usize, first_use: usize) -> String {
    let gate = |level: usize| 30_000 + level;
    let mut text = format!("{HEADER}output({})\n", gate(levels));
    let inputs: Vec<String> = (0..uses)
        .map(|k| match k {
            0 => first_use.to_string(),
            _ => (levels - k % levels).to_string(),
        })
        .collect();
    text += &format!("{}=and({})\n", gate(0), inputs.join(","));
    for level in 1..=levels {
        let word = if level % 2 == 0 { "exists" } else { "forall" };
        text += &format!("{}={word}({level};{})\n", gate(level), gate(level - 1));
    }
    text
}

fn deep_nest(bytes: usize, uses: fn(usize) -> usize) -> Vec<u8> {
    fill_up(bytes, |k| nest(k + 1, uses(k + 1), 1))
}

fn unbound_nest(bytes: usize) -> Vec<u8> {
    fill_up(bytes, |k| nest(k + 1, k / 5 + 1, 29_999))
}

/// Quantified gates side by side, all binding the same variable.
fn row_of_blocks(bytes: usize) -> Vec<u8> {
    fill_up(bytes, |k| {
        let mut text = format!("{HEADER}output(9)\n");
        for gate in 0..k {
            text += &format!(
                "# block {gate}: exists x, not x, as all of them\n{} = exists(1; -1)\n",
                10 + gate
            );
        }
        let inputs: Vec<String> = (0..k).map(|gate| (10 + gate).to_string()).collect();
        text + &format!("9 = and({})\n", inputs.join(", "))
    })
}

/// One gate with as many inputs as there is room for.
fn wide_gate(bytes: usize) -> Vec<u8> {
    fill_up(bytes, |k| {
        let inputs: Vec<String> = (0..k).map(|input| (1 + input % 9).to_string()).collect();
        let inputs = inputs.join(",");
        format!("{HEADER}free(1,2,3,4,5,6,7,8,9)\noutput(10)\n10=or({inputs})\n")
    })
}

/// One gate, 33 bytes to an input.
fn spaced_wide_gate(bytes: usize) -> Vec<u8> {
    fill_up(bytes, |k| {
        let inputs: String = (0..k)
            .map(|input| format!("{:>31}\t,", 10_000 + input % 9))
            .collect();
        let free: Vec<String> = (0..9).map(|k| (10_000 + k).to_string()).collect();
        let free = free.join(", ");
        format!("{HEADER}free({free})\noutput(10)\n10 = or({inputs}10000)\n")
    })
}

/// Gates of two inputs, the gate before and one of nine variables, with names
/// from these on, and a text before each gate line.
fn chain(bytes: usize, gates: usize, variables: usize, before: &str) -> Vec<u8> {
    fill_up(bytes, |k| {
        let free: Vec<String> = (0..9).map(|k| (variables + k).to_string()).collect();
        let mut text = format!("{HEADER}free({})\noutput({})\n", free.join(","), gates + k);
        text += &format!("{gates}=and()\n");
        for gate in gates + 1..=gates + k {
            let word = ["and", "or", "xor"][gate % 3];
            let variable = variables + gate % 9;
            text += &format!("{before}{gate}={word}({},{variable})\n", gate - 1);
        }
        text
    })
}

fn commented_chain(bytes: usize) -> Vec<u8> {
    chain(bytes, 60_000, 50_000, "# a gate\n    ")
}

/// x < y bit by bit from the lowest, y bound by the prefix, with a text before
/// each bit.
fn comparators(bytes: usize, before: &str) -> Vec<u8> {
    fill_up(bytes, |k| {
        let names = |first: usize| -> String {
            let names: Vec<String> = (1..=k.max(1))
                .map(|bit| (first + bit).to_string())
                .collect();
            names.join(", ")
        };
        let (x, y) = (10_000, 20_000);
        let (here, same, below, less) = (30_000, 35_000, 40_000, 45_000);
        let mut text = format!("{HEADER}free({})\nexists({})\n", names(x), names(y));
        text += &format!("output({})\n{less} = or()\n", less + k);
        for bit in 1..=k {
            let (x, y) = (x + bit, y + bit);
            let (here, same, below) = (here + bit, same + bit, below + bit);
            text += before;
            text += &format!("{here} = and(-{x}, {y})\n");
            text += &format!("{same} = xor(-{x}, {y})\n");
            text += &format!("{below} = and({same}, {})\n", less + bit - 1);
            text += &format!("{} = or({here}, {below})\n", less + bit);
        }
        text
    })
}

fn commented_comparators(bytes: usize) -> Vec<u8> {
    comparators(
        bytes,
        "# less here, or the same here and less below\n\n# comparator\n",
    )
}

/// One prefix line with as many names as there is room for.
fn long_prefix_line(bytes: usize) -> Vec<u8> {
    fill_up(bytes, |k| {
        let names: Vec<String> = (0..=k).map(|name| (65_535 - name).to_string()).collect();
        format!("{HEADER}forall({})\noutput(-65535)\n", names.join(","))
    })
}

/// A variable under this many prefix lines. Each binds a name from 65,535 down,
/// so that new names are the highest there are, and the last binds two. Exists
/// lines after a forall line make the longest texts in either format.
pub fn prefix_lines(lines: usize) -> Vec<u8> {
    let names: Vec<String> = (0..=lines).map(|k| (65_535 - k).to_string()).collect();
    let mut text = format!("{HEADER}forall({})\n", names[0]);
    for name in &names[1..lines - 1] {
        text += &format!("exists({name})\n");
    }
    text += &format!("exists({})\n", names[lines - 1..].join(","));
    (text + "output(65535)\n").into_bytes()
}

/// The file with the largest form there is but for a few nodes: a leaf and
/// 4,095 blocks, each in the next, with 4,096 variables.
pub fn largest_lift() -> Vec<u8> {
    prefix_lines(LIMIT - 1)
}

/// Seven bytes in eight are comments.
fn comments(bytes: usize) -> Vec<u8> {
    let comment = format!("# {}\n", "all of this line is skipped ".repeat(5));
    chain(bytes, 60_000, 50_000, &comment)
}

/// Seven bytes in eight are blanks and blank lines.
fn blanks(bytes: usize) -> Vec<u8> {
    let blanks = format!("{}\n", " \t  ".repeat(9)).repeat(4);
    chain(bytes, 60_000, 50_000, &blanks)
}

#[cfg(test)]
mod tests {
    use super::*;
    use crate::{qcir, WIDTH};

    #[test]
    fn random_circuits_have_every_feature() {
        let mut counts = [0; 14];
        let mut rng = Rng::new(3);
        for _ in 0..1000 {
            let gates = rng.between(3, 20);
            let (circuit, text) = good_file(&mut rng, gates);
            let mut words = [0; WIDTH * 4096];
            let mut list = [0; 4096];
            let answer = qcir::read(&text, &mut words, &mut list);
            assert!(answer.is_ok(), "{answer:?}: {circuit:?}");
            let any = |feature: fn(&Gate) -> bool| circuit.gates.iter().any(feature);
            let bound = |gate: &Gate| match &gate.operation {
                Operation::Quantified(_, list) => list.clone(),
                _ => Vec::new(),
            };
            let declared = |name: &u32| {
                let mut prefix = circuit.prefix.iter();
                circuit.free.contains(name) || prefix.any(|(_, list)| list.contains(name))
            };
            let has = |bytes: &[u8]| text.windows(bytes.len()).any(|window| window == bytes);
            let names = circuit.gates.iter().flat_map(bound);
            let features = [
                any(|gate| gate.operation == Operation::And && gate.inputs.len() > 1),
                any(|gate| gate.operation == Operation::Or && gate.inputs.len() > 1),
                any(|gate| gate.operation == Operation::Xor),
                any(|gate| gate.inputs.is_empty()),
                any(|gate| bound_kind(gate) == Some(Quantifier::Exists)),
                any(|gate| bound_kind(gate) == Some(Quantifier::ForAll)),
                // Names bound by gates, declared and not.
                names.clone().any(|name| declared(&name)),
                names.clone().any(|name| !declared(&name)),
                // A prefix of several lines.
                circuit.prefix.len() > 1,
                has(b"- ") || has(b"-\t"),
                has(b"\n\n"),
                has(b"\n#"),
                has(b"65535"),
                text.last() != Some(&b'\n'),
            ];
            for (count, feature) in counts.iter_mut().zip(features) {
                *count += u32::from(feature);
            }
        }
        assert!(counts.iter().all(|&count| count > 50), "{counts:?}");
    }

    fn bound_kind(gate: &Gate) -> Option<Quantifier> {
        match gate.operation {
            Operation::Quantified(quantifier, _) => Some(quantifier),
            _ => None,
        }
    }

    #[test]
    fn families_have_the_bytes_asked_for() {
        for bytes in [16_384, 32_768, 65_536] {
            for (name, family) in FAMILIES {
                assert_eq!(family(bytes).len(), bytes, "{name}");
            }
        }
    }
}
