//! Reading QCIR files in plain Rust, independent of the static library: the
//! other side of the comparison tests and of the benchmark.
//!
//! One pass over the bytes, by a scanner with a method for each rule of the
//! grammar, checks the spelling, notes every name and builds the nodes. Then
//! come passes over names and gates. All are linear. Work arrays belong to one
//! call: the index of names is on the stack, the others are allocated.

use crate::answer::{Reason, Refusal, Written};
use crate::reference::{Node, HIGHEST, LIMIT};
use crate::reference::{AND, OR, XOR};
use crate::reference::{CONSTANT, EXISTS, FOR_ALL, NOT, OPERATOR, VARIABLE};
use std::ops::Range;

/// Most bytes of a file.
pub const LONGEST: usize = 65_536;

/// Reads a file into two buffers: nodes of four words, and the list.
pub fn read(text: &[u8], words: &mut [u32], list: &mut [u32]) -> Result<Written, Refusal> {
    if text.len() > LONGEST {
        return Err(Reason::MalformedText.at(0));
    }
    let mut scanner = Scanner { text, at: 0 };
    let mut index = [0; NAMES];
    let mut reader = Reader::new(text.len(), &mut index);
    if reader.file(&mut scanner).is_none() {
        return Err(Reason::MalformedText.at(scanner.at));
    }
    if let Some(place) = reader.misplaced {
        return Err(Reason::MisplacedName.at(place));
    }
    if let Some(name) = reader.gate_not_used_once() {
        return Err(Reason::GateNotUsedOnce.at(name.into()));
    }
    if let Some(name) = reader.unbound_variable() {
        return Err(Reason::UnboundVariable.at(name.into()));
    }
    reader.finish();
    if reader.node_count > LIMIT {
        return Err(Reason::TooLarge.at(0));
    }
    if let Some(node) = reader.over_limit {
        return Err(Reason::TooManyVariables.at(node));
    }
    reader.write(words, list)
}

/// A name in the text and the place of its first digit.
#[derive(Clone, Copy)]
struct Name {
    number: u16,
    place: usize,
}

/// An input, or the output.
#[derive(Clone, Copy)]
struct Literal {
    name: Name,
    negated: bool,
}

/// The text and the place in it. A method that finds a byte that can't stand
/// where it is, or the end, gives None and leaves the place there.
struct Scanner<'a> {
    text: &'a [u8],
    at: usize,
}

impl Scanner<'_> {
    #[inline]
    fn peek(&self) -> Option<u8> {
        self.text.get(self.at).copied()
    }

    /// Takes one byte, which must be this one.
    #[inline]
    fn byte(&mut self, byte: u8) -> Option<()> {
        (self.peek()? == byte).then(|| self.at += 1)
    }

    /// Takes these bytes.
    fn bytes(&mut self, bytes: &[u8]) -> Option<()> {
        bytes.iter().try_for_each(|&byte| self.byte(byte))
    }

    /// Skips spaces and tabs and gives the byte after them.
    #[inline(always)]
    fn after_blanks(&mut self) -> Option<u8> {
        let mut at = self.at;
        while let Some(b' ' | b'\t') = self.text.get(at) {
            at += 1;
        }
        self.at = at;
        self.peek()
    }

    /// Takes a sign, with the blanks before it.
    #[inline]
    fn sign(&mut self, sign: u8) -> Option<()> {
        self.after_blanks();
        self.byte(sign)
    }

    /// Takes a comma, with the blanks before it, if there is one.
    #[inline(always)]
    fn comma(&mut self) -> bool {
        let comma = self.after_blanks() == Some(b',');
        self.at += usize::from(comma);
        comma
    }

    /// Takes a name, with the blanks before it.
    #[inline(always)]
    fn name(&mut self) -> Option<Name> {
        self.after_blanks();
        let place = self.at;
        let mut at = place;
        let mut number = 0;
        while let Some(digit @ b'0'..=b'9') = self.text.get(at) {
            number = 10 * number + u32::from(digit - b'0');
            // A zero in front, or a digit too many.
            if number == 0 || number > HIGHEST {
                self.at = at;
                return None;
            }
            at += 1;
        }
        self.at = at;
        let number = number as u16;
        (at > place).then_some(Name { number, place })
    }

    /// Takes a name and the minus sign before it, if there is one.
    #[inline(always)]
    fn literal(&mut self) -> Option<Literal> {
        let negated = self.after_blanks()? == b'-';
        self.at += usize::from(negated);
        let name = self.name()?;
        Some(Literal { name, negated })
    }

    /// Takes the end of a line, with the blanks before it.
    fn line_end(&mut self) -> Option<()> {
        match self.after_blanks() {
            None => Some(()),
            Some(_) => self.byte(b'\n'),
        }
    }

    /// Skips blank lines and comments and gives the first sign of the next
    /// line, or None at the end.
    fn next_line(&mut self) -> Option<u8> {
        loop {
            match self.after_blanks()? {
                b'\n' => self.at += 1,
                b'#' => {
                    let rest = &self.text[self.at..];
                    let comment = rest.iter().position(|&byte| byte == b'\n');
                    self.at += comment.unwrap_or(rest.len());
                }
                sign => return Some(sign),
            }
        }
    }

    /// Takes the header line.
    fn header(&mut self) -> Option<()> {
        self.bytes(b"#QCIR-G14")?;
        if let Some(b' ' | b'\t') = self.peek() {
            self.after_blanks();
            while let Some(b'0'..=b'9') = self.peek() {
                self.at += 1;
            }
        }
        self.line_end()
    }
}

/// What is known of a name.
struct Symbol {
    name: u16,
    /// The gate that it names first, NONE if it names none.
    gate: u16,
    /// The list that it stands in last, NONE if it stands in none.
    list: u16,
    /// How many inputs and outputs name it.
    uses: u16,
    /// The place of the first input that names it, 0 if none does.
    first_input: u16,
    /// How many gates bind it above the place that a walk has come to.
    bound: u16,
    /// Whether it stands in the free line or in a prefix line.
    declared: bool,
}

const NONE: u16 = u16::MAX;
/// The free line and the prefix lines together, as a list. A gate's list has
/// the gate's index.
const DECLARED: u16 = NONE - 1;

/// The length of an array by name.
const NAMES: usize = HIGHEST as usize + 1;

/// The names of a file, numbered in the order of their first occurrence.
struct Symbols<'a> {
    /// By name: 1 + its number, 0 if it has not occurred.
    index: &'a mut [u16; NAMES],
    symbols: Vec<Symbol>,
}

impl Symbols<'_> {
    /// The number of a name, and what is known of it.
    #[inline(always)]
    fn find(&mut self, name: u16) -> (u16, &mut Symbol) {
        let entry = &mut self.index[usize::from(name)];
        if *entry == 0 {
            self.symbols.push(Symbol {
                name,
                gate: NONE,
                list: NONE,
                uses: 0,
                first_input: 0,
                bound: 0,
                declared: false,
            });
            *entry = self.symbols.len() as u16;
        }
        let number = *entry - 1;
        (number, &mut self.symbols[usize::from(number)])
    }
}

/// A gate line: its list, empty if it has no quantifier, its inputs, and the
/// node that has its value.
struct Gate {
    list: Range<usize>,
    inputs: Range<usize>,
    node: u32,
}

struct Reader<'a> {
    symbols: Symbols<'a>,
    /// The symbols of all lists, in the order of the text.
    listed: Vec<u16>,
    /// The symbols of all inputs, in the order of the text.
    inputs: Vec<u16>,
    /// Kinds and lists of the prefix lines.
    prefix: Vec<(u32, Range<usize>)>,
    output: Option<Literal>,
    gates: Vec<Gate>,
    /// The nodes, no more than `LIMIT` of them.
    nodes: Vec<Node>,
    /// How many nodes there are without the limit.
    node_count: usize,
    /// The sum of the blocks' counts.
    bound: usize,
    /// The first block that brings the sum over the limit.
    over_limit: Option<usize>,
    /// The lowest place of refusal 11.
    misplaced: Option<usize>,
}

impl Reader<'_> {
    fn new(bytes: usize, index: &mut [u16; NAMES]) -> Reader<'_> {
        Reader {
            symbols: Symbols {
                index,
                symbols: Vec::new(),
            },
            listed: Vec::new(),
            // An input takes two bytes at least, a node one.
            inputs: Vec::with_capacity(bytes / 2),
            prefix: Vec::new(),
            output: None,
            gates: Vec::new(),
            nodes: Vec::with_capacity(bytes.min(LIMIT)),
            node_count: 0,
            bound: 0,
            over_limit: None,
            misplaced: None,
        }
    }

    fn misplaced_at(&mut self, place: usize) {
        let lowest = self.misplaced.map_or(place, |before| before.min(place));
        self.misplaced = Some(lowest);
    }

    /// Adds a node and gives its index.
    #[inline(always)]
    fn node(&mut self, node: Node) -> u32 {
        if self.nodes.len() < LIMIT {
            self.nodes.push(node);
        }
        self.node_count += 1;
        self.node_count as u32 - 1
    }

    /// Adds a block whose range follows the range of the block before it.
    fn block(&mut self, kind: u32, count: usize, body: u32) -> u32 {
        let node = self.node([kind, self.bound as u32, count as u32, body]);
        self.bound += count;
        if self.bound > LIMIT {
            self.over_limit.get_or_insert(node as usize);
        }
        node
    }

    /// Gives the node of a literal's value, adding what is not there yet. Its
    /// name is this gate's, or a variable's if this is NONE.
    #[inline(always)]
    fn literal_node(&mut self, Literal { name, negated }: Literal, gate: u16) -> u32 {
        let node = if gate == NONE {
            self.node([VARIABLE, name.number.into(), 0, 0])
        } else {
            self.gates[usize::from(gate)].node
        };
        if negated {
            self.node([NOT, node, 0, 0])
        } else {
            node
        }
    }

    /// Takes the whole file.
    fn file(&mut self, scanner: &mut Scanner) -> Option<()> {
        scanner.header()?;
        self.declarations(scanner)?;
        while scanner.next_line().is_some() {
            self.gate_line(scanner)?;
        }
        Some(())
    }

    /// Takes the lines after the header, down to the output line.
    fn declarations(&mut self, scanner: &mut Scanner) -> Option<()> {
        let mut first_line = true;
        loop {
            match scanner.next_line()? {
                b'f' => {
                    scanner.byte(b'f')?;
                    if first_line && scanner.peek()? == b'r' {
                        scanner.bytes(b"ree")?;
                        self.names(scanner, DECLARED, b')')?;
                    } else {
                        scanner.bytes(b"orall")?;
                        self.prefix_line(scanner, FOR_ALL)?;
                    }
                }
                b'e' => {
                    scanner.bytes(b"exists")?;
                    self.prefix_line(scanner, EXISTS)?;
                }
                _ => break,
            }
            scanner.line_end()?;
            first_line = false;
        }
        scanner.bytes(b"output")?;
        scanner.sign(b'(')?;
        let output = scanner.literal()?;
        self.symbols.find(output.name.number).1.uses += 1;
        self.output = Some(output);
        scanner.sign(b')')?;
        scanner.line_end()
    }

    /// Takes the rest of a prefix line after its word.
    fn prefix_line(&mut self, scanner: &mut Scanner, kind: u32) -> Option<()> {
        let list = self.names(scanner, DECLARED, b')')?;
        self.prefix.push((kind, list));
        Some(())
    }

    /// Takes a list of names, from its opening sign to the sign that ends it.
    fn names(&mut self, scanner: &mut Scanner, list: u16, end: u8) -> Option<Range<usize>> {
        let first = self.listed.len();
        scanner.sign(b'(')?;
        loop {
            let Name { number, place } = scanner.name()?;
            let (number, symbol) = self.symbols.find(number);
            let misplaced = symbol.list == list || symbol.gate != NONE;
            symbol.list = list;
            symbol.declared |= list == DECLARED;
            // DECLARED is one list, so that this is all of refusal 11 here.
            if misplaced {
                self.misplaced_at(place);
            }
            self.listed.push(number);
            if !scanner.comma() {
                break;
            }
        }
        scanner.byte(end)?;
        Some(first..self.listed.len())
    }

    /// Takes an input of a gate and gives its node.
    #[inline(always)]
    fn input(&mut self, scanner: &mut Scanner, gate: u16) -> Option<u32> {
        let literal = scanner.literal()?;
        let Name { number, place } = literal.name;
        let (number, symbol) = self.symbols.find(number);
        symbol.uses += 1;
        if symbol.first_input == 0 {
            symbol.first_input = place as u16;
        }
        let named = symbol.gate;
        if named == gate {
            self.misplaced_at(place);
        }
        self.inputs.push(number);
        Some(self.literal_node(literal, named))
    }

    /// Takes a gate line.
    fn gate_line(&mut self, scanner: &mut Scanner) -> Option<()> {
        let gate = self.gates.len() as u16;
        let name = scanner.name()?;
        self.define(name, gate);
        let first_input = self.inputs.len();
        let mut list = 0..0;
        // Stands for the gate until its line has been taken.
        self.gates.push(Gate {
            list: 0..0,
            inputs: 0..0,
            node: 0,
        });
        scanner.sign(b'=')?;
        let node = match scanner.after_blanks()? {
            b'a' => {
                scanner.bytes(b"and")?;
                self.operands(scanner, gate, AND, 1)?
            }
            b'o' => {
                scanner.bytes(b"or")?;
                self.operands(scanner, gate, OR, 0)?
            }
            b'x' => {
                scanner.bytes(b"xor")?;
                scanner.sign(b'(')?;
                let left = self.input(scanner, gate)?;
                scanner.sign(b',')?;
                let right = self.input(scanner, gate)?;
                scanner.sign(b')')?;
                self.node([OPERATOR, XOR, left, right])
            }
            first => {
                let kind = if first == b'e' {
                    scanner.bytes(b"exists")?;
                    EXISTS
                } else {
                    scanner.bytes(b"forall")?;
                    FOR_ALL
                };
                list = self.names(scanner, gate, b';')?;
                let body = self.input(scanner, gate)?;
                scanner.sign(b')')?;
                self.block(kind, list.len(), body)
            }
        };
        self.gates[usize::from(gate)] = Gate {
            list,
            inputs: first_input..self.inputs.len(),
            node,
        };
        scanner.line_end()
    }

    /// Makes a name a gate's.
    fn define(&mut self, Name { number, place }: Name, gate: u16) {
        let (_, symbol) = self.symbols.find(number);
        if symbol.gate != NONE {
            return self.misplaced_at(place);
        }
        symbol.gate = gate;
        let in_list = symbol.list != NONE;
        let first_input = symbol.first_input.into();
        if in_list {
            self.misplaced_at(place);
        }
        if first_input != 0 {
            self.misplaced_at(first_input);
        }
    }

    /// Takes any number of inputs, from the opening sign to the closing one,
    /// and gives the node of their value, which is `empty` if there are none.
    fn operands(
        &mut self,
        scanner: &mut Scanner,
        gate: u16,
        truth_table: u32,
        empty: u32,
    ) -> Option<u32> {
        scanner.sign(b'(')?;
        if scanner.after_blanks()? == b')' {
            scanner.at += 1;
            return Some(self.node([CONSTANT, empty, 0, 0]));
        }
        let mut value = self.input(scanner, gate)?;
        while scanner.comma() {
            let right = self.input(scanner, gate)?;
            value = self.node([OPERATOR, truth_table, value, right]);
        }
        scanner.byte(b')')?;
        Some(value)
    }

    /// The lowest name of a gate that isn't used exactly once.
    fn gate_not_used_once(&self) -> Option<u16> {
        let symbols = self.symbols.symbols.iter();
        symbols
            .filter(|symbol| symbol.gate != NONE && symbol.uses != 1)
            .map(|symbol| symbol.name)
            .min()
    }

    /// The lowest name of a variable that is used where nothing binds it and
    /// that the free line doesn't name, all gates being used exactly once.
    fn unbound_variable(&mut self) -> Option<u16> {
        let is_open = |symbol: &&Symbol| symbol.gate == NONE && symbol.uses > 0 && !symbol.declared;
        let open = || self.symbols.symbols.iter().filter(is_open);
        // Only of a name that stands in gates' lists it matters where it is
        // used.
        if open().any(|symbol| symbol.list != NONE) {
            self.walk()
        } else {
            open().map(|symbol| symbol.name).min()
        }
    }

    /// The lowest name of a variable that is an input where nothing binds it,
    /// by a depth-first walk from the output, which is a gate. On the way it
    /// counts for each name how many gates bind it.
    fn walk(&mut self) -> Option<u16> {
        enum Step {
            Enter(u16),
            Leave(u16),
        }
        let symbols = &mut self.symbols.symbols;
        let output = self.symbols.index[usize::from(self.output?.name.number)] - 1;
        let mut steps = vec![Step::Enter(symbols[usize::from(output)].gate)];
        let mut lowest = None;
        while let Some(step) = steps.pop() {
            match step {
                Step::Enter(index) => {
                    let gate = &self.gates[usize::from(index)];
                    if !gate.list.is_empty() {
                        for &number in &self.listed[gate.list.clone()] {
                            symbols[usize::from(number)].bound += 1;
                        }
                        steps.push(Step::Leave(index));
                    }
                    for &number in &self.inputs[gate.inputs.clone()] {
                        let symbol = &symbols[usize::from(number)];
                        if symbol.gate != NONE {
                            steps.push(Step::Enter(symbol.gate));
                        } else if symbol.bound == 0 && !symbol.declared {
                            lowest = Some(symbol.name.min(lowest.unwrap_or(NONE)));
                        }
                    }
                }
                Step::Leave(index) => {
                    for &number in &self.listed[self.gates[usize::from(index)].list.clone()] {
                        symbols[usize::from(number)].bound -= 1;
                    }
                }
            }
        }
        lowest
    }

    /// Adds the output's nodes and the prefix lines' blocks.
    fn finish(&mut self) {
        let output = self.output.expect("an output line");
        let gate = self.symbols.find(output.name.number).1.gate;
        let mut body = self.literal_node(output, gate);
        for at in (0..self.prefix.len()).rev() {
            let (kind, ref list) = self.prefix[at];
            body = self.block(kind, list.len(), body);
        }
    }

    /// Writes nodes and list, if there is room.
    fn write(&self, words: &mut [u32], list: &mut [u32]) -> Result<Written, Refusal> {
        let nodes = self.nodes.as_flattened();
        if words.len() < nodes.len() || list.len() < self.bound {
            return Err(Reason::BufferTooShort.at(0));
        }
        words[..nodes.len()].copy_from_slice(nodes);
        let gate_lists = self.gates.iter().map(|gate| &gate.list);
        let prefix_lists = self.prefix.iter().rev().map(|(_, list)| list);
        let numbers = gate_lists
            .chain(prefix_lists)
            .flat_map(|range| &self.listed[range.clone()]);
        for (entry, &number) in list.iter_mut().zip(numbers) {
            *entry = self.symbols.symbols[usize::from(number)].name.into();
        }
        Ok(Written {
            words: nodes.len() as u32,
            entries: self.bound as u32,
        })
    }
}
