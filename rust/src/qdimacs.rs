//! Reading QDIMACS files and their truth values by brute force, for texts that
//! the writers give: single spaces, LF after every line, no comments.

use std::collections::BTreeSet;

/// What a file says.
#[derive(Clone, Debug, PartialEq, Eq)]
pub struct Problem {
    /// The header's numbers.
    pub variables: u32,
    pub count: u32,
    /// The blocks, the outermost first.
    pub blocks: Vec<Block>,
    /// Clauses of literals, a variable's opposite being its negative.
    pub clauses: Vec<Vec<i32>>,
}

#[derive(Clone, Debug, PartialEq, Eq)]
pub struct Block {
    pub exists: bool,
    pub variables: Vec<u32>,
}

/// A number without a leading zero or a plus sign.
fn number(word: &str) -> Option<i32> {
    let number: i32 = word.parse().ok()?;
    (number.to_string() == word).then_some(number)
}

/// A line's words as numbers from 1 up or down, up to the 0 at its end.
fn numbers(words: &[&str]) -> Option<Vec<i32>> {
    let (&"0", words) = words.split_last()? else {
        return None;
    };
    let numbers: Option<Vec<i32>> = words.iter().map(|word| number(word)).collect();
    numbers.filter(|numbers| !numbers.contains(&0))
}

/// Reads a file. None if the text is not one.
pub fn read(text: &[u8]) -> Option<Problem> {
    let text = std::str::from_utf8(text).ok()?.strip_suffix('\n')?;
    let mut lines = text
        .split('\n')
        .map(|line| line.split(' ').collect::<Vec<&str>>());
    let header = lines.next()?;
    let ["p", "cnf", variables, count] = header[..] else {
        return None;
    };
    let mut problem = Problem {
        variables: number(variables)?.try_into().ok()?,
        count: number(count)?.try_into().ok()?,
        blocks: Vec::new(),
        clauses: Vec::new(),
    };
    for line in lines {
        match line[..] {
            [word @ ("e" | "a"), ref words @ ..] if problem.clauses.is_empty() => {
                let variables = numbers(words)?.into_iter().map(u32::try_from);
                problem.blocks.push(Block {
                    exists: word == "e",
                    variables: variables.collect::<Result<_, _>>().ok()?,
                });
            }
            ref words => problem.clauses.push(numbers(words)?),
        }
    }
    Some(problem)
}

impl Problem {
    /// The variables that blocks bind, in their order.
    fn bound(&self) -> Vec<u32> {
        let variables = self.blocks.iter().flat_map(|block| &block.variables);
        variables.copied().collect()
    }

    /// What is owed of a written file and doesn't hold, if anything.
    pub fn fault(&self) -> Option<&'static str> {
        let bound = self.bound();
        let once: BTreeSet<u32> = bound.iter().copied().collect();
        let in_clauses = self.clauses.iter().flatten().map(|l| l.unsigned_abs());
        let highest = bound.iter().copied().chain(in_clauses.clone()).max();
        let is_once = |clause: &Vec<i32>| {
            let variables: BTreeSet<u32> = clause.iter().map(|l| l.unsigned_abs()).collect();
            variables.len() == clause.len()
        };
        let owed = [
            (
                highest == Some(self.variables),
                "the header's number of variables is not the highest",
            ),
            (
                self.clauses.len() == self.count as usize,
                "the header's number of clauses is not theirs",
            ),
            (
                self.clauses.iter().all(|clause| !clause.is_empty()),
                "an empty clause",
            ),
            (
                self.clauses.iter().all(is_once),
                "a variable twice in a clause",
            ),
            (once.len() == bound.len(), "a variable bound twice"),
            (
                in_clauses.into_iter().all(|x| once.contains(&x)),
                "a variable that no block binds",
            ),
            (
                self.blocks.iter().all(|block| !block.variables.is_empty()),
                "an empty block",
            ),
            (
                self.blocks.windows(2).all(|w| w[0].exists != w[1].exists),
                "two neighbours of one kind",
            ),
            (
                self.blocks.last().is_some_and(|block| block.exists),
                "the last block is not exists",
            ),
        ];
        let fault = owed.into_iter().find(|(holds, _)| !holds);
        fault.map(|(_, fault)| fault)
    }

    /// The truth value, by trying both values of each variable in the blocks'
    /// order, of which each variable of a clause has to be one. A value is given
    /// up where a clause that has all its values is false: what follows can't
    /// mend it.
    pub fn value(&self) -> bool {
        let bound = self.bound();
        let mut search = Search {
            exists: Vec::new(),
            clauses: vec![Vec::new(); bound.len()],
            values: Vec::new(),
        };
        for block in &self.blocks {
            search
                .exists
                .extend(block.variables.iter().map(|_| block.exists));
        }
        let place = |l: &i32| bound.iter().position(|&x| x == l.unsigned_abs());
        for clause in &self.clauses {
            let mut places = Vec::new();
            for literal in clause {
                places.push((place(literal).expect("bound"), *literal > 0));
            }
            match places.iter().max() {
                Some(&(last, _)) => search.clauses[last].push(places),
                None => return false,
            }
        }
        search.value()
    }
}

/// Variables are their places in the blocks' order.
struct Search {
    /// Whether each is an exists variable.
    exists: Vec<bool>,
    /// The clauses whose last variable each is: variables, and whether the
    /// literal is the variable itself.
    clauses: Vec<Vec<Vec<(usize, bool)>>>,
    /// The values of the first ones.
    values: Vec<bool>,
}

impl Search {
    fn value(&mut self) -> bool {
        let at = self.values.len();
        let Some(&exists) = self.exists.get(at) else {
            return true;
        };
        for value in [false, true] {
            self.values.push(value);
            let holds = |clause: &Vec<(usize, bool)>| {
                clause
                    .iter()
                    .any(|&(place, plain)| self.values[place] == plain)
            };
            let value = self.clauses[at].iter().all(holds) && self.value();
            self.values.pop();
            if value == exists {
                return exists;
            }
        }
        !exists
    }
}

#[cfg(test)]
mod tests {
    use super::*;
    use crate::brute::{quantify, Valuation};
    use crate::generate::Rng;

    fn problem(text: &str) -> Problem {
        read(text.as_bytes()).unwrap_or_else(|| panic!("{text:?}"))
    }

    #[test]
    fn what_a_text_says() {
        let given = problem("p cnf 3 2\na 2 1 0\ne 3 0\n-1 3 0\n-3 0\n");
        let block = |exists, variables: &[u32]| Block {
            exists,
            variables: variables.to_vec(),
        };
        let expected = Problem {
            variables: 3,
            count: 2,
            blocks: vec![block(false, &[2, 1]), block(true, &[3])],
            clauses: vec![vec![-1, 3], vec![-3]],
        };
        assert_eq!(given, expected);
    }

    #[test]
    fn what_is_no_file() {
        for text in [
            "",
            "p cnf 1 1",
            "p cnf 1\n",
            "p cnf 1 1 \n",
            "p  cnf 1 1\n",
            "p cnf 01 1\n",
            "p cnf -1 1\n",
            "p cnf 1 1\ne 1 0\n1 0",
            "p cnf 1 1\ne 1 0\n1\n",
            "p cnf 1 1\ne 1 0\n1 0 \n",
            "p cnf 1 1\ne 1 0\n1  0\n",
            "p cnf 1 1\ne 1 0\n+1 0\n",
            "p cnf 1 1\ne 1 0\n1 0 0\n",
            "p cnf 1 1\ne -1 0\n1 0\n",
            "p cnf 1 1\nx 1 0\n1 0\n",
            "p cnf 1 1\n1 0\ne 1 0\n",
            "p cnf 1 1\ne 1 0\n\n1 0\n",
        ] {
            assert_eq!(read(text.as_bytes()), None, "{text:?}");
        }
    }

    #[test]
    fn every_fault() {
        let good = "p cnf 3 2\na 2 1 0\ne 3 0\n-1 3 0\n-3 0\n";
        assert_eq!(problem(good).fault(), None);
        for (from, to, words) in [
            ("p cnf 3", "p cnf 4", "number of variables"),
            ("p cnf 3", "p cnf 2", "number of variables"),
            ("3 2\na", "3 3\na", "number of clauses"),
            ("-3 0\n", "0\n", "empty clause"),
            ("-3 0\n", "3 3 0\n", "twice in a clause"),
            ("-3 0\n", "3 -3 0\n", "twice in a clause"),
            ("e 3 0", "e 3 2 0", "bound twice"),
            ("a 2 1 0", "a 2 0", "no block binds"),
            ("e 3 0", "e 3 0\na 0\ne 0", "empty block"),
            ("a 2 1 0", "a 2 0\na 1 0", "of one kind"),
            ("e 3 0", "a 3 0", "of one kind"),
            ("a 2 1 0\ne 3 0", "e 2 1 0\na 3 0", "last block"),
        ] {
            let text = good.replacen(from, to, 1);
            let fault = problem(&text).fault();
            assert!(
                fault.is_some_and(|f| f.contains(words)),
                "{text}: {fault:?}"
            );
        }
    }

    /// The truth value by definition, under all valuations.
    fn plain_value(blocks: &[Block], clauses: &[Vec<i32>], valuation: &mut Valuation) -> bool {
        match blocks.split_first() {
            Some((block, rest)) => quantify(block.exists, &block.variables, valuation, &mut |v| {
                plain_value(rest, clauses, v)
            }),
            None => clauses.iter().all(|clause| {
                let holds = |l: &i32| valuation.contains(&l.unsigned_abs()) == (*l > 0);
                clause.iter().any(holds)
            }),
        }
    }

    #[test]
    fn the_value_is_that_of_the_definition() {
        let mut counts = [0; 2];
        let mut rng = Rng::new(5);
        for _ in 0..5_000 {
            let variables = rng.between(1, 8);
            let mut blocks: Vec<Block> = Vec::new();
            for x in 1..=variables as u32 {
                match blocks.last_mut() {
                    Some(block) if rng.one_in(2) => block.variables.push(x),
                    _ => blocks.push(Block {
                        exists: rng.one_in(2),
                        variables: vec![x],
                    }),
                }
            }
            let mut clauses = Vec::new();
            for _ in 0..rng.between(0, 8) {
                let literal = |rng: &mut Rng| rng.between(1, variables) as i32 * rng.pick(&[1, -1]);
                clauses.push((0..rng.between(1, 4)).map(|_| literal(&mut rng)).collect());
            }
            let value = plain_value(&blocks, &clauses, &mut Valuation::new());
            counts[usize::from(value)] += 1;
            let problem = Problem {
                variables: variables as u32,
                count: clauses.len() as u32,
                blocks,
                clauses,
            };
            assert_eq!(problem.value(), value, "{problem:?}");
        }
        assert!(counts.iter().all(|&count| count > 500), "{counts:?}");
    }
}
