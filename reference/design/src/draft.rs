//! A design before it has numbers: what the assembler and the generator build, and how it becomes bytes.

use numbers::BOUND;

/// A node by its index in the draft; a bound holds the index of its definiens in `word`.
#[derive(Clone, Debug)]
pub struct Item {
    pub kind: u8,
    pub extra: u8,
    pub word: u32,
    pub children: Vec<usize>,
}

#[derive(Clone, Debug)]
pub struct Head {
    pub parameters: u8,
    /// The width byte.
    pub width: u8,
    pub root: usize,
}

impl Head {
    /// Of a function that has all 32 bits.
    pub fn new(parameters: usize, root: usize) -> Head {
        Head { parameters: parameters as u8, width: 0, root }
    }
}

#[derive(Clone, Debug, Default)]
pub struct Draft {
    pub functions: Vec<Head>,
    pub items: Vec<Item>,
}

impl Draft {
    /// Adds a node that gets its children later, so that a holder comes before them.
    pub fn add(&mut self, kind: u8, extra: u8, word: u32) -> usize {
        self.items.push(Item { kind, extra, word, children: Vec::new() });
        self.items.len() - 1
    }

    /// The table with nodes numbered in the order they were added.
    pub fn bytes(&self) -> Vec<u8> {
        let numbers: Vec<u16> = (1..=self.items.len() as u16).collect();
        self.bytes_with(&numbers)
    }

    /// The table with the node at index i numbered `numbers[i]`; the numbers are 1 to N in any order.
    pub fn bytes_with(&self, numbers: &[u16]) -> Vec<u8> {
        let nexts = self.nexts();
        let mut indices = vec![0; self.items.len()];
        for (index, number) in numbers.iter().enumerate() {
            indices[usize::from(*number) - 1] = index;
        }
        let number_of = |index: Option<usize>| index.map_or(0, |index| numbers[index]);
        let mut bytes = Vec::new();
        bytes.extend((self.functions.len() as u16).to_le_bytes());
        bytes.extend((self.items.len() as u16).to_le_bytes());
        for head in &self.functions {
            bytes.extend([head.parameters, head.width]);
            bytes.extend(numbers[head.root].to_le_bytes());
        }
        for index in indices {
            let item = &self.items[index];
            let word = match item.kind {
                BOUND => u32::from(numbers[item.word as usize]),
                _ => item.word,
            };
            bytes.extend([item.kind, item.extra]);
            bytes.extend(word.to_le_bytes());
            bytes.extend(number_of(item.children.first().copied()).to_le_bytes());
            bytes.extend(number_of(nexts[index]).to_le_bytes());
        }
        bytes
    }

    /// Numbers that go function by function, each node before what is below it.
    pub fn in_order(&self) -> Vec<u16> {
        let mut numbers = vec![0; self.items.len()];
        let mut left: Vec<usize> = self.functions.iter().map(|head| head.root).rev().collect();
        for number in 1..=self.items.len() as u16 {
            let node = left.pop().expect("every node is below a root");
            numbers[node] = number;
            left.extend(self.items[node].children.iter().rev());
        }
        numbers
    }

    /// The next sibling of each node.
    pub fn nexts(&self) -> Vec<Option<usize>> {
        let mut nexts = vec![None; self.items.len()];
        for item in &self.items {
            for pair in item.children.windows(2) {
                nexts[pair[0]] = Some(pair[1]);
            }
        }
        nexts
    }
}
