//! The three rules as operations on words of labels, and their fixpoint.

use super::tables::Table;

/// Labels that capabilities of a kind (0 in, 1 out, 2 open) and label may act on.
pub type Partners = [[u64; 64]; 3];

/// Labels in which some capability of a kind may stand that may act on a label.
type Movers = [[u64; 64]; 3];

/// The labels of a word, lowest first.
fn labels(mut word: u64) -> impl Iterator<Item = usize> {
    std::iter::from_fn(move || {
        let lowest = word.trailing_zeros() as usize;
        word &= word.wrapping_sub(1);
        (lowest < 64).then_some(lowest)
    })
}

fn has(word: u64, label: usize) -> bool {
    word >> label & 1 == 1
}

fn within(word: u64, outer: u64) -> bool {
    word & !outer == 0
}

/// Bit k of word t for bit t of word k.
pub fn transposed(words: &[u64; 64]) -> [u64; 64] {
    let mut transposed = [0; 64];
    for (k, &word) in words.iter().enumerate() {
        for t in labels(word) {
            transposed[t] |= 1 << k;
        }
    }
    transposed
}

/// Adds labels to a word; the row as a set, if the word changed.
fn gain(word: &mut u64, more: u64, row: usize) -> u64 {
    let new = *word | more;
    if new == *word {
        return 0;
    }
    *word = new;
    1 << row
}

impl Table {
    /// Adds the movers of the table.
    fn add_movers(&self, movers: &mut Movers, partners: &Partners) {
        let holders = transposed(&self.orders);
        for (movers, partners) in movers.iter_mut().zip(partners) {
            for (&partners, holders) in partners.iter().zip(holders) {
                for b in labels(partners) {
                    movers[b] |= holders;
                }
            }
        }
    }

    /// The rules for b in row p, once; the rows that changed.
    fn pair(&mut self, movers: &Movers, p: usize, b: usize) -> u64 {
        let (here, there) = (self.ambients[p], self.ambients[b]);
        let entered = gain(&mut self.ambients[b], here & movers[0][b], b);
        let left = gain(&mut self.ambients[p], there & movers[1][b], p);
        let moved = entered | left;
        if !has(movers[2][b], p) {
            return moved;
        }
        let (ambients, orders) = (self.ambients[b], self.orders[b]);
        moved | gain(&mut self.ambients[p], ambients, p) | gain(&mut self.orders[p], orders, p)
    }

    /// The rules of row p, once; the rows that changed.
    fn visit(&mut self, movers: &Movers, p: usize) -> u64 {
        let mut changed = 0;
        for b in labels(self.ambients[p]) {
            changed |= self.pair(movers, p, b);
        }
        changed
    }

    /// The rules of all rows that read a row which has changed; the rows that changed.
    fn pass(&mut self, movers: &Movers, before: u64) -> u64 {
        let mut now = 0;
        for p in 0..64 {
            if (before | now) & (self.ambients[p] | 1 << p) != 0 {
                now |= self.visit(movers, p);
            }
        }
        now
    }

    /// Closes the rows with the movers fixed; how many passes it took.
    fn settle(&mut self, movers: &Movers) -> usize {
        let mut changed = u64::MAX;
        for passes in 1.. {
            changed = self.pass(movers, changed);
            if changed == 0 {
                return passes;
            }
        }
        0
    }

    /// The labels that are suspect if b is.
    fn infects(&self, movers: &Movers, b: usize) -> u64 {
        let (entering, leaving) = (movers[0][b], self.ambients[b] & movers[1][b]);
        let mut found = 0;
        for (p, &row) in self.ambients.iter().enumerate() {
            if has(row, b) {
                found |= row & entering | leaving | movers[2][b] & 1 << p;
            }
        }
        found
    }

    fn spread(&mut self, movers: &Movers) {
        let mut left = u64::MAX;
        while self.suspects & left != 0 {
            let b = (self.suspects & left).trailing_zeros() as usize;
            self.suspects |= self.infects(movers, b);
            left ^= 1 << b;
        }
    }

    /// Grows to the least table that is closed; how many passes it took.
    pub fn close(&mut self, partners: &Partners) -> usize {
        let held = |table: &Table| table.orders.iter().map(|word| word.count_ones()).sum::<u32>();
        let mut movers = [[0; 64]; 3];
        let mut passes = 0;
        let mut before = held(self);
        loop {
            self.add_movers(&mut movers, partners);
            passes += self.settle(&movers);
            let after = held(self);
            if after == before {
                self.spread(&movers);
                return passes;
            }
            before = after;
        }
    }

    /// Whether the rules hold for b in row p.
    fn pair_holds(&self, movers: &Movers, p: usize, b: usize) -> bool {
        let (here, there) = (self.ambients[p], self.ambients[b]);
        let (entering, leaving) = (here & movers[0][b], there & movers[1][b]);
        within(entering, there)
            && within(leaving, here)
            && (!has(self.suspects, b) || within(entering | leaving, self.suspects))
            && (!has(movers[2][b], p) || self.open_holds(p, b))
    }

    /// Whether row b lies inside row p, and p is suspect if b is.
    fn open_holds(&self, p: usize, b: usize) -> bool {
        within(self.ambients[b], self.ambients[p])
            && within(self.orders[b], self.orders[p])
            && (!has(self.suspects, b) || has(self.suspects, p))
    }

    /// Whether the table is closed under the rules.
    pub fn rules_hold(&self, partners: &Partners) -> bool {
        let mut movers = [[0; 64]; 3];
        self.add_movers(&mut movers, partners);
        (0..64).all(|p| labels(self.ambients[p]).all(|b| self.pair_holds(&movers, p, b)))
    }
}
