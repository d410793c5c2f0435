//! Lists that are worked off in a drawn order, and then again; and the shares that
//! several of them have in what is made.

use crate::rng::Rng;

/// A list of things to come.
pub struct Rounds<T> {
    all: Vec<T>,
    /// Those of this round that have not had their turn, the next one last.
    left: Vec<T>,
    begun: usize,
}

impl<T: Copy> Rounds<T> {
    pub fn new(all: Vec<T>) -> Rounds<T> {
        Rounds {
            all,
            left: Vec::new(),
            begun: 0,
        }
    }

    /// How many a round has.
    pub fn round(&self) -> usize {
        self.all.len()
    }

    /// The next one; nothing where the list is empty.
    pub fn take(&mut self, rng: &mut Rng) -> Option<T> {
        if self.left.is_empty() {
            self.left.clone_from(&self.all);
            rng.shuffle(&mut self.left);
            self.begun += 1;
        }
        self.left.pop()
    }

    /// Puts one back that did not come off; it is the last of this round.
    pub fn put_back(&mut self, one: T) {
        self.left.insert(0, one);
    }

    /// Whether some of the list have not had their first turn.
    pub fn in_first_round(&self) -> bool {
        match self.begun {
            0 => !self.all.is_empty(),
            1 => !self.left.is_empty(),
            _ => false,
        }
    }
}

/// How many of a kind there are to be in a round, and how many there are.
struct Share<K> {
    kind: K,
    of_round: usize,
    made: usize,
}

/// Kinds of things, each with its share.
pub struct Shares<K> {
    list: Vec<Share<K>>,
    round: usize,
}

impl<K> Default for Shares<K> {
    fn default() -> Shares<K> {
        Shares {
            list: Vec::new(),
            round: 0,
        }
    }
}

impl<K: Copy> Shares<K> {
    /// Each list has its length and a little more, so that all of it comes in a round
    /// of so many; what is left is for the last kind.
    pub fn new(round: usize, lists: &[(K, usize)], last: K) -> Shares<K> {
        let share = |&(kind, length): &(K, usize)| Share {
            kind,
            of_round: length + length / 24 + 1,
            made: 0,
        };
        let mut list: Vec<Share<K>> = lists.iter().map(share).collect();
        let listed: usize = list.iter().map(|share| share.of_round).sum();
        list.push(Share {
            kind: last,
            of_round: round.saturating_sub(listed),
            made: 0,
        });
        Shares { list, round }
    }

    /// The place and the kind of what is furthest behind its share when so many are
    /// due in all.
    pub fn furthest_behind(&self, due: usize) -> (usize, K) {
        let behind =
            |share: &Share<K>| (share.of_round * due) as i64 - (share.made * self.round) as i64;
        let furthest = (0..self.list.len()).max_by_key(|&at| behind(&self.list[at]));
        let at = furthest.unwrap_or(0);
        (at, self.list[at].kind)
    }

    /// So many of the kind at this place have been made.
    pub fn made(&mut self, at: usize, number: usize) {
        self.list[at].made += number;
    }
}
