//! Sets of labels, scopes or variables as words: member l is bit l of their run.

use std::ops::{BitAnd, BitOr, BitOrAssign};

/// A set with room for 64 members a word: labels of the small edition in one word, of the large one, or variables, in four.
#[derive(Clone, Copy, PartialEq, Eq, Debug)]
pub struct Set<const N: usize>(pub [u64; N]);

pub type Variables = Set<4>;

impl<const N: usize> Set<N> {
    pub const EMPTY: Set<N> = Set([0; N]);

    /// The set of one member.
    pub fn of(l: u8) -> Set<N> {
        let mut set = Set::EMPTY;
        set.insert(l);
        set
    }

    /// Adds a member; says whether it was new.
    pub fn insert(&mut self, l: u8) -> bool {
        let (word, bit) = (&mut self.0[l as usize / 64], 1 << (l % 64));
        let new = *word & bit == 0;
        *word |= bit;
        new
    }

    pub fn is_empty(self) -> bool {
        self == Set::EMPTY
    }

    /// What the other lacks.
    pub fn minus(self, other: Set<N>) -> Set<N> {
        Set(std::array::from_fn(|i| self.0[i] & !other.0[i]))
    }

    pub fn count(self) -> u64 {
        self.0.iter().map(|word| word.count_ones() as u64).sum()
    }

    /// The members, ascending.
    pub fn members(self) -> impl Iterator<Item = u8> {
        let (mut words, mut at) = (self.0, 0);
        std::iter::from_fn(move || {
            while at < N && words[at] == 0 {
                at += 1;
            }
            let word = words.get_mut(at)?;
            let bit = word.trailing_zeros() as usize;
            *word &= *word - 1;
            Some((64 * at + bit) as u8)
        })
    }
}

impl<const N: usize> Default for Set<N> {
    fn default() -> Set<N> {
        Set::EMPTY
    }
}

impl<const N: usize> FromIterator<u8> for Set<N> {
    fn from_iter<I: IntoIterator<Item = u8>>(members: I) -> Set<N> {
        members.into_iter().fold(Set::EMPTY, |set, l| set | Set::of(l))
    }
}

impl<const N: usize> BitOr for Set<N> {
    type Output = Set<N>;

    fn bitor(self, other: Set<N>) -> Set<N> {
        Set(std::array::from_fn(|i| self.0[i] | other.0[i]))
    }
}

impl<const N: usize> BitOrAssign for Set<N> {
    fn bitor_assign(&mut self, other: Set<N>) {
        *self = *self | other;
    }
}

impl<const N: usize> BitAnd for Set<N> {
    type Output = Set<N>;

    fn bitand(self, other: Set<N>) -> Set<N> {
        Set(std::array::from_fn(|i| self.0[i] & other.0[i]))
    }
}

/// The members of a word, ascending.
pub fn bits(word: u32) -> impl Iterator<Item = u8> {
    Set([word as u64]).members()
}
