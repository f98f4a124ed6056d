//! How many moves lead from a triple to (1,1,1), where closings return anywhere: never more than two real walks need.

use std::collections::{HashSet, VecDeque};

use crate::Code;

use super::items::{Items, State, END};

/// The distances to (1,1,1) of all triples, by their indices.
pub struct Distances {
    states: usize,
    /// One more than the distance; 0 where there is none. Pages of zeros that are never written cost nothing.
    of: Vec<u32>,
    /// Triples from which a way leads to (1,1,1).
    found: usize,
}

type Triple = (usize, State, State);

/// The openings and closings of one side that were followed, by side, nonterminal and state of the other side, openings by layer too.
/// Whichever triple comes first has the least distance, and the others would give the same triples.
struct Done {
    states: usize,
    nonterminals: usize,
    marks: Vec<bool>,
}

/// What one side does: an opening in layer 0 or 1, or a closing in layer 1.
const KINDS: usize = 3;
const CLOSING: usize = 2;

impl Done {
    fn new(items: &Items) -> Done {
        let (states, nonterminals) = (items.states(), items.nonterminals());
        Done { states, nonterminals, marks: vec![false; 2 * KINDS * nonterminals * states] }
    }

    /// Marks it; gives whether it is the first time.
    fn first(&mut self, kind: usize, mirrored: bool, nonterminal: usize, other: State) -> bool {
        let place = ((2 * kind + usize::from(mirrored)) * self.nonterminals + nonterminal) * self.states + other;
        !std::mem::replace(&mut self.marks[place], true)
    }

    /// The triples from which a move of one side alone leads to this one: an opening, or in layer 1 a closing.
    fn before_one_side(
        &mut self,
        items: &Items,
        known: &[(usize, usize)],
        (layer, left, right): Triple,
        mirrored: bool,
        put: &mut impl FnMut(Triple),
    ) {
        let (moved, other) = if mirrored { (right, left) } else { (left, right) };
        let mut from = |layer, state| put(if mirrored { (layer, other, state) } else { (layer, state, other) });
        if let Some(nonterminal) = items.begun(moved) {
            if self.first(layer, mirrored, items.number(nonterminal), other) {
                items.callers(nonterminal).iter().for_each(|caller| from(layer, *caller));
            }
        }
        let returned = items.returned(moved).filter(|code| layer == 1 && !items.ends(*code).is_empty());
        let Some(nonterminal) = returned else { return };
        if self.first(CLOSING, mirrored, items.number(nonterminal), other) {
            for state in items.ends(nonterminal) {
                from(1, *state);
                if items.before_terminal(other) && !known.contains(&items.rules(*state, other)) {
                    from(0, *state);
                }
            }
        }
    }
}

impl Distances {
    /// Breadth first, backwards from (1,1,1), without the partings of known pairs of rules.
    pub fn new(items: &Items, known: &[(usize, usize)]) -> Distances {
        let states = items.states();
        let mut distances = Distances { states, of: vec![0; 2 * states * states], found: 0 };
        let mut queue = VecDeque::new();
        let mut done = Done::new(items);
        let mut closed: HashSet<(Code, Code)> = HashSet::new();
        distances.put(&mut queue, (1, END, END), 1);
        while let Some(index) = queue.pop_front() {
            let distance = distances.of[index as usize] + 1;
            let (layer, left, right) = distances.triple(index as usize);
            let mut put = |triple| distances.put(&mut queue, triple, distance);
            for mirrored in [false, true] {
                done.before_one_side(items, known, (layer, left, right), mirrored, &mut put);
            }
            if let (Some((left, passed)), Some((right, same))) = (items.shifter(left), items.shifter(right)) {
                if passed == same {
                    put((layer, left, right));
                }
            }
            // The distance of two closings depends on the two nonterminals alone; the first triple has the least.
            let pair = items.returned(left).zip(items.returned(right));
            if let Some((on_left, on_right)) = pair.filter(|pair| layer == 1 && closed.insert(*pair)) {
                for left in items.ends(on_left) {
                    for right in items.ends(on_right) {
                        let rules = items.rules(*left, *right);
                        if rules.0 != rules.1 && !known.contains(&rules) {
                            put((0, *left, *right));
                        }
                    }
                }
            }
        }
        distances
    }

    fn index(&self, (layer, left, right): Triple) -> usize {
        (layer * self.states + left) * self.states + right
    }

    fn triple(&self, index: usize) -> Triple {
        (index / self.states / self.states, index / self.states % self.states, index % self.states)
    }

    fn put(&mut self, queue: &mut VecDeque<u32>, triple: Triple, distance: u32) {
        let index = self.index(triple);
        if self.of[index] == 0 {
            self.of[index] = distance;
            self.found += 1;
            queue.push_back(index as u32);
        }
    }

    /// The distance of a triple; none where no way leads to (1,1,1).
    pub fn of(&self, layer: usize, left: State, right: State) -> Option<u32> {
        self.of[self.index((layer, left, right))].checked_sub(1)
    }

    /// How many triples have a distance.
    pub fn found(&self) -> usize {
        self.found
    }
}
