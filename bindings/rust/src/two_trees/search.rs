//! The search itself: A* over pairs of stacks.
//!
//! Layers and moves are those of triples. Between two symbols the left side moves first, then the right one, so that the order of
//! moves that do not depend on each other is tried once.

use std::collections::HashMap;

use super::distances::Distances;
use super::items::{Items, State, FIRST};
use super::stacks::{Stack, Stacks, EMPTY};
use super::tree::{Node, Tree};
use super::Extent;

/// When the search gives up.
#[derive(Clone, Copy, Debug)]
pub struct Limits {
    /// Pairs of stacks that are kept.
    pub pairs: usize,
    /// Moves that are tried.
    pub moves: usize,
    /// Triples whose distances are found, in all searches behind the first one together.
    pub triples: usize,
}

impl Default for Limits {
    /// Some tenths of a second, and some tens of megabytes; at a thousand states some seconds.
    fn default() -> Limits {
        Limits { pairs: 400_000, moves: 4_000_000, triples: 20_000_000 }
    }
}

impl Limits {
    /// A share of pairs and moves.
    pub fn share(self, parts: usize) -> Limits {
        Limits { pairs: self.pairs / parts, moves: self.moves / parts, ..self }
    }

    /// Whether nothing of one of them is left.
    pub fn is_spent(self) -> bool {
        self.pairs == 0 || self.moves == 0 || self.triples == 0
    }

    /// Takes off what a search used.
    fn spend(&mut self, pairs: usize, moves: usize, triples: usize) {
        self.pairs = self.pairs.saturating_sub(pairs);
        self.moves = self.moves.saturating_sub(moves);
        self.triples = self.triples.saturating_sub(triples);
    }
}

/// Which side moves: before the next symbol, a left move may follow only left moves.
#[derive(Clone, Copy, PartialEq, Eq, Hash)]
enum Turn {
    Left,
    Right,
}

#[derive(Clone, Copy, PartialEq, Eq, Hash)]
struct Pair {
    layer: usize,
    turn: Turn,
    left: Stack,
    right: Stack,
}

/// What led to a pair. Closings need not be told: the nodes of a tree do without.
#[derive(Clone, Copy)]
enum Moved {
    OpenedLeft,
    OpenedRight,
    Shifted,
    Closed,
}

struct Kept {
    pair: Pair,
    cost: u32,
    done: bool,
    from: Option<(u32, Moved)>,
}

struct Search<'a> {
    items: &'a Items,
    distances: Distances,
    stacks: Stacks<'a>,
    kept: Vec<Kept>,
    numbers: HashMap<Pair, u32>,
    /// By cost and distance together the pairs to be taken up, the latest first.
    queue: Vec<Vec<u32>>,
    tried: usize,
    limits: Limits,
    /// Whether a pair had to be left out.
    full: bool,
    /// Pairs of rules that may not part.
    known: &'a [(usize, usize)],
}

/// Two trees, and the two rules at which their walks part, the smaller number first.
pub type Parted = (Tree, Tree, (usize, usize));

/// The two trees of a cheapest pair of walks that do not part between known rules, or how far the search looked. What it used is taken
/// off `left`.
pub fn search(items: &Items, limits: Limits, known: &[(usize, usize)], left: &mut Limits) -> Result<Parted, Extent> {
    let distances = Distances::new(items, known);
    let triples = distances.found();
    let mut search = Search {
        items,
        limits,
        known,
        full: false,
        distances,
        stacks: Stacks::new(items),
        kept: Vec::new(),
        numbers: HashMap::new(),
        queue: Vec::new(),
        tried: 0,
    };
    let found = search.run();
    left.spend(search.kept.len(), search.tried, triples);
    found
}

impl Search<'_> {
    fn run(&mut self) -> Result<Parted, Extent> {
        let first = self.stacks.push(EMPTY, FIRST);
        self.add(Pair { layer: 0, turn: Turn::Left, left: first, right: first }, 0, None);
        let mut total = 0;
        while total < self.queue.len() {
            let Some(number) = self.queue[total].pop() else {
                total += 1;
                continue;
            };
            if self.full || self.tried > self.limits.moves {
                return Err(Extent::Limit { pairs: self.kept.len(), moves: total });
            }
            let kept = &mut self.kept[number as usize];
            if std::mem::replace(&mut kept.done, true) {
                continue;
            }
            let pair = kept.pair;
            if (pair.layer, pair.left, pair.right) == (1, EMPTY, EMPTY) {
                return Ok(self.trees(number));
            }
            self.expand(number, pair);
        }
        Err(Extent::All { pairs: self.kept.len() })
    }

    /// At least so many moves are left: those of the triple's distance, and those that close both stacks. Each symbol is passed by
    /// both sides in one move, and in layer 0 the parting may close two rules in one.
    fn ahead(&self, pair: Pair) -> Option<u32> {
        let distance = self.distances.of(pair.layer, self.stacks.top(pair.left), self.stacks.top(pair.right))?;
        let (left_closings, left_rest) = self.stacks.ahead(pair.left);
        let (right_closings, right_rest) = self.stacks.ahead(pair.right);
        let closings = left_closings + right_closings - u32::from(pair.layer == 0);
        Some(distance.max(closings + left_rest.max(right_rest)))
    }

    /// Whether an opening may lead to (1,1,1): a stack that does not is not kept.
    fn leads(&mut self, layer: usize, left: State, right: State) -> bool {
        self.tried += 1;
        self.distances.of(layer, left, right).is_some()
    }

    /// Queues a pair, unless it is known at no more cost.
    fn add(&mut self, pair: Pair, cost: u32, from: Option<(u32, Moved)>) {
        self.tried += 1;
        let Some(ahead) = self.ahead(pair) else { return };
        let kept = Kept { pair, cost, done: false, from };
        let number = match self.numbers.get(&pair) {
            Some(number) if self.kept[*number as usize].cost <= cost => return,
            Some(number) => {
                self.kept[*number as usize] = kept;
                *number
            }
            None if self.kept.len() >= self.limits.pairs => {
                self.full = true;
                return;
            }
            None => {
                let number = self.kept.len() as u32;
                self.kept.push(kept);
                self.numbers.insert(pair, number);
                number
            }
        };
        let total = (cost + ahead) as usize;
        if self.queue.len() <= total {
            self.queue.resize_with(total + 1, Vec::new);
        }
        self.queue[total].push(number);
    }

    fn expand(&mut self, number: u32, pair: Pair) {
        let cost = self.kept[number as usize].cost + 1;
        let (items, left_top, right_top) = (self.items, self.stacks.top(pair.left), self.stacks.top(pair.right));
        // A rule that is read to its end has to be closed before its side can pass a symbol.
        if pair.layer == 1 && pair.turn == Turn::Left && items.closes(left_top) {
            let left = self.stacks.closed(pair.left);
            return self.add(Pair { left, ..pair }, cost, Some((number, Moved::Closed)));
        }
        if pair.turn == Turn::Left {
            for top in items.opened(left_top) {
                if self.leads(pair.layer, *top, right_top) {
                    let left = self.stacks.push(pair.left, *top);
                    self.add(Pair { left, ..pair }, cost, Some((number, Moved::OpenedLeft)));
                }
            }
        }
        for top in items.opened(right_top) {
            if self.leads(pair.layer, left_top, *top) {
                let right = self.stacks.push(pair.right, *top);
                self.add(Pair { right, turn: Turn::Right, ..pair }, cost, Some((number, Moved::OpenedRight)));
            }
        }
        let common = items.next(left_top).filter(|code| items.next(right_top) == Some(*code));
        if common.is_some_and(|code| items.passable(pair.layer, code)) {
            let (left, right) = (self.stacks.shifted(pair.left), self.stacks.shifted(pair.right));
            self.add(Pair { left, right, turn: Turn::Left, ..pair }, cost, Some((number, Moved::Shifted)));
        }
        self.close(number, pair, cost);
    }

    /// Closings: either side alone in layer 1; in layer 0 those at which the readings part.
    fn close(&mut self, number: u32, pair: Pair, cost: u32) {
        let (items, left_top, right_top) = (self.items, self.stacks.top(pair.left), self.stacks.top(pair.right));
        let (left_closes, right_closes) = (items.closes(left_top), items.closes(right_top));
        let left = if left_closes { self.stacks.closed(pair.left) } else { pair.left };
        let right = if right_closes { self.stacks.closed(pair.right) } else { pair.right };
        let from = Some((number, Moved::Closed));
        if pair.layer == 1 {
            if right_closes {
                self.add(Pair { right, turn: Turn::Right, ..pair }, cost, from);
            }
            return;
        }
        let parted = if left_closes && right_closes {
            items.rule(left_top) != items.rule(right_top)
        } else {
            left_closes && items.before_terminal(right_top) || right_closes && items.before_terminal(left_top)
        };
        if parted && !self.known.contains(&items.rules(left_top, right_top)) {
            self.add(Pair { layer: 1, turn: Turn::Left, left, right }, cost, from);
        }
    }

    /// The trees that the moves up to a pair walk through.
    fn trees(&self, number: u32) -> Parted {
        let (mut left, mut right) = (Vec::new(), Vec::new());
        let mut rules = (0, 0);
        let mut place = &self.kept[number as usize];
        while let Some((from, moved)) = place.from {
            let before = &self.kept[from as usize];
            if before.pair.layer < place.pair.layer {
                rules = self.items.rules(self.stacks.top(before.pair.left), self.stacks.top(before.pair.right));
            }
            let rule = |stack| Node::Rule(self.items.rule(self.stacks.top(stack)));
            match moved {
                Moved::OpenedLeft => left.push(rule(place.pair.left)),
                Moved::OpenedRight => right.push(rule(place.pair.right)),
                Moved::Shifted => {
                    let passed = self.items.next(self.stacks.top(before.pair.left)).expect("a symbol was passed");
                    left.push(Node::Leaf(passed));
                    right.push(Node::Leaf(passed));
                }
                Moved::Closed => (),
            }
            place = before;
        }
        left.reverse();
        right.reverse();
        (left, right, rules)
    }
}
