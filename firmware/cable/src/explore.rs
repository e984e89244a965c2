//! Every situation of an exchange, and the endings that can still be reached from it.

use std::collections::hash_map::{Entry, HashMap};
use std::collections::{BTreeMap, BTreeSet};

use crate::bus::{Cable, Contact};
use crate::claims::Claim;
use crate::driver::Answer;
use crate::ending::{Ending, Kind, Kinds};
use crate::exchange::Exchange;
use crate::space::{Action, Situation, Space};

/// What was found of an exchange.
#[derive(Default)]
pub struct Found {
    /// Distinct situations that were looked at.
    pub situations: usize,
    /// Steps from one to the next that were looked at.
    pub steps: usize,
    /// The moments of the pull: each distinct situation before it with each kind of pull, and the
    /// kinds of endings that can be reached from there.
    pub pulls: Vec<(Contact, Kinds)>,
    /// Situations from which no ending can be reached. There should be none.
    pub endless: usize,
    /// The kinds of endings that came up.
    pub rows: BTreeMap<Kind, Row>,
    /// The claims that an ending broke, with the first such ending.
    pub broken: Vec<(Claim, Ending)>,
}

/// The endings of one kind.
#[derive(Default)]
pub struct Row {
    /// Distinct situations that are such an ending.
    pub endings: usize,
    pub right: Span,
    pub missing: Span,
    pub misread: Span,
    /// What the scoreboard's transfer counted.
    pub counts: Span,
    pub terminal: BTreeSet<Answer>,
    pub scoreboard: BTreeSet<Answer>,
}

/// The least and the greatest of some numbers.
#[derive(Clone, Copy, Debug, Default, PartialEq, Eq)]
pub struct Span(pub Option<(usize, usize)>);

impl Span {
    pub const ZERO: Span = Span(Some((0, 0)));

    fn add(&mut self, number: usize) {
        *self = self.union(Span(Some((number, number))));
    }

    fn union(self, other: Span) -> Span {
        match (self.0, other.0) {
            (Some((a, b)), Some((c, d))) => Span(Some((a.min(c), b.max(d)))),
            (span, None) | (None, span) => Span(span),
        }
    }
}

impl FromIterator<Span> for Span {
    fn from_iter<I: IntoIterator<Item = Span>>(spans: I) -> Self {
        spans.into_iter().fold(Span::default(), Span::union)
    }
}

impl Row {
    fn add(&mut self, exchange: &Exchange, ending: &Ending) {
        self.endings += 1;
        self.right.add(ending.right(exchange));
        self.missing.add(ending.missing());
        self.misread.add(ending.misread(exchange));
        if let Some(count) = ending.count() {
            self.counts.add(count as usize);
        }
        self.terminal.extend(ending.terminal);
        self.scoreboard.extend(ending.scoreboard.first());
    }
}

/// The situations in the order in which they were found, each with its successors.
struct Graph {
    situations: Vec<Situation>,
    numbers: HashMap<Situation, u32>,
    /// Where the successors of each begin in `to`, and where the last ones end.
    from: Vec<usize>,
    to: Vec<u32>,
    pulls: Vec<(Contact, u32)>,
}

impl Graph {
    fn number(&mut self, situation: Situation) -> u32 {
        match self.numbers.entry(situation) {
            Entry::Occupied(entry) => *entry.get(),
            Entry::Vacant(entry) => {
                let number = self.situations.len() as u32;
                self.situations.push(situation);
                *entry.insert(number)
            }
        }
    }
}

/// Looks at every situation that the exchange can come to, each once. `progress` is told now and
/// then how many there are so far.
pub fn explore(space: &mut Space, progress: &mut dyn FnMut(usize)) -> Found {
    let mut found = Found::default();
    let mut graph = Graph {
        situations: vec![],
        numbers: HashMap::new(),
        from: vec![0],
        to: vec![],
        pulls: vec![],
    };
    let mut reachable = vec![];
    let mut successors = vec![];
    graph.number(space.first);
    while let Some(&situation) = graph.situations.get(reachable.len()) {
        space.successors(situation, &mut successors);
        reachable.push(if space.is_settled(situation, &successors) {
            found.add(space, situation)
        } else {
            Kinds::default()
        });
        for &(action, next) in &successors {
            let number = graph.number(next);
            graph.to.push(number);
            if let Action::Pull(contact) = action {
                graph.pulls.push((contact, number));
            }
        }
        graph.from.push(graph.to.len());
        if reachable.len().is_multiple_of(1_000_000) {
            progress(reachable.len());
        }
    }
    spread(&graph, &mut reachable);
    found.situations = graph.situations.len();
    found.steps = graph.to.len();
    found.endless = reachable.iter().filter(|kinds| kinds.is_empty()).count();
    for (contact, number) in graph.pulls {
        found.pulls.push((contact, reachable[number as usize]));
    }
    found
}

/// Gives each situation the endings of its successors, until nothing changes. Most successors were
/// found later, so going backwards takes few rounds.
fn spread(graph: &Graph, reachable: &mut [Kinds]) {
    let mut changed = true;
    while changed {
        changed = false;
        for number in (0..reachable.len()).rev() {
            let before = reachable[number];
            let to = &graph.to[graph.from[number]..graph.from[number + 1]];
            let after = to
                .iter()
                .fold(before, |kinds, &next| kinds.union(reachable[next as usize]));
            changed |= after != before;
            reachable[number] = after;
        }
    }
}

impl Found {
    /// The moments of the pull from which an ending that is meant can be reached.
    pub fn moments(&self, is_meant: impl Fn(Kind) -> bool) -> usize {
        self.contacts(is_meant).count()
    }

    /// What the pull looked like at each of these moments.
    pub fn contacts(&self, is_meant: impl Fn(Kind) -> bool) -> impl Iterator<Item = Contact> + '_ {
        let meant: Kinds = self.kinds().filter(|&kind| is_meant(kind)).collect();
        let reaching = self
            .pulls
            .iter()
            .filter(move |(_, reached)| reached.meets(meant));
        reaching.map(|&(contact, _)| contact)
    }

    /// The endings that are meant, with the cable left in.
    pub fn endings(&self, is_meant: impl Fn(Kind) -> bool) -> usize {
        let meant = self
            .kinds()
            .filter(|&kind| kind.cable == Cable::In && is_meant(kind));
        meant.map(|kind| self.rows[&kind].endings).sum()
    }

    fn kinds(&self) -> impl Iterator<Item = Kind> + '_ {
        self.rows.keys().copied()
    }

    fn add(&mut self, space: &Space, situation: Situation) -> Kinds {
        let exchange = &space.exchange;
        let ending = Ending::of(space, situation);
        let kind = ending.kind(exchange);
        self.rows.entry(kind).or_default().add(exchange, &ending);
        for &claim in Claim::about(exchange) {
            let is_new = self.broken.iter().all(|(broken, _)| *broken != claim);
            if is_new && !claim.holds(exchange, &ending) {
                self.broken.push((claim, ending.clone()));
            }
        }
        Kinds::one(kind)
    }
}
