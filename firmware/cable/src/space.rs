//! The situations of an exchange, and what leads from one to the next.

use std::collections::HashMap;
use std::rc::Rc;

use huskerivory::Error;

use crate::bus::{self, Cable, Contact, PULLS, PUT_BACKS};
use crate::driver::{Driver, Proved};
use crate::end::End;
use crate::exchange::{Exchange, Place};

/// One thing that happens. Whatever can happen in a situation may be the next.
#[derive(Clone, Copy, Debug, PartialEq, Eq)]
pub enum Action {
    /// The firmware of an end makes its next register access.
    Access(Place),
    /// The terminal's peripheral makes its next step on the bus.
    Bus,
    Pull(Contact),
    PutBack(Contact),
}

impl Action {
    pub fn moves_cable(self) -> bool {
        matches!(self, Action::Pull(_) | Action::PutBack(_))
    }
}

/// Both ends, by their numbers in a [`Space`], and the cable.
#[derive(Clone, Copy, Debug, PartialEq, Eq, Hash)]
pub struct Situation {
    terminal: u32,
    scoreboard: u32,
    pub cable: Cable,
}

/// The ends that have come up at one place, each with a number. An access depends on its own end
/// alone, so it is worked out once for each of them.
struct Ends {
    place: Place,
    driver: &'static dyn Driver,
    numbers: HashMap<Rc<End>, u32>,
    ends: Vec<Rc<End>>,
    after_access: Vec<Option<u32>>,
}

impl Ends {
    fn new(place: Place, driver: &'static dyn Driver) -> Self {
        Ends {
            place,
            driver,
            numbers: HashMap::new(),
            ends: vec![],
            after_access: vec![],
        }
    }

    fn get(&self, number: u32) -> &End {
        &self.ends[number as usize]
    }

    fn number(&mut self, end: End) -> u32 {
        if let Some(&number) = self.numbers.get(&end) {
            return number;
        }
        let number = self.ends.len() as u32;
        let end = Rc::new(end);
        self.numbers.insert(Rc::clone(&end), number);
        self.ends.push(end);
        self.after_access.push(None);
        number
    }

    fn access(&mut self, exchange: &Exchange, number: u32) -> u32 {
        if let Some(after) = self.after_access[number as usize] {
            return after;
        }
        let mut end = self.get(number).clone();
        end.access(exchange, self.place, self.driver);
        let after = self.number(end);
        self.after_access[number as usize] = Some(after);
        after
    }

    /// Nothing comes of its accesses any more: its firmware has finished, or reads one register
    /// again and again, or two in turn as a start wait does.
    fn is_idle(&mut self, exchange: &Exchange, number: u32) -> bool {
        let next = self.access(exchange, number);
        let again = self.access(exchange, next);
        again == number && self.get(next).i2c == self.get(number).i2c
    }
}

/// The situations of an exchange, as far as they have come up.
pub struct Space {
    pub exchange: Exchange,
    pub first: Situation,
    terminals: Ends,
    scoreboards: Ends,
}

impl Space {
    /// With the proved driver at both ends.
    pub fn new(exchange: Exchange) -> Result<Self, Error> {
        Self::with_drivers(exchange, &Proved, &Proved)
    }

    pub fn with_drivers(
        exchange: Exchange,
        terminal: &'static dyn Driver,
        scoreboard: &'static dyn Driver,
    ) -> Result<Self, Error> {
        let mut terminals = Ends::new(Place::Terminal, terminal);
        let mut scoreboards = Ends::new(Place::Scoreboard, scoreboard);
        let (terminal, scoreboard) = exchange.ends()?;
        let first = Situation {
            terminal: terminals.number(terminal),
            scoreboard: scoreboards.number(scoreboard),
            cable: Cable::In,
        };
        Ok(Space {
            exchange,
            first,
            terminals,
            scoreboards,
        })
    }

    pub fn terminal(&self, situation: Situation) -> &End {
        self.terminals.get(situation.terminal)
    }

    pub fn scoreboard(&self, situation: Situation) -> &End {
        self.scoreboards.get(situation.scoreboard)
    }

    /// Replaces `successors` by what can happen next, with what it leads to. An access that changes
    /// nothing leads back.
    pub fn successors(&mut self, from: Situation, successors: &mut Vec<(Action, Situation)>) {
        successors.clear();
        let terminal = self.terminals.access(&self.exchange, from.terminal);
        let to = Situation { terminal, ..from };
        successors.push((Action::Access(Place::Terminal), to));
        let scoreboard = self.scoreboards.access(&self.exchange, from.scoreboard);
        let to = Situation { scoreboard, ..from };
        successors.push((Action::Access(Place::Scoreboard), to));
        successors.extend(self.after_bus_step(from).map(|to| (Action::Bus, to)));
        match from.cable {
            Cable::In => {
                for (contact, to) in self.moved(from, Cable::Out, &PULLS) {
                    successors.push((Action::Pull(contact), to));
                }
            }
            Cable::Out => {
                for (contact, to) in self.moved(from, Cable::PutBack, &PUT_BACKS) {
                    successors.push((Action::PutBack(contact), to));
                }
            }
            Cable::PutBack => {}
        }
    }

    fn after_bus_step(&mut self, from: Situation) -> Option<Situation> {
        self.terminal(from).i2c.next_step()?;
        let (mut terminal, mut scoreboard) = self.both(from);
        let there = (from.cable != Cable::Out).then_some(&mut scoreboard.i2c);
        bus::step(&mut terminal.i2c, there)
            .then(|| self.situation(terminal, scoreboard, from.cable))
    }

    /// The cable moved, by each contact. One that comes to the same as a clean one is left out.
    fn moved(
        &mut self,
        from: Situation,
        cable: Cable,
        contacts: &[Contact],
    ) -> Vec<(Contact, Situation)> {
        let clean = Situation { cable, ..from };
        let mut moved = vec![];
        for &contact in contacts {
            let (mut terminal, mut scoreboard) = self.both(from);
            contact.touch(&mut terminal.i2c, &mut scoreboard.i2c);
            let to = self.situation(terminal, scoreboard, cable);
            if to != clean || contact == Contact::Clean {
                moved.push((contact, to));
            }
        }
        moved
    }

    fn both(&self, situation: Situation) -> (End, End) {
        (
            self.terminal(situation).clone(),
            self.scoreboard(situation).clone(),
        )
    }

    fn situation(&mut self, terminal: End, scoreboard: End, cable: Cable) -> Situation {
        Situation {
            terminal: self.terminals.number(terminal),
            scoreboard: self.scoreboards.number(scoreboard),
            cable,
        }
    }

    /// Nothing changes any more while the cable stays as it is.
    pub fn is_settled(&mut self, situation: Situation, successors: &[(Action, Situation)]) -> bool {
        successors.iter().all(|(action, _)| *action != Action::Bus)
            && self.terminals.is_idle(&self.exchange, situation.terminal)
            && self
                .scoreboards
                .is_idle(&self.exchange, situation.scoreboard)
    }
}
