//! The page that the program prints, for a reader who knows golf. Every number on it is computed.

use std::collections::{BTreeMap, BTreeSet};
use std::fmt::{self, Display, Formatter};

use crate::bus::{Cable, PULLS};
use crate::claims::Claim;
use crate::driver::Answer;
use crate::ending::{Kind, Said};
use crate::exchange::Exchange;
use crate::explore::{Found, Row, Span};

/// What was found of an exchange with AutoAck and with ManualAck.
pub type BothModes = [(Exchange, Found); 2];

pub struct Page {
    pub sent: BothModes,
    pub read_back: BothModes,
}

impl Page {
    /// Every claim holds, and every run comes to an ending.
    pub fn holds(&self) -> bool {
        self.all()
            .all(|(_, found)| found.broken.is_empty() && found.endless == 0)
    }

    fn all(&self) -> impl Iterator<Item = &(Exchange, Found)> {
        self.sent.iter().chain(&self.read_back)
    }

    /// How much was looked at.
    fn numbers(&self, f: &mut Formatter<'_>) -> fmt::Result {
        writeln!(f, "{:<44}{:>28}{:>28}", "", "card sent", "card read back")?;
        write!(f, "{:<44}", "")?;
        for (exchange, _) in self.all() {
            write!(f, "{:>14}", mode(exchange))?;
        }
        writeln!(f)?;
        let mut line = |label: &str, number: &dyn Fn(&Found) -> usize| {
            write!(f, "{label:<44}")?;
            for (_, found) in self.all() {
                write!(f, "{:>14}", grouped(number(found)))?;
            }
            writeln!(f)
        };
        for contact in PULLS {
            let same = |found: &Found| found.pulls.iter().filter(|pull| pull.0 == contact).count();
            line(contact.words(), &same)?;
        }
        line("all pulls", &|found| found.pulls.len())?;
        line("situations", &|found| found.situations)?;
        line("steps", &|found| found.steps)
    }

    fn verdicts(&self, f: &mut Formatter<'_>) -> fmt::Result {
        for claim in Claim::ALL {
            let mut broken = self.all().flat_map(|(_, found)| &found.broken);
            match broken.find(|(broken, _)| *broken == claim) {
                None => writeln!(f, "  holds   {}.", claim.text())?,
                Some((_, ending)) => {
                    writeln!(f, "  BROKEN  {}.\n          {ending:?}", claim.text())?
                }
            }
        }
        let ends = self.all().all(|(_, found)| found.endless == 0);
        let verdict = if ends { "holds " } else { "BROKEN" };
        writeln!(
            f,
            "  {verdict}  Each run comes to an end, or to where nothing can change any more."
        )
    }
}

impl Display for Page {
    fn fmt(&self, f: &mut Formatter<'_>) -> fmt::Result {
        let holes = self.sent[0].0.holes().len();
        let half = self.read_back[0].0.holes().len();
        let pulls = self.all().map(|(_, found)| found.pulls.len()).sum();
        writeln!(f, "{TITLE}\n\n{}", introduction(holes, half))?;
        writeln!(f, "\nTHE ANSWER, checked in every case")?;
        self.verdicts(f)?;
        writeln!(
            f,
            "\nWHAT THE BUS CANNOT TELL: after how many of the {} pulls it can end so, and why",
            grouped(pulls)
        )?;
        LAST_HOLE_MISSING.write(f, &self.sent)?;
        MISREAD_BY_SCOREBOARD.write(f, &self.sent)?;
        MISREAD_BY_TERMINAL.write(f, &self.read_back)?;
        TOO_CAREFUL.write(f, &self.sent)?;
        NO_WORD.write(f, &self.sent)?;
        writeln!(f, "\nWHAT WAS TRIED\n{WHAT_IS_COUNTED}\n")?;
        self.numbers(f)?;
        writeln!(f, "\n{HOW_TO_READ}")?;
        writeln!(f, "\nTHE CARD SENT, {holes} holes")?;
        table(f, &self.sent)?;
        writeln!(f, "\nTHE CARD READ BACK, its first {half} holes")?;
        table(f, &self.read_back)?;
        writeln!(f, "\nIN SHORT: how many of the pulls can lead where")?;
        for (exchange, found) in self.all() {
            chart(f, exchange, found)?;
        }
        Ok(())
    }
}

const TITLE: &str = "WHAT MAKES THE TERMINAL SO CERTAIN THAT ALL HOLES GOT THERE?";

fn introduction(holes: usize, half: usize) -> String {
    format!(
        "\
A terminal sends a card of {holes} holes to a scoreboard over a cable of two wires, clock and data.
In another exchange it reads the first {half} holes back. Both chips are simulated clock pulse by
clock pulse, and both are driven by the proved driver. The cable is pulled at every moment, and then
left out, or put back at every later moment; and whatever can happen in two orders was tried in
both. The bounds are that it is pulled once, and that putting it back is seen at the scoreboard as
nothing amiss or as a false start.

The terminal is certain if it says done. After each hole its receiver acknowledges: it holds the
data wire low for one clock pulse. At the scoreboard the chip does so by itself (AutoAck), or for
the last hole the firmware does, once that is in memory (ManualAck)."
    )
}

const WHAT_IS_COUNTED: &str = "\
A situation is all that both chips, both programs and the cable hold at one moment; a step leads
from one to the next. A pull is a situation before it, and what it looks like there:";

const HOW_TO_READ: &str = "\
Each row below is a way to end. Nack says that a hole was not acknowledged, bus and arbitration that
a wire moved as it should not; no word means that an end waits for ever. Holes are those in the
receiver's memory that are as they were sent; misread ones have other strokes. Counted are: in, the
endings with the cable left in; out and back, the pulls after which it can end so, with the cable
left out and with the cable put back.";

/// What one line of a table is about.
#[derive(Clone, Copy, PartialEq, Eq, PartialOrd, Ord)]
struct Line {
    terminal: Said,
    scoreboard: Said,
    /// The terminal is certain, and a hole is not as it was sent.
    is_wrong: bool,
}

impl Line {
    fn of(kind: Kind) -> Self {
        Line {
            terminal: kind.terminal,
            scoreboard: kind.scoreboard,
            is_wrong: kind.is_certain() && !kind.all_right,
        }
    }
}

/// Both ack modes of an exchange side by side.
fn table(f: &mut Formatter<'_>, modes: &BothModes) -> fmt::Result {
    let mut lines: BTreeMap<Line, Vec<&Row>> = BTreeMap::new();
    for (&kind, row) in modes.iter().flat_map(|(_, found)| &found.rows) {
        lines.entry(Line::of(kind)).or_default().push(row);
    }
    let [first, second] = modes.each_ref().map(|(exchange, _)| mode(exchange));
    writeln!(f, "{:<61}{first:>18}{second:>18}", "")?;
    write!(f, "{:<23}{:<20}{:<18}", "terminal", "scoreboard", "holes")?;
    writeln!(
        f,
        "{0:>6}{1:>6}{2:>6}{0:>6}{1:>6}{2:>6}",
        "in", "out", "back"
    )?;
    for (line, rows) in lines {
        let terminal = said_by_terminal(line, &rows);
        let scoreboard = said_by_scoreboard(line, &rows);
        write!(f, "{terminal:<23}{scoreboard:<20}{:<18}", holes_of(&rows))?;
        for (_, found) in modes {
            for cable in [Cable::In, Cable::Out, Cable::PutBack] {
                let meant = |kind: Kind| kind.cable == cable && Line::of(kind) == line;
                let cases = match cable {
                    Cable::In => found.endings(meant),
                    Cable::Out | Cable::PutBack => found.moments(meant),
                };
                let cases = if cases == 0 {
                    "-".to_string()
                } else {
                    grouped(cases)
                };
                write!(f, "{cases:>6}")?;
            }
        }
        writeln!(f)?;
    }
    Ok(())
}

fn mode(exchange: &Exchange) -> String {
    format!("{:?}Ack", exchange.ack)
}

fn said_by_terminal(line: Line, rows: &[&Row]) -> String {
    match line.terminal {
        Said::Waiting => "no word".to_string(),
        _ => words(rows.iter().flat_map(|row| &row.terminal)),
    }
}

fn said_by_scoreboard(line: Line, rows: &[&Row]) -> String {
    match line.scoreboard {
        Said::Done | Said::Fewer => format!("{} holes", span(rows, |row| row.counts)),
        Said::Failed => words(rows.iter().flat_map(|row| &row.scoreboard)),
        Said::Waiting => "no word".to_string(),
    }
}

fn words<'a>(answers: impl Iterator<Item = &'a Answer>) -> String {
    let words: BTreeSet<&str> = answers.map(|answer| answer.word()).collect();
    Vec::from_iter(words).join(", ")
}

fn holes_of(rows: &[&Row]) -> String {
    let right = span(rows, |row| row.right);
    match span(rows, |row| row.misread).as_str() {
        "0" => right,
        misread => format!("{right}, misread {misread}"),
    }
}

fn span(rows: &[&Row], of: impl Fn(&Row) -> Span) -> String {
    let all: Span = rows.iter().map(|row| of(row)).collect();
    match all.0 {
        None => String::new(),
        Some((least, greatest)) if least == greatest => least.to_string(),
        Some((least, greatest)) => format!("{least}-{greatest}"),
    }
}

/// Endings that need an explanation.
struct Remark {
    what: &'static str,
    is_meant: fn(Kind, &Row) -> bool,
    why: [&'static str; 2],
}

const LAST_HOLE_MISSING: Remark = Remark {
    what: "Card sent, certain, a hole missing",
    is_meant: |kind, row| kind.is_certain() && row.missing != Span::ZERO,
    why: [
        "The chip had acknowledged the last hole and still had it when it saw a bus error. So the",
        "scoreboard says bus, not done. Every hole before the last is in memory by then.",
    ],
};

const MISREAD_BY_SCOREBOARD: Remark = Remark {
    what: "Card sent, certain, a hole misread",
    is_meant: |kind, row| kind.is_certain() && row.misread != Span::ZERO,
    why: [
        "One pulse of the terminal went by while the cable was out, and the scoreboard saw another",
        "in its place, with a one. The bus has no checksum; a total on the card would show it.",
    ],
};

const MISREAD_BY_TERMINAL: Remark = Remark {
    what: "Card read back, certain, holes misread",
    is_meant: |kind, row| kind.is_certain() && row.misread != Span::ZERO,
    why: [
        "A cable that is out reads as ones, and here it is the terminal itself that acknowledges.",
        "No driver can know that nobody sent them; a total on the card would show it.",
    ],
};

const TOO_CAREFUL: Remark = Remark {
    what: "Card sent, not certain, every hole right",
    is_meant: |kind, _| !kind.is_certain() && kind.all_right,
    why: [
        "Too careful, not wrong: the last acknowledge got lost, or the terminal saw an error. With",
        "AutoAck a quick scoreboard can store the last hole and refuse more before that pulse.",
    ],
};

const NO_WORD: Remark = Remark {
    what: "Card sent, no word from the terminal",
    is_meant: |kind, _| kind.terminal == Said::Waiting,
    why: [
        "After an error the driver waits for the stop that ends the transfer. None comes if the",
        "other end holds a wire low, or the chip has left the bus: firmware has to time out.",
    ],
};

impl Remark {
    fn write(&self, f: &mut Formatter<'_>, modes: &BothModes) -> fmt::Result {
        let mut contacts = BTreeSet::new();
        let counts = modes.each_ref().map(|(exchange, found)| {
            let is_meant = |kind: Kind| (self.is_meant)(kind, &found.rows[&kind]);
            contacts.extend(found.contacts(is_meant));
            let pulls = or_none(found.moments(is_meant));
            let left_in = match found.endings(is_meant) {
                0 => "",
                _ => ", and with the cable left in",
            };
            format!("{} {pulls}{left_in}", mode(exchange))
        });
        writeln!(f, "  {}: {}.", self.what, counts.join("; "))?;
        if let (1, Some(contact)) = (contacts.len(), contacts.first()) {
            writeln!(
                f,
                "    Only after a pull that looked like {}.",
                contact.words()
            )?;
        }
        if !contacts.is_empty() {
            writeln!(f, "    {}\n    {}", self.why[0], self.why[1])?;
        }
        Ok(())
    }
}

/// How many pulls can lead where, as bars.
fn chart(f: &mut Formatter<'_>, exchange: &Exchange, found: &Found) -> fmt::Result {
    const WIDTH: usize = 45;
    let pulls = found.pulls.len().max(1);
    writeln!(f, "  {exchange}: {} pulls", grouped(pulls))?;
    for (certain, all_right, label) in [
        (true, true, "certain, every hole right"),
        (true, false, "certain, a hole missing or misread"),
        (false, true, "not certain, every hole right"),
        (false, false, "not certain, not every hole right"),
    ] {
        let cases =
            found.moments(|kind| kind.is_certain() == certain && kind.all_right == all_right);
        let bar = "#".repeat((cases * WIDTH).div_ceil(pulls));
        writeln!(f, "    {label:<36}{bar:<WIDTH$}{:>8}", or_none(cases))?;
    }
    Ok(())
}

fn or_none(number: usize) -> String {
    if number == 0 {
        "none".to_string()
    } else {
        grouped(number)
    }
}

/// A number with a comma before each three digits.
fn grouped(number: usize) -> String {
    let digits = number.to_string();
    let mut text = String::new();
    for (i, digit) in digits.char_indices() {
        if i > 0 && (digits.len() - i).is_multiple_of(3) {
            text.push(',');
        }
        text.push(digit);
    }
    text
}
