//! Every situation of a card of few holes, with the proved driver at both ends.

use std::collections::BTreeSet;
use std::sync::LazyLock;

use cable::bus::{Cable, Contact};
use cable::ending::{Kind, Said};
use cable::exchange::{Direction, Exchange, CARD};
use cable::explore::{explore, Found, Span};
use cable::page::Page;
use cable::space::Space;
use huskerivory::Ack;

static PAGE: LazyLock<Page> = LazyLock::new(|| {
    let explored = |direction, ack| {
        let exchange = Exchange::new(direction, ack, &CARD[..4]);
        let mut space = Space::new(exchange.clone()).unwrap();
        (exchange, explore(&mut space, &mut |_| {}))
    };
    Page {
        sent: [Ack::Auto, Ack::Manual].map(|ack| explored(Direction::Send, ack)),
        read_back: [Ack::Auto, Ack::Manual].map(|ack| explored(Direction::ReadBack, ack)),
    }
});

fn sent(ack: Ack) -> &'static Found {
    &PAGE.sent[usize::from(ack == Ack::Manual)].1
}

#[test]
fn every_claim_of_the_page_holds_and_it_fits() {
    assert!(PAGE.holds());
    let text = PAGE.to_string();
    assert_eq!(text.matches("  holds   ").count(), 8);
    assert_eq!(text.matches("BROKEN").count(), 0);
    assert!(
        text.lines().all(|line| line.chars().count() <= 100),
        "{text}"
    );
}

#[test]
fn with_manual_ack_a_certain_terminal_misses_no_hole() {
    let rows = sent(Ack::Manual).rows.iter();
    let certain: Vec<_> = rows.filter(|(kind, _)| kind.is_certain()).collect();
    for cable in [Cable::In, Cable::Out, Cable::PutBack] {
        assert!(certain.iter().any(|(kind, _)| kind.cable == cable));
    }
    for (kind, row) in certain {
        assert_eq!((kind.scoreboard, row.missing), (Said::Done, Span::ZERO));
    }
}

#[test]
fn with_auto_ack_the_last_hole_can_be_lost_in_the_chip() {
    let rows = sent(Ack::Auto).rows.iter();
    let mut lost = rows.filter(|(kind, row)| kind.is_certain() && row.missing != Span::ZERO);
    let (kind, row) = lost.next().expect("the bus cannot tell");
    assert_eq!(
        (kind.cable, kind.scoreboard),
        (Cable::PutBack, Said::Failed)
    );
    assert_eq!(
        (row.right, row.missing),
        (Span(Some((3, 3))), Span(Some((1, 1))))
    );
    assert!(lost.next().is_none());
}

#[test]
fn a_sent_hole_is_misread_only_after_a_pulse_too_many() {
    for ack in [Ack::Auto, Ack::Manual] {
        let found = sent(ack);
        let is_misread = |kind| found.rows[&kind].misread != Span::ZERO;
        let contacts = found.contacts(|kind| kind.is_certain() && is_misread(kind));
        assert_eq!(
            BTreeSet::from_iter(contacts),
            BTreeSet::from([Contact::Pulse])
        );
    }
}

#[test]
fn with_the_cable_left_in_only_auto_ack_can_be_too_careful() {
    let too_careful = |kind: Kind| !kind.is_certain() && kind.all_right;
    assert!(sent(Ack::Auto).endings(too_careful) > 0);
    assert_eq!(sent(Ack::Manual).endings(too_careful), 0);
}

#[test]
fn a_terminal_can_be_certain_of_holes_that_nobody_sent() {
    for (_, found) in &PAGE.read_back {
        let none_right = |kind| {
            found.rows[&kind]
                .right
                .0
                .is_some_and(|(least, _)| least == 0)
        };
        let is_out = |kind: Kind| kind.cable == Cable::Out;
        assert!(found.moments(|kind| kind.is_certain() && is_out(kind) && none_right(kind)) > 0);
        assert_eq!(found.endings(|kind| !kind.all_right), 0);
    }
}

#[test]
fn a_read_hole_can_be_counted_one_short_with_the_cable_left_in() {
    for (_, found) in &PAGE.read_back {
        for scoreboard in [Said::Done, Said::Fewer] {
            assert_eq!(found.endings(|kind| kind.scoreboard == scoreboard), 1);
        }
    }
}

/// With AutoAck and a buffer of just the card a quick scoreboard can refuse the last hole that it has
/// stored, the cable in or not. A place to spare keeps it from that.
#[test]
fn a_place_to_spare_keeps_the_last_acknowledge() {
    let exchange = Exchange::new(Direction::Send, Ack::Auto, &CARD[..4]).with_spare(1);
    let mut space = Space::new(exchange).unwrap();
    let rows = explore(&mut space, &mut |_| {}).rows;
    let left_in = |rows: &mut dyn Iterator<Item = &Kind>| {
        let said = rows.filter(|kind| kind.cable == Cable::In);
        said.map(|kind| kind.terminal).collect::<BTreeSet<_>>()
    };
    let both = BTreeSet::from([Said::Done, Said::Failed]);
    assert_eq!(left_in(&mut sent(Ack::Auto).rows.keys()), both);
    assert_eq!(left_in(&mut rows.keys()), BTreeSet::from([Said::Done]));
}
