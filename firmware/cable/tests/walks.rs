//! Runs that are chosen by a seed.

use cable::bus::Cable;
use cable::claims::Claim;
use cable::ending::Ending;
use cable::exchange::{Direction, Exchange, CARD};
use cable::explore::explore;
use cable::space::Space;
use cable::walk::walk;
use huskerivory::Ack;

fn exchanges(holes: usize) -> impl Iterator<Item = Exchange> {
    let both = [Direction::Send, Direction::ReadBack];
    both.into_iter().flat_map(move |direction| {
        [Ack::Auto, Ack::Manual].map(|ack| Exchange::new(direction, ack, &CARD[..holes]))
    })
}

fn endings(space: &mut Space, seeds: u64) -> Vec<Ending> {
    (0..seeds).map(|seed| walk(space, seed).ending).collect()
}

#[test]
fn every_claim_holds_for_the_whole_card() {
    for exchange in exchanges(CARD.len()) {
        let endings = endings(&mut Space::new(exchange.clone()).unwrap(), 100);
        for cable in [Cable::In, Cable::Out, Cable::PutBack] {
            assert!(endings.iter().any(|ending| ending.cable == cable));
        }
        for &claim in Claim::about(&exchange) {
            let broken = endings
                .iter()
                .find(|ending| !claim.holds(&exchange, ending));
            assert_eq!(broken, None, "{claim:?}");
        }
    }
}

#[test]
fn a_walk_ends_where_the_search_has_been() {
    for exchange in exchanges(2) {
        let mut space = Space::new(exchange.clone()).unwrap();
        let found = explore(&mut space, &mut |_| {});
        for ending in endings(&mut space, 300) {
            assert!(
                found.rows.contains_key(&ending.kind(&exchange)),
                "{ending:?}"
            );
        }
    }
}

#[test]
fn a_seed_gives_the_same_run_again() {
    let space = || Space::new(Exchange::new(Direction::Send, Ack::Auto, &CARD)).unwrap();
    let first = walk(&mut space(), 7);
    assert_eq!(walk(&mut space(), 7), first);
    assert_ne!(walk(&mut space(), 8), first);
}
