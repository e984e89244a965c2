//! The rules of the simulated peripheral, one by one: registers written and read by hand, and what
//! happens on the lines told by hand.

use cable::bus::{self, Contact, PULLS};
use cable::peripheral::{BusStep, SimulatedI2c};
use cable::registers::{cr1, cr2, isr, oar1, CR1, CR2, ICR, ISR, OAR1, RXDR, TXDR};
use huskerivory::Registers;

const ADDRESS: u32 = 0x50;
const WRITE_BYTE: u8 = 0xA0;
const READ_BYTE: u8 = 0xA1;

/// A peripheral that is enabled.
fn enabled() -> SimulatedI2c {
    let mut i2c = SimulatedI2c::default();
    i2c.write(CR1, cr1::PE);
    i2c
}

/// A controller that has been told to start.
fn controller(bits: u32, nbytes: u32) -> SimulatedI2c {
    let mut i2c = enabled();
    i2c.write(CR2, ADDRESS << 1 | cr2::START | nbytes << 16 | bits);
    i2c
}

/// A controller whose address has been acknowledged.
fn addressing(bits: u32, nbytes: u32) -> SimulatedI2c {
    let mut i2c = controller(bits, nbytes);
    i2c.start();
    assert_eq!(
        send(&mut i2c, true),
        WRITE_BYTE | u8::from(bits & cr2::RD_WRN != 0)
    );
    i2c
}

/// A target that listens.
fn target() -> SimulatedI2c {
    let mut i2c = enabled();
    i2c.write(OAR1, oar1::OA1EN | ADDRESS << 1);
    i2c
}

/// A target that has been called; ADDR is not cleared yet.
fn called(byte: u8) -> SimulatedI2c {
    let mut i2c = target();
    i2c.start();
    assert!(receive(&mut i2c, byte), "it acknowledges");
    i2c
}

/// A target in a transfer.
fn addressed(byte: u8) -> SimulatedI2c {
    let mut i2c = called(byte);
    i2c.write(ICR, isr::ADDR);
    i2c
}

fn flags(i2c: &mut SimulatedI2c) -> u32 {
    i2c.read(ISR) & 0xFFFF & !isr::BUSY
}

/// Eight pulses whose bits the peripheral gives.
fn eight_out(i2c: &mut SimulatedI2c) -> u8 {
    (0..8).fold(0, |byte, _| {
        let sda = i2c.sda();
        i2c.pulse(sda);
        byte << 1 | u8::from(sda)
    })
}

/// Eight pulses with bits for the peripheral.
fn eight_in(i2c: &mut SimulatedI2c, byte: u8) {
    for bit in (0..8).rev() {
        assert!(i2c.sda(), "SDA is released");
        i2c.pulse(byte >> bit & 1 != 0);
    }
}

/// A frame that the peripheral sends, and the answer to it.
fn send(i2c: &mut SimulatedI2c, acknowledged: bool) -> u8 {
    let byte = eight_out(i2c);
    assert!(i2c.sda(), "SDA is released for the acknowledge");
    i2c.pulse(!acknowledged);
    byte
}

/// A frame for the peripheral. Says whether it acknowledged.
fn receive(i2c: &mut SimulatedI2c, byte: u8) -> bool {
    eight_in(i2c, byte);
    let sda = i2c.sda();
    i2c.pulse(sda);
    !sda
}

#[test]
fn only_txe_is_set_after_reset() {
    assert_eq!(SimulatedI2c::default().read(ISR), isr::TXE);
}

#[test]
fn pe_0_resets_flags_and_releases_the_lines() {
    let mut i2c = called(WRITE_BYTE);
    i2c.write(CR2, cr2::NACK);
    assert!(i2c.holds_scl());
    i2c.write(CR1, 0);
    assert_eq!((i2c.read(ISR), i2c.read(CR2)), (isr::TXE, 0));
    assert!(!i2c.holds_scl() && i2c.sda());
}

#[test]
fn a_start_waits_for_a_free_bus() {
    let mut i2c = enabled();
    i2c.start();
    assert!(i2c.read(ISR) & isr::BUSY != 0);
    i2c.stop();
    assert!(i2c.read(ISR) & isr::BUSY == 0);
    i2c.start();
    receive(&mut i2c, WRITE_BYTE);
    i2c.write(CR2, cr2::START);
    assert_eq!(i2c.next_step(), None);
    i2c.stop();
    assert_eq!(i2c.next_step(), Some(BusStep::Start));
}

#[test]
fn start_is_cleared_when_the_address_has_been_sent() {
    let mut i2c = controller(cr2::AUTOEND, 1);
    i2c.start();
    assert_eq!(eight_out(&mut i2c), WRITE_BYTE);
    i2c.write(CR2, 0);
    assert!(i2c.read(CR2) & cr2::START != 0, "writing 0 has no effect");
    i2c.pulse(false);
    assert!(i2c.read(CR2) & cr2::START == 0);
}

#[test]
fn a_stop_follows_a_nack_by_itself() {
    let mut i2c = controller(cr2::AUTOEND, 1);
    i2c.start();
    send(&mut i2c, false);
    assert_eq!(flags(&mut i2c), isr::NACKF | isr::TXE);
    assert_eq!(i2c.next_step(), Some(BusStep::Stop));
    i2c.stop();
    assert_eq!(flags(&mut i2c), isr::NACKF | isr::STOPF | isr::TXE);
    i2c.write(ICR, isr::NACKF | isr::STOPF);
    assert_eq!(flags(&mut i2c), isr::TXE);
}

#[test]
fn a_controller_asks_for_each_byte_after_the_acknowledge() {
    let mut i2c = addressing(cr2::AUTOEND, 2);
    for byte in [0x12, 0x34] {
        assert_eq!(flags(&mut i2c), isr::TXIS | isr::TXE);
        assert_eq!(i2c.next_step(), None, "SCL is held until TXDR is written");
        i2c.write(TXDR, u32::from(byte));
        assert_eq!(flags(&mut i2c), isr::TXE);
        assert_eq!(i2c.next_step(), Some(BusStep::Pulse));
        assert_eq!(send(&mut i2c, true), byte);
    }
    assert_eq!(flags(&mut i2c), isr::TXE);
    assert_eq!(i2c.next_step(), Some(BusStep::Stop));
    assert_eq!(i2c.bytes_out(), 2);
}

#[test]
fn reload_sets_tcr_and_nbytes_clears_it() {
    let mut i2c = addressing(cr2::RELOAD, 1);
    i2c.write(TXDR, 0x12);
    send(&mut i2c, true);
    assert_eq!(flags(&mut i2c), isr::TCR | isr::TXE);
    assert_eq!(i2c.next_step(), None);
    i2c.write(CR2, cr2::AUTOEND);
    assert_eq!(flags(&mut i2c), isr::TCR | isr::TXE, "NBYTES is 0");
    i2c.write(CR2, cr2::AUTOEND | 1 << 16);
    assert_eq!(flags(&mut i2c), isr::TXIS | isr::TXE);
    i2c.write(TXDR, 0x34);
    assert_eq!(send(&mut i2c, true), 0x34);
    assert_eq!(i2c.next_step(), Some(BusStep::Stop));
}

#[test]
fn without_autoend_tc_waits_for_the_next_start() {
    let mut i2c = addressing(0, 1);
    i2c.write(TXDR, 0x12);
    send(&mut i2c, true);
    assert_eq!(flags(&mut i2c), isr::TC | isr::TXE);
    assert_eq!(i2c.next_step(), None);
    let read = ADDRESS << 1 | cr2::START | cr2::RD_WRN | cr2::AUTOEND | 1 << 16;
    i2c.write(CR2, read);
    assert_eq!(flags(&mut i2c), isr::TXE);
    assert_eq!(i2c.next_step(), Some(BusStep::Start));
    i2c.start();
    assert_eq!(send(&mut i2c, true), READ_BYTE);
}

#[test]
fn a_controller_acknowledges_all_but_the_last_byte() {
    let mut i2c = addressing(cr2::RD_WRN | cr2::AUTOEND, 2);
    assert!(receive(&mut i2c, 0x12));
    assert_eq!(i2c.read(RXDR), 0x12);
    assert!(!receive(&mut i2c, 0x34));
    assert_eq!(i2c.next_step(), Some(BusStep::Stop));
    assert_eq!(flags(&mut i2c), isr::RXNE | isr::TXE);
    assert_eq!(i2c.read(RXDR), 0x34);
    assert_eq!(flags(&mut i2c), isr::TXE);
}

#[test]
fn scl_is_held_before_the_acknowledge_while_rxdr_is_full() {
    let mut i2c = addressed(WRITE_BYTE);
    eight_in(&mut i2c, 0x12);
    assert_eq!(
        flags(&mut i2c),
        isr::RXNE | isr::TXE,
        "before the acknowledge"
    );
    assert!(!i2c.holds_scl());
    i2c.pulse(false);
    eight_in(&mut i2c, 0x34);
    assert!(i2c.holds_scl());
    assert_eq!(i2c.read(RXDR), 0x12);
    assert!(!i2c.holds_scl());
    assert_eq!(flags(&mut i2c), isr::RXNE | isr::TXE);
    assert_eq!(i2c.read(RXDR), 0x34);
}

#[test]
fn a_low_sda_under_a_one_loses_the_arbitration() {
    let mut i2c = controller(cr2::AUTOEND, 1);
    i2c.start();
    assert!(i2c.sda(), "the address begins with a one");
    i2c.pulse(false);
    assert_eq!(flags(&mut i2c), isr::ARLO | isr::TXE);
    assert_eq!(i2c.read(CR2) & cr2::START, 0);
    assert_eq!(i2c.next_step(), None);

    let mut i2c = addressed(READ_BYTE);
    i2c.write(TXDR, 0x80);
    i2c.pulse(false);
    assert!(flags(&mut i2c) & isr::ARLO != 0);
    assert!(i2c.sda() && !i2c.holds_scl());
}

#[test]
fn a_low_sda_under_a_nack_loses_the_arbitration() {
    let mut i2c = addressing(cr2::RD_WRN | cr2::AUTOEND, 1);
    eight_in(&mut i2c, 0x12);
    assert!(i2c.sda(), "the last byte is not acknowledged");
    i2c.pulse(false);
    assert!(flags(&mut i2c) & isr::ARLO != 0);
}

#[test]
fn a_target_is_called_by_its_own_address_if_it_listens() {
    let mut i2c = enabled();
    i2c.write(OAR1, ADDRESS << 1);
    i2c.start();
    assert!(!receive(&mut i2c, WRITE_BYTE), "OA1EN is 0");

    let mut i2c = target();
    i2c.start();
    assert!(!receive(&mut i2c, 0xA2), "another address");
    i2c.stop();
    assert_eq!(
        flags(&mut i2c),
        isr::TXE,
        "no STOPF of a transfer that is not its own"
    );
}

#[test]
fn addr_holds_scl_and_tells_address_and_direction() {
    for (byte, direction) in [(WRITE_BYTE, 0), (READ_BYTE, 1 << 16)] {
        let mut i2c = called(byte);
        assert_eq!(flags(&mut i2c), isr::ADDR | isr::TXE);
        assert_eq!(i2c.read(ISR) & isr::ADDCODE_DIR, ADDRESS << 17 | direction);
        assert!(i2c.holds_scl());
        i2c.write(ICR, isr::ADDR);
        assert_eq!(flags(&mut i2c) & isr::ADDR, 0);
    }
    assert!(!addressed(WRITE_BYTE).holds_scl());
}

#[test]
fn nack_is_sent_once() {
    let mut i2c = addressed(WRITE_BYTE);
    i2c.write(CR2, cr2::NACK);
    i2c.write(CR2, 0);
    assert!(!receive(&mut i2c, 0x12), "writing 0 has no effect");
    assert_eq!(i2c.read(CR2), 0);
    i2c.stop();
    assert_eq!(flags(&mut i2c), isr::RXNE | isr::STOPF | isr::TXE);
}

#[test]
fn nack_is_cleared_by_a_stop_and_by_an_address() {
    let mut i2c = addressed(WRITE_BYTE);
    i2c.write(CR2, cr2::NACK);
    i2c.stop();
    assert_eq!(i2c.read(CR2), 0);
    i2c.write(CR2, cr2::NACK);
    i2c.start();
    receive(&mut i2c, WRITE_BYTE);
    assert_eq!(i2c.read(CR2), 0);
}

#[test]
fn byte_control_holds_scl_before_the_last_acknowledge_of_a_block() {
    let mut i2c = called(WRITE_BYTE);
    i2c.write(CR1, cr1::PE | cr1::SBC);
    i2c.write(CR2, cr2::RELOAD | 2 << 16);
    i2c.write(ICR, isr::ADDR);
    assert!(receive(&mut i2c, 0x12));
    assert_eq!(i2c.read(RXDR), 0x12);
    eight_in(&mut i2c, 0x34);
    assert_eq!(flags(&mut i2c), isr::RXNE | isr::TCR | isr::TXE);
    assert_eq!(i2c.read(RXDR), 0x34);
    assert!(i2c.holds_scl(), "reading the byte is not enough");
    i2c.write(CR2, 0);
    assert!(i2c.holds_scl(), "NBYTES is 0");
    i2c.write(CR2, 1 << 16);
    assert!(!i2c.holds_scl() && !i2c.sda(), "it acknowledges");
    i2c.pulse(false);
    assert!(
        receive(&mut i2c, 0x56),
        "without RELOAD the block has no end"
    );
    assert_eq!(flags(&mut i2c) & isr::TCR, 0);
}

#[test]
fn byte_control_can_decline_the_last_byte() {
    let mut i2c = called(WRITE_BYTE);
    i2c.write(CR1, cr1::PE | cr1::SBC);
    i2c.write(CR2, cr2::RELOAD | 1 << 16);
    i2c.write(ICR, isr::ADDR);
    eight_in(&mut i2c, 0x12);
    i2c.write(CR2, cr2::RELOAD | cr2::NACK | 1 << 16);
    assert!(!i2c.holds_scl() && i2c.sda(), "it does not acknowledge");
}

#[test]
fn a_target_is_asked_for_the_next_byte_while_one_goes_out() {
    let mut i2c = addressed(READ_BYTE);
    assert_eq!(flags(&mut i2c), isr::TXIS | isr::TXE);
    assert!(i2c.holds_scl());
    i2c.write(TXDR, 0x12);
    assert_eq!(flags(&mut i2c), isr::TXIS | isr::TXE);
    assert!(!i2c.holds_scl());
    i2c.write(TXDR, 0x34);
    assert_eq!(flags(&mut i2c), 0);
    assert_eq!(send(&mut i2c, true), 0x12);
    assert_eq!(flags(&mut i2c), isr::TXIS | isr::TXE);
    assert_eq!(send(&mut i2c, true), 0x34);
    assert!(i2c.holds_scl(), "TXDR is empty");
    assert_eq!(i2c.bytes_out(), 2);
}

#[test]
fn a_nack_leaves_the_next_byte_in_txdr_until_it_is_flushed() {
    let mut i2c = addressed(READ_BYTE);
    i2c.write(TXDR, 0x12);
    i2c.write(TXDR, 0x34);
    send(&mut i2c, false);
    assert_eq!(flags(&mut i2c), isr::NACKF);
    assert!(i2c.sda() && !i2c.holds_scl());
    i2c.write(ISR, isr::TXE);
    assert_eq!(flags(&mut i2c), isr::NACKF | isr::TXE);
    i2c.stop();
    assert_eq!(flags(&mut i2c), isr::NACKF | isr::STOPF | isr::TXE);
}

#[test]
fn a_byte_that_comes_after_the_nack_stays_in_txdr() {
    let mut i2c = addressed(READ_BYTE);
    i2c.write(TXDR, 0x12);
    send(&mut i2c, false);
    i2c.write(TXDR, 0x34);
    assert_eq!(flags(&mut i2c), isr::NACKF, "TXE is 0");
}

#[test]
fn a_misplaced_stop_or_start_is_a_bus_error() {
    let mut i2c = addressed(WRITE_BYTE);
    i2c.pulse(true);
    i2c.stop();
    assert_eq!(flags(&mut i2c), isr::BERR | isr::STOPF | isr::TXE);

    let mut i2c = addressed(WRITE_BYTE);
    i2c.pulse(true);
    i2c.start();
    assert_eq!(flags(&mut i2c), isr::BERR | isr::TXE);
    assert!(receive(&mut i2c, WRITE_BYTE), "it looks for its address");
}

#[test]
fn after_nine_pulses_a_stop_or_start_is_well_placed() {
    let mut i2c = addressed(WRITE_BYTE);
    receive(&mut i2c, 0x12);
    i2c.start();
    assert_eq!(flags(&mut i2c) & isr::BERR, 0);
    receive(&mut i2c, WRITE_BYTE);
    i2c.write(ICR, isr::ADDR);
    i2c.stop();
    assert_eq!(flags(&mut i2c) & (isr::BERR | isr::STOPF), isr::STOPF);
}

#[test]
fn no_bus_error_before_a_target_is_addressed() {
    let mut i2c = target();
    i2c.start();
    i2c.pulse(true);
    i2c.stop();
    assert_eq!(flags(&mut i2c), isr::TXE);
}

#[test]
fn a_pulled_cable_reads_as_ones() {
    let mut terminal = addressing(cr2::RD_WRN | cr2::AUTOEND, 1);
    for _ in 0..9 {
        assert!(bus::step(&mut terminal, None));
    }
    assert_eq!(terminal.read(RXDR), 0xFF);
}

#[test]
fn a_held_line_stops_the_bus_while_the_cable_joins_it() {
    let mut terminal = addressing(cr2::AUTOEND, 1);
    terminal.write(TXDR, 0x12);
    let mut holding = called(WRITE_BYTE);
    assert!(!bus::step(&mut terminal, Some(&mut holding)), "SCL is held");
    assert!(
        bus::step(&mut terminal, None),
        "not at this end of a pulled cable"
    );

    let mut terminal = controller(cr2::AUTOEND, 1);
    terminal.start();
    send(&mut terminal, false);
    let mut holding = addressed(READ_BYTE);
    holding.write(TXDR, 0);
    assert!(
        !bus::step(&mut terminal, Some(&mut holding)),
        "SDA is low, so no STOP"
    );
    assert!(bus::step(&mut terminal, None));
}

#[test]
fn pulses_that_were_missed_put_a_target_out_of_step() {
    let mut terminal = addressing(cr2::AUTOEND, 1);
    terminal.write(TXDR, 0b0000_0101);
    let mut scoreboard = addressed(WRITE_BYTE);
    for _ in 0..3 {
        assert!(bus::step(&mut terminal, None));
    }
    for _ in 3..9 {
        assert!(bus::step(&mut terminal, Some(&mut scoreboard)));
    }
    assert_eq!(
        flags(&mut terminal),
        isr::NACKF | isr::TXE,
        "no acknowledge at the ninth pulse"
    );
    assert!(bus::step(&mut terminal, Some(&mut scoreboard)));
    assert!(
        flags(&mut scoreboard) & isr::BERR != 0,
        "a STOP after six pulses"
    );
}

/// The scoreboard after a contact, with a terminal that is in a transfer.
fn touched(scoreboard: &SimulatedI2c, contact: Contact) -> SimulatedI2c {
    let mut touched = scoreboard.clone();
    contact.touch(&mut addressing(cr2::AUTOEND, 1), &mut touched);
    touched
}

#[test]
fn a_contact_is_seen_by_the_peripheral_whose_lines_move() {
    let scoreboard = addressed(WRITE_BYTE);
    let mut pulsed = scoreboard.clone();
    pulsed.pulse(true);
    assert_eq!(touched(&scoreboard, Contact::Pulse), pulsed);
    let mut stopped = scoreboard.clone();
    stopped.stop();
    assert_eq!(touched(&scoreboard, Contact::Stop), stopped);
    let mut started = scoreboard.clone();
    started.start();
    assert_eq!(touched(&scoreboard, Contact::Start), started);
    for (contact, flag) in [
        (Contact::Clean, 0),
        (Contact::TerminalBusError, isr::BERR),
        (Contact::TerminalArbitration, isr::ARLO),
    ] {
        let mut terminal = addressing(cr2::AUTOEND, 1);
        let mut there = scoreboard.clone();
        contact.touch(&mut terminal, &mut there);
        assert_eq!(flags(&mut terminal), flag | isr::TXIS | isr::TXE);
        assert_eq!(there, scoreboard);
    }
}

#[test]
fn a_contact_does_not_move_a_line_that_is_held_low() {
    let holds_scl = called(WRITE_BYTE);
    let mut holds_sda = addressed(WRITE_BYTE);
    eight_in(&mut holds_sda, 0x12);
    for contact in [Contact::Stop, Contact::Start] {
        assert_eq!(touched(&holds_scl, contact), holds_scl);
        assert_eq!(touched(&holds_sda, contact), holds_sda);
    }
    assert_eq!(touched(&holds_scl, Contact::Pulse), holds_scl);
}

#[test]
fn outside_a_transfer_there_is_nothing_to_disturb() {
    for contact in PULLS {
        let (mut terminal, mut scoreboard) = (enabled(), target());
        contact.touch(&mut terminal, &mut scoreboard);
        assert_eq!(terminal, enabled());
        assert_eq!(flags(&mut scoreboard), isr::TXE);
    }
}
