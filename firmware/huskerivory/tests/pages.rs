//! Logs of accesses, and their service pages.

mod common;

use common::{Scripted, BOARD, TIMING};
use huskerivory::{
    page, Description, I2c, Logged, Operation, Outcome, Refusal, Registers, Running, PAGE_ENTRY,
    PAGE_LINE,
};
use std::task::Poll;

/// The answers of document 01's worked run.
const ANSWERS: [u32; 5] = [1, 0x0202_00A0, 3, 3, 0x21];

/// Its log, and what stands on its page.
const WORKED: [u32; 18] = [
    0x104,
    0x0202_20A0,
    0x18,
    1,
    0x04,
    0x0202_00A0,
    0x18,
    3,
    0x128,
    0x12,
    0x18,
    3,
    0x128,
    0x34,
    0x18,
    0x21,
    0x11C,
    0x20,
];
const WORKED_PAGE: [&str; 9] = [
    "000001 write CR2     020220A0 AUTOEND NBYTES=2 START SADD=160",
    "000002 read  ISR     00000001 ADDCODE=0 TXE",
    "000003 read  CR2     020200A0 AUTOEND NBYTES=2 SADD=160",
    "000004 read  ISR     00000003 ADDCODE=0 TXIS TXE",
    "000005 write TXDR    00000012 TXDATA=18",
    "000006 read  ISR     00000003 ADDCODE=0 TXIS TXE",
    "000007 write TXDR    00000034 TXDATA=52",
    "000008 read  ISR     00000021 ADDCODE=0 STOPF TXE",
    "000009 write ICR     00000020 STOPCF",
];

fn bytes(words: &[u32]) -> Vec<u8> {
    words.iter().flat_map(|word| word.to_le_bytes()).collect()
}

/// A page of these lines.
fn lines(lines: &[&str]) -> Vec<u8> {
    let lines = lines.iter().map(|line| format!("{line:80}\n"));
    lines.collect::<String>().into_bytes()
}

/// Lays a log out in so many bytes, and gives the page. All other bytes stay as they were.
fn laid(log: &[u8], room: usize) -> Result<Vec<u8>, Refusal> {
    let mut paper = vec![0xA5; room];
    let length = page(log, &mut paper);
    let after = paper.split_off(length.unwrap_or(0));
    assert!(after.iter().all(|&byte| byte == 0xA5));
    length.map(|_| paper)
}

#[test]
fn the_page_of_a_log() {
    let log = bytes(&WORKED);
    let page = lines(&WORKED_PAGE);
    assert_eq!(page.len(), 729);
    for room in [729, 730, 9 * PAGE_ENTRY] {
        assert_eq!(laid(&log, room).as_ref(), Ok(&page));
    }
    for room in [0, 1, PAGE_LINE, 728] {
        assert_eq!(laid(&log, room), Err(Refusal::PAGE));
    }
    assert_eq!(laid(&[], 0), Ok(vec![]));
    assert_eq!(laid(&[], 9), Ok(vec![]));
}

#[test]
fn broken_lines_and_bits_of_no_field() {
    let log = bytes(&[
        0,
        0xFFFF_FFFF,
        0x110,
        0x0F00_0000,
        4,
        0x06FF_33FF,
        4,
        0x06FF_17FF,
        0x11C,
        0,
        0x24,
        0x100,
    ]);
    let page = lines(&[
        "000001 read  CR1     FFFFFFFF STOPFACLR ADDRACLR bit29 bit28 bit27 bit26 bit25",
        "                              FMP PECEN ALERTEN SMBDEN SMBHEN GCEN WUPEN",
        "                              NOSTRETCH SBC RXDMAEN TXDMAEN bit13 ANFOFF DNF=15",
        "                              ERRIE TCIE STOPIE NACKIE ADDRIE RXIE TXIE PE",
        "000002 write TIMINGR 0F000000 PRESC=0 bit27 bit26 bit25 bit24 SCLDEL=0 SDADEL=0",
        "                              SCLH=0 SCLL=0",
        "000003 read  CR2     06FF33FF PECBYTE AUTOEND NBYTES=255 START HEAD10R SADD=1023",
        "000004 read  CR2     06FF17FF PECBYTE AUTOEND NBYTES=255 HEAD10R RD_WRN",
        "                              SADD=1023",
        "000005 write ICR     00000000",
        "000006 read  RXDR    00000100 bit8 RXDATA=0",
    ]);
    assert_eq!(page.len(), 891);
    assert_eq!(laid(&log, 891), Ok(page));
    assert_eq!(laid(&log, 890), Err(Refusal::PAGE));
}

#[test]
fn the_longest_entry() {
    let log = bytes(&[0x1C, u32::MAX]);
    assert_eq!(laid(&log, PAGE_ENTRY).unwrap().len(), PAGE_ENTRY);
    assert_eq!(laid(&log, PAGE_ENTRY - 1), Err(Refusal::PAGE));
}

#[test]
fn logs_that_have_no_page() {
    let log = bytes(&WORKED);
    for length in 0..log.len() {
        let whole = length % 8 == 0;
        assert_eq!(laid(&log[..length], 729).is_ok(), whole, "{length}");
    }
    for code in [0x14, 0x20, 0x2C, 0x114, 0x218, 0x1_0018, 0x8000_0018] {
        for entry in 0..9 {
            let mut words = WORKED;
            words[2 * entry] = code;
            assert_eq!(laid(&bytes(&words), 729), Err(Refusal::PAGE), "{code:X}");
        }
    }
}

#[test]
fn accesses_are_kept_and_made() {
    let mut room = [0xA5; 3 * 8 + 5];
    let mut logged = Logged::new(Scripted::new(&[7, 8, 9]), &mut room);
    assert_eq!(logged.log(), []);
    assert_eq!(logged.read(0x18), 7);
    logged.write(0x28, 0x12);
    assert_eq!(logged.log(), bytes(&[0x18, 7, 0x128, 0x12]));
    assert_eq!(logged.read(0x24), 8);
    assert_eq!(logged.missed(), 0);

    // The log is full; the accesses go on.
    assert_eq!(logged.read(0x24), 9);
    logged.write(0x1C, 0x20);
    assert_eq!(logged.missed(), 2);
    assert_eq!(logged.log(), bytes(&[0x18, 7, 0x128, 0x12, 0x24, 8]));
    let mut paper = [0; 3 * PAGE_LINE];
    assert_eq!(logged.page(&mut paper), Ok(3 * PAGE_LINE));

    logged.clear();
    assert_eq!((logged.log(), logged.missed()), (&[][..], 0));
    assert_eq!(logged.page(&mut paper), Ok(0));
    logged.write(0x1C, 0x20);
    let (mut registers, room) = logged.free();
    assert_eq!(registers.take().len(), 6);
    assert_eq!(room[..8], bytes(&[0x11C, 0x20]));
    assert_eq!(room[24..], [0xA5; 5]);
}

#[test]
fn no_room_for_a_log() {
    let mut logged = Logged::new(Scripted::new(&[7]), &mut []);
    assert_eq!(logged.read(0x18), 7);
    assert_eq!((logged.log(), logged.missed()), (&[][..], 1));
}

#[test]
fn another_register_has_no_page() {
    let mut room = [0; 8];
    let mut logged = Logged::new(Scripted::new(&[7]), &mut room);
    logged.read(0x14);
    assert_eq!(logged.page(&mut [0; PAGE_ENTRY]), Err(Refusal::PAGE));
}

/// The log of a call is that of the bench, whether it blocks or is polled.
#[test]
fn the_page_of_a_call() {
    let mut room = [0; 9 * 8];
    let mut paper = [0; 729];
    let mut logged = Logged::new(Scripted::new(&ANSWERS), &mut room);
    let mut buffer = [0x12, 0x34];
    let operations = [Operation::write(2)];
    let description = Description::transaction(BOARD);
    let mut running = Running::begin(description, &operations, &mut buffer).unwrap();
    let ended = loop {
        if let Poll::Ready(ended) = running.poll(&mut logged) {
            break ended;
        }
    };
    assert_eq!(ended, Ok(Outcome::Done(0)));
    assert_eq!(logged.log(), bytes(&WORKED));
    assert_eq!(logged.missed(), 0);
    assert_eq!(logged.page(&mut paper), Ok(729));
    assert_eq!(paper[..], lines(&WORKED_PAGE));

    // Setting up takes one answer, CR1; the log begins anew after it.
    let answers = [&[0], &ANSWERS[..]].concat();
    let logged = Logged::new(Scripted::new(&answers), &mut room);
    let mut i2c = I2c::new(logged, TIMING, None).unwrap();
    i2c.registers().clear();
    assert_eq!(i2c.write(BOARD, &mut buffer), Ok(()));
    assert_eq!(i2c.registers().log(), bytes(&WORKED));
}
