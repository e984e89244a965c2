//! Call 7 with more than 255 bytes to an operation: pieces of 255, joined by RELOAD.

mod common;

use common::{controller, taken_up_anew, Scripted, BOARD};
use huskerivory::{Address, Description, Operation, Outcome};

const STOPF: u32 = 0x20;
const TC: u32 = 0x40;
const TCR: u32 = 0x80;

/// Bytes of which no two pieces are alike.
fn bytes(length: usize) -> Vec<u8> {
    (0..length).map(|i| (i % 251) as u8).collect()
}

/// What a bus that is always ready answers to one piece: TXE, CR2 without START, TXIS for each byte,
/// and the flag that ends it.
fn piece_out(length: usize, end: u32) -> Vec<u32> {
    let mut answers = vec![0x01, 0];
    answers.resize(2 + length, 0x02);
    answers.push(end);
    answers
}

/// The same with RXNE and RXDR for each byte.
fn piece_in(bytes: &[u8], end: u32) -> Vec<u32> {
    let mut answers = vec![0x01, 0];
    answers.extend(bytes.iter().flat_map(|&byte| [0x04, u32::from(byte)]));
    answers.push(end);
    answers
}

/// One operation as its pieces; `end` is the flag after the last.
fn pieces(reads: bool, bytes: &[u8], end: u32) -> Vec<u32> {
    let count = bytes.len().div_ceil(255);
    let end_of = |i| if i + 1 < count { TCR } else { end };
    let piece = |(i, piece): (usize, &[u8])| match reads {
        true => piece_in(piece, end_of(i)),
        false => piece_out(piece.len(), end_of(i)),
    };
    bytes.chunks(255).enumerate().flat_map(piece).collect()
}

/// The values of the accesses of one kind, such as `w 04`.
fn values<'a>(accesses: &'a [String], kind: &str) -> Vec<&'a str> {
    let values = accesses.iter().map(|access| access.split_at(5));
    let of_kind = values.filter(|(start, _)| start.trim_end() == kind);
    of_kind.map(|(_, value)| value).collect()
}

fn words(bytes: &[u8]) -> Vec<String> {
    bytes.iter().map(|byte| format!("{byte:08X}")).collect()
}

/// The words of CR2 for a write of so many bytes to address 0x50. A read has RD_WRN in each.
fn long_cards() -> [(usize, Vec<u32>); 5] {
    let mut longest = vec![0x01FF_0000; 257];
    longest[0] = 0x01FF_20A0;
    longest[256] = 0x02FF_0000;
    [
        (255, vec![0x02FF_20A0]),
        (256, vec![0x01FF_20A0, 0x0201_0000]),
        (510, vec![0x01FF_20A0, 0x02FF_0000]),
        (511, vec![0x01FF_20A0, 0x01FF_0000, 0x0201_0000]),
        (65_535, longest),
    ]
}

fn in_hex(words: &[u32], direction: u32) -> Vec<String> {
    let words = words.iter().map(|word| word | direction);
    words.map(|word| format!("{word:08X}")).collect()
}

#[test]
fn a_long_card_goes_out_in_one_call() {
    for (length, cr2) in long_cards() {
        let card = bytes(length);
        let mut i2c = controller(&pieces(false, &card, STOPF));
        let mut lent = card.clone();
        assert_eq!(i2c.write(BOARD, &mut lent), Ok(()));
        let accesses = i2c.registers().take();
        assert_eq!(values(&accesses, "w 04"), in_hex(&cr2, 0));
        assert_eq!(values(&accesses, "w 28"), words(&card));
        assert_eq!(accesses.len(), 4 * cr2.len() + 1 + 2 * length);
        assert_eq!(lent, card);
    }
}

#[test]
fn a_long_card_comes_in_in_one_call() {
    const RD_WRN: u32 = 1 << 10;
    for (length, cr2) in long_cards() {
        let card = bytes(length);
        let mut i2c = controller(&pieces(true, &card, STOPF));
        let mut places = vec![0xA5; length];
        assert_eq!(i2c.read(BOARD, &mut places), Ok(()));
        let accesses = i2c.registers().take();
        assert_eq!(values(&accesses, "w 04"), in_hex(&cr2, RD_WRN));
        assert_eq!(accesses.len(), 4 * cr2.len() + 1 + 2 * length);
        assert_eq!(places, card);
    }
}

/// A second START comes where the direction changes, and nowhere else.
#[test]
fn a_long_write_and_a_long_read() {
    let (sent, read) = (bytes(300), bytes(600));
    let answers = [pieces(false, &sent, TC), pieces(true, &read, STOPF)].concat();
    let mut i2c = controller(&answers);
    let mut buffer = [&sent[..], &[0; 600]].concat();
    assert_eq!(
        i2c.write_read(Address::TenBit(0x123), &mut buffer, 300),
        Ok(())
    );
    let accesses = i2c.registers().take();
    assert_eq!(
        values(&accesses, "w 04"),
        ["01FF2923", "002D0000", "01FF3D23", "01FF0400", "025A0400"]
    );
    assert_eq!(values(&accesses, "w 28"), words(&sent));
    assert_eq!(buffer, [sent, read].concat());
}

/// Neighbours that go the same way are one transfer, an empty one among them.
#[test]
fn long_operations_of_the_same_direction() {
    let sent = bytes(256 + 300);
    let answers = [
        pieces(false, &sent[..256], TCR),
        piece_out(0, TCR),
        pieces(false, &sent[256..], TC),
        piece_in(&[0xAB], TCR),
        piece_in(&[], STOPF),
    ]
    .concat();
    let mut i2c = controller(&answers);
    let mut buffer = [&sent[..], &[0]].concat();
    let operations = [
        Operation::write(256),
        Operation::write(0),
        Operation::write(300),
        Operation::read(1),
        Operation::read(0),
    ];
    assert_eq!(i2c.transaction(BOARD, &operations, &mut buffer), Ok(()));
    let accesses = i2c.registers().take();
    assert_eq!(
        values(&accesses, "w 04"),
        ["01FF20A0", "01010000", "01000000", "01FF0000", "002D0000", "010124A0", "02000400"]
    );
    assert_eq!(values(&accesses, "w 28"), words(&sent));
    assert_eq!(buffer.last(), Some(&0xAB));
}

/// The most pieces that there are, 320, with the call taken up from its bytes at every poll.
#[test]
fn the_most_pieces_taken_up_anew_at_every_poll() {
    let card = bytes(65_535);
    let mut operations = [Operation::write(0); 64];
    operations[63] = Operation::write(65_535);
    let mut answers = piece_out(0, TCR).repeat(63);
    answers.extend(pieces(false, &card, STOPF));
    let mut registers = Scripted::new(&answers);
    let mut buffer = card.clone();
    let description = Description::transaction(BOARD);
    let mut last_piece = 0;
    let ended = taken_up_anew(
        &mut registers,
        description,
        &operations,
        &mut buffer,
        |saved| {
            let [_, _, _, _, a, b, c, d, ..] = saved.to_bytes();
            last_piece = last_piece.max(u32::from_le_bytes([a, b, c, d]));
        },
    );
    assert_eq!(ended, Ok(Outcome::Done(0)));
    assert_eq!(last_piece, 319);
    let accesses = registers.take();
    assert_eq!(accesses.len(), 4 * 320 + 1 + 2 * 65_535);
    let cr2 = values(&accesses, "w 04");
    let starts = |word: &&&str| u32::from_str_radix(word, 16).unwrap() & 1 << 13 != 0;
    assert_eq!((cr2.len(), cr2.iter().filter(starts).count()), (320, 1));
    assert_eq!((cr2[0], cr2[319]), ("010020A0", "02FF0000"));
    assert_eq!(values(&accesses, "w 28"), words(&card));
}
