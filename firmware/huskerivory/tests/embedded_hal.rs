//! How embedded-hal's traits stand over this crate. Firmware can take this over as it is; here a
//! stand-in of embedded-hal has the part of its `i2c` module that counts.

mod common;

use common::{controller, Scripted};
use embedded_hal::i2c::{self, I2c as _};
use huskerivory::{Address, Error, ErrorKind, I2c, Operation, Refusal, Registers};

/// A controller. `BYTES` is the most that a transaction may move.
struct Bus<R, const BYTES: usize>(I2c<R>);

#[derive(Debug, PartialEq)]
struct BusError(Error);

impl i2c::Error for BusError {
    fn kind(&self) -> i2c::ErrorKind {
        match self.0.kind() {
            ErrorKind::Bus => i2c::ErrorKind::Bus,
            ErrorKind::ArbitrationLoss => i2c::ErrorKind::ArbitrationLoss,
            ErrorKind::NoAcknowledge(_) => {
                i2c::ErrorKind::NoAcknowledge(i2c::NoAcknowledgeSource::Unknown)
            }
            ErrorKind::Other => i2c::ErrorKind::Other,
        }
    }
}

impl<R, const BYTES: usize> i2c::ErrorType for Bus<R, BYTES> {
    type Error = BusError;
}

/// What does not fit is refused as `list`, like a list that is too long.
const TOO_MUCH: BusError = BusError(Error::Refused(Refusal(10)));

fn operation_of(operation: &i2c::Operation<'_>) -> Result<Operation, BusError> {
    let length = |bytes: &[u8]| u16::try_from(bytes.len()).map_err(|_| TOO_MUCH);
    Ok(match operation {
        i2c::Operation::Read(bytes) => Operation::read(length(bytes)?),
        i2c::Operation::Write(bytes) => Operation::write(length(bytes)?),
    })
}

impl<R: Registers, const BYTES: usize> Bus<R, BYTES> {
    /// All bytes go into one buffer, and those that came in back to their places.
    fn make(
        &mut self,
        address: Address,
        operations: &mut [i2c::Operation<'_>],
    ) -> Result<(), BusError> {
        let mut list = [Operation::write(0); 64];
        let list = list.get_mut(..operations.len()).ok_or(TOO_MUCH)?;
        let mut buffer = [0; BYTES];
        let mut free = buffer.as_mut_slice();
        for (place, operation) in list.iter_mut().zip(operations.iter()) {
            let length = match operation {
                i2c::Operation::Read(bytes) => bytes.len(),
                i2c::Operation::Write(bytes) => bytes.len(),
            };
            let (part, rest) = free.split_at_mut_checked(length).ok_or(TOO_MUCH)?;
            if let i2c::Operation::Write(bytes) = operation {
                part.copy_from_slice(bytes);
            }
            *place = operation_of(operation)?;
            free = rest;
        }
        let left = free.len();
        let buffer = &mut buffer[..BYTES - left];
        let made = self.0.transaction(address, list, buffer);
        let mut bytes = buffer.iter();
        for operation in operations {
            match operation {
                i2c::Operation::Read(places) => {
                    places.iter_mut().zip(&mut bytes).for_each(|(a, b)| *a = *b)
                }
                i2c::Operation::Write(sent) => sent.iter().zip(&mut bytes).for_each(|_| ()),
            }
        }
        made.map_err(BusError)
    }
}

impl<R: Registers, const BYTES: usize> i2c::I2c<i2c::SevenBitAddress> for Bus<R, BYTES> {
    fn transaction(
        &mut self,
        address: i2c::SevenBitAddress,
        operations: &mut [i2c::Operation<'_>],
    ) -> Result<(), BusError> {
        self.make(Address::SevenBit(address), operations)
    }
}

impl<R: Registers, const BYTES: usize> i2c::I2c<i2c::TenBitAddress> for Bus<R, BYTES> {
    fn transaction(
        &mut self,
        address: i2c::TenBitAddress,
        operations: &mut [i2c::Operation<'_>],
    ) -> Result<(), BusError> {
        self.make(Address::TenBit(address), operations)
    }
}

fn bus(answers: &[u32]) -> Bus<Scripted, 8> {
    Bus(controller(answers))
}

#[test]
fn a_long_card_is_one_operation() {
    let (first, rest) = ([&[1, 0], &[2; 255][..], &[0x80]], [&[1, 0], &[2; 45][..]]);
    let answers = [first.concat(), rest.concat(), vec![0x20]].concat();
    let mut bus: Bus<Scripted, 300> = Bus(controller(&answers));
    let mut operations = [i2c::Operation::Write(&[0x12; 300])];
    assert_eq!(bus.transaction(0x50_u8, &mut operations), Ok(()));
    let accesses = bus.0.registers().take();
    assert_eq!(accesses.len(), 4 * 2 + 1 + 2 * 300);
    assert_eq!(accesses[0], "w 04 01FF20A0");
    assert_eq!(accesses[514], "w 04 022D0000");
}

#[test]
fn bytes_go_out_and_come_in() {
    let mut bus = bus(&[1, 0, 3, 0x41, 1, 0, 4, 0xAB, 4, 0xCD, 0x20]);
    let (mut first, mut none) = ([0; 2], []);
    let mut operations = [
        i2c::Operation::Write(&[0x12]),
        i2c::Operation::Read(&mut first),
    ];
    assert_eq!(bus.transaction(0x50_u8, &mut operations), Ok(()));
    assert_eq!(first, [0xAB, 0xCD]);
    let accesses = bus.0.registers().take();
    assert_eq!(accesses.len(), 15);
    assert_eq!(accesses[0], "w 04 000120A0");

    let mut operations = [i2c::Operation::Read(&mut none)];
    bus.0.registers().answer(&[1, 0, 0x20]);
    assert_eq!(bus.transaction(0x2A5_u16, &mut operations), Ok(()));
    assert_eq!(bus.0.registers().take()[0], "w 04 02002EA5");
}

#[test]
fn kinds_of_errors() {
    use embedded_hal::i2c::Error as _;
    for (answers, kind) in [
        (&[0x100, 0x20][..], i2c::ErrorKind::Bus),
        (&[0x200, 0x20], i2c::ErrorKind::ArbitrationLoss),
        (
            &[0x10, 1, 1, 0x20],
            i2c::ErrorKind::NoAcknowledge(i2c::NoAcknowledgeSource::Unknown),
        ),
        (&[1, 0, 0x20, 0x20], i2c::ErrorKind::Other),
    ] {
        let mut place = [9];
        let mut operations = [i2c::Operation::Read(&mut place)];
        let mut bus = bus(answers);
        let error = bus.transaction(0x50_u8, &mut operations).unwrap_err();
        assert_eq!(error.kind(), kind);
        bus.0.registers().take();
    }
}

#[test]
fn what_does_not_fit_is_refused() {
    let mut bus = bus(&[]);
    let mut operations = [i2c::Operation::Write(&[0; 9])];
    assert_eq!(bus.transaction(0x50_u8, &mut operations), Err(TOO_MUCH));
    let mut operations: Vec<_> = (0..65).map(|_| i2c::Operation::Write(&[])).collect();
    assert_eq!(bus.transaction(0x50_u8, &mut operations), Err(TOO_MUCH));
    let mut operations = [i2c::Operation::Write(&[0; 8])];
    assert_eq!(
        bus.transaction(0x80_u8, &mut operations),
        Err(BusError(Error::Refused(Refusal(8))))
    );
    assert!(bus.0.registers().take().is_empty());
}
