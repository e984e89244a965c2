//! What is asked of the driver: the listed calls, by the names of stm32h5xx-hal's functions.

use crate::RawTimingr;

/// Who acknowledges what a target receives: the peripheral every byte, or the firmware the last one
/// of a transfer.
#[derive(Clone, Copy, Debug, PartialEq, Eq)]
pub enum Ack {
    /// The peripheral acknowledges.
    Auto,
    /// The firmware does, by `ack_transfer` or `nack_transfer`.
    Manual,
}

/// The address of a target on the bus, unshifted.
#[derive(Clone, Copy, Debug, PartialEq, Eq)]
pub enum Address {
    /// Of seven bits, up to 127.
    SevenBit(u8),
    /// Of ten bits, up to 1,023.
    TenBit(u16),
}

/// How many bits a target's own address has.
#[derive(Clone, Copy, Debug, PartialEq, Eq)]
pub enum AddressMode {
    /// Seven bits, up to 127.
    AddressMode7bit,
    /// Ten bits, up to 1,023.
    AddressMode10bit,
}

/// The addresses that a target can listen to.
#[derive(Clone, Copy, Debug, PartialEq, Eq)]
pub enum TargetListenEvent {
    /// Address 0, by which a controller calls every target.
    GeneralCall,
    /// The own address.
    PrimaryAddress,
    /// The secondary address, with its mask.
    SecondaryAddress,
}

impl TargetListenEvent {
    const fn number(self) -> u32 {
        match self {
            TargetListenEvent::GeneralCall => 0,
            TargetListenEvent::PrimaryAddress => 1,
            TargetListenEvent::SecondaryAddress => 2,
        }
    }
}

/// A target's addresses, made by a chain of setters.
///
/// ```
/// use huskerivory::TargetConfig;
///
/// let config = TargetConfig::new(0x42).secondary_address(0x21).secondary_address_mask_bits(2);
/// ```
#[derive(Clone, Copy, Debug, PartialEq, Eq)]
pub struct TargetConfig {
    own_address: u16,
    own_address_mode: AddressMode,
    secondary_address: Option<u8>,
    secondary_address_mask_bits: Option<u8>,
}

impl TargetConfig {
    /// An own address of seven bits, and no other.
    pub const fn new(own_address: u16) -> Self {
        TargetConfig {
            own_address,
            own_address_mode: AddressMode::AddressMode7bit,
            secondary_address: None,
            secondary_address_mask_bits: None,
        }
    }

    /// Another own address, unshifted.
    pub const fn own_address(mut self, own_address: u16) -> Self {
        self.own_address = own_address;
        self
    }

    /// How many bits the own address has.
    pub const fn own_address_mode(mut self, mode: AddressMode) -> Self {
        self.own_address_mode = mode;
        self
    }

    /// A second address, of seven bits and unshifted.
    pub const fn secondary_address(mut self, address: u8) -> Self {
        self.secondary_address = Some(address);
        self
    }

    /// How many low bits of the second address are not compared, up to 6.
    pub const fn secondary_address_mask_bits(mut self, bits: u8) -> Self {
        self.secondary_address_mask_bits = Some(bits);
        self
    }
}

/// What is asked: a call with its numbers, as the library takes it. Operations and bytes are lent
/// beside it.
#[repr(C)]
#[derive(Clone, Copy, Debug, PartialEq, Eq)]
pub struct Description {
    call: u32,
    address: u32,
    ten: u32,
    listen: u32,
    timingr: u32,
    configured: u32,
    own: u32,
    own_ten: u32,
    secondary: u32,
    mask: u32,
    /// Not looked at by the library, and 0.
    reserved: [u32; 6],
}

/// No secondary address, no mask.
const NONE: u32 = 0xFFFF_FFFF;

const fn or_none(number: Option<u8>) -> u32 {
    match number {
        Some(number) => number as u32,
        None => NONE,
    }
}

impl Description {
    const fn call(call: u32) -> Self {
        Description {
            call,
            address: 0,
            ten: 0,
            listen: 0,
            timingr: 0,
            configured: 0,
            own: 0,
            own_ten: 0,
            secondary: NONE,
            mask: NONE,
            reserved: [0; 6],
        }
    }

    /// A call that has an AutoAck form, with this number from 8 to 13, and a ManualAck form, 16
    /// more.
    const fn by_ack(call: u32, ack: Ack) -> Self {
        match ack {
            Ack::Auto => Self::call(call),
            Ack::Manual => Self::call(call | 16),
        }
    }

    const fn with_config(mut self, config: TargetConfig) -> Self {
        self.configured = 1;
        self.own = config.own_address as u32;
        self.own_ten = matches!(config.own_address_mode, AddressMode::AddressMode10bit) as u32;
        self.secondary = or_none(config.secondary_address);
        self.mask = or_none(config.secondary_address_mask_bits);
        self
    }

    /// 1, sets a controller up; with a configuration it can be a target too.
    pub const fn new(timing: RawTimingr, config: Option<TargetConfig>) -> Self {
        let mut description = Self::call(1);
        description.timingr = timing.0;
        match config {
            Some(config) => description.with_config(config),
            None => description,
        }
    }

    /// 2, sets a target up.
    pub const fn target_new(timing: RawTimingr, config: TargetConfig) -> Self {
        let mut description = Self::call(2);
        description.timingr = timing.0;
        description.with_config(config)
    }

    /// 3, gives a target other addresses.
    pub const fn configure_target_addresses(config: TargetConfig) -> Self {
        Self::call(3).with_config(config)
    }

    /// 4, listens to an address.
    pub const fn enable_target_event(event: TargetListenEvent) -> Self {
        let mut description = Self::call(4);
        description.listen = event.number();
        description
    }

    /// 5, listens to it no more.
    pub const fn disable_target_event(event: TargetListenEvent) -> Self {
        let mut description = Self::call(5);
        description.listen = event.number();
        description
    }

    /// 6, off and on again.
    pub const fn reset() -> Self {
        Self::call(6)
    }

    /// 7, a controller's operations with a target.
    pub const fn transaction(address: Address) -> Self {
        let mut description = Self::call(7);
        match address {
            Address::SevenBit(address) => description.address = address as u32,
            Address::TenBit(address) => {
                description.address = address as u32;
                description.ten = 1;
            }
        }
        description
    }

    /// 8, waits until the target is called or a stop comes.
    pub const fn wait_for_event(ack: Ack) -> Self {
        Self::by_ack(8, ack)
    }

    /// 9, takes bytes in after a write event.
    pub const fn read(ack: Ack) -> Self {
        Self::by_ack(9, ack)
    }

    /// 10, puts bytes out after a read event.
    pub const fn write(ack: Ack) -> Self {
        Self::by_ack(10, ack)
    }

    /// 11, waits for a write event and takes bytes in.
    pub const fn wait_for_target_read(ack: Ack) -> Self {
        Self::by_ack(11, ack)
    }

    /// 12, waits for a read event and puts bytes out.
    pub const fn wait_for_target_write(ack: Ack) -> Self {
        Self::by_ack(12, ack)
    }

    /// 13, waits for a stop.
    pub const fn wait_for_stop(ack: Ack) -> Self {
        Self::by_ack(13, ack)
    }

    /// 14, acknowledges the last byte of a manual transfer.
    pub const fn ack_transfer() -> Self {
        Self::call(14)
    }

    /// 15, does not acknowledge it.
    pub const fn nack_transfer() -> Self {
        Self::call(15)
    }

    /// The description in words, in the order of the fields in `include/huskerivory.h`: to be
    /// stored beside a saved call.
    pub const fn to_words(self) -> [u32; 10] {
        [
            self.call,
            self.address,
            self.ten,
            self.listen,
            self.timingr,
            self.configured,
            self.own,
            self.own_ten,
            self.secondary,
            self.mask,
        ]
    }

    /// The description that has these words. Any words are one; what is wrong with them is refused.
    pub const fn from_words(words: [u32; 10]) -> Self {
        let [call, address, ten, listen, timingr, configured, own, own_ten, secondary, mask] =
            words;
        Description {
            call,
            address,
            ten,
            listen,
            timingr,
            configured,
            own,
            own_ten,
            secondary,
            mask,
            reserved: [0; 6],
        }
    }
}
