//! Document 01's refusals of a call, read from its table alone, without row 9, which document 02
//! takes out of use: the driver has no such checks. And which calls the driver's types can
//! express, refused or not.

use crate::{cut, Configuration, Description};

/// A call as it may be asked for, right or wrong.
#[derive(Clone, Debug, Default, PartialEq, Eq)]
pub struct Asked {
    pub call: u32,
    pub address: u32,
    pub ten_bit: bool,
    pub operations: Vec<u32>,
    pub listen: u32,
    pub timingr: u32,
    /// Whether call 1 has a configuration; 2 and 3 always have.
    pub configured: bool,
    pub own_address: u32,
    pub own_ten_bit: bool,
    pub secondary_address: Option<u32>,
    pub mask: Option<u32>,
    /// In which of the ways of [`Configuration`] the driver's own one is built.
    pub way: u32,
}

impl Asked {
    /// The number of the first row that fits, where a buffer of this length is lent. Words that are
    /// not the call's own are of no account.
    pub fn refusal(&self, length: usize) -> Option<u32> {
        if !self.is_listed() {
            Some(12)
        } else if self.is_address_wide() {
            Some(8)
        } else if self.call == 7 && self.is_list_wrong(length) {
            Some(10)
        } else if length > 65_535 || length == 0 && matches!(self.call, 9..=12) {
            Some(11)
        } else {
            None
        }
    }

    fn is_listed(&self) -> bool {
        match self.call {
            4 | 5 => self.listen <= 2,
            1..=15 | 24..=29 => true,
            _ => false,
        }
    }

    fn is_address_wide(&self) -> bool {
        let wide = |ten_bit, address| address > if ten_bit { 1_023 } else { 127 };
        let configuration_wide = wide(self.own_ten_bit, self.own_address)
            || self.secondary_address.is_some_and(|it| wide(false, it))
            || self.mask.is_some_and(|mask| mask > 6);
        match self.call {
            7 => wide(self.ten_bit, self.address),
            1..=3 => self.is_configured() && configuration_wide,
            _ => false,
        }
    }

    fn is_list_wrong(&self, length: usize) -> bool {
        self.operations.len() > 64 || !self.is_sliced(length)
    }

    /// Whether the operations have nothing but a length and a direction and take the whole buffer.
    fn is_sliced(&self, length: usize) -> bool {
        self.operations.iter().all(|word| word >> 17 == 0)
            && self.lengths().sum::<usize>() == length
    }

    fn lengths(&self) -> impl Iterator<Item = usize> + '_ {
        self.operations.iter().map(|word| (word & 0xFFFF) as usize)
    }

    fn is_configured(&self) -> bool {
        self.call != 1 || self.configured
    }

    /// The call in the driver's types, where a buffer of this length is lent, with its list already
    /// cut. They cannot express numbers that are not listed or too wide for them, and lists that
    /// are no slices of the buffer.
    pub fn description(&self, length: usize) -> Option<Description<'_>> {
        if !self.is_listed() || self.call == 7 && !self.is_sliced(length) {
            return None;
        }
        let address = match (self.call, self.ten_bit) {
            (7, false) => u8::try_from(self.address).ok()?.into(),
            (7, true) => u16::try_from(self.address).ok()?,
            _ => 0,
        };
        let configuration = match self.call {
            1..=3 if self.is_configured() => Some(self.configuration()?),
            _ => None,
        };
        Some(Description {
            call: self.call,
            address,
            ten_bit: self.ten_bit,
            operations: cut(&self.operations),
            listen: self.listen,
            timingr: self.timingr,
            configuration,
        })
    }

    fn configuration(&self) -> Option<Configuration> {
        let byte = |word: Option<u32>| word.map(u8::try_from).transpose().ok();
        Some(Configuration {
            own_address: self.own_address.try_into().ok()?,
            ten_bit: self.own_ten_bit,
            secondary_address: byte(self.secondary_address)?,
            mask: byte(self.mask)?,
            way: self.way,
        })
    }
}

#[cfg(test)]
mod tests {
    use super::*;

    fn call(call: u32) -> Asked {
        Asked {
            call,
            ..Default::default()
        }
    }

    fn transaction(address: u32, ten_bit: bool, operations: &[u32]) -> Asked {
        Asked {
            address,
            ten_bit,
            operations: operations.to_vec(),
            ..call(7)
        }
    }

    #[test]
    fn the_listed_calls() {
        let listed: Vec<u32> = (0..100).filter(|&it| call(it).is_listed()).collect();
        assert_eq!(listed, (1..=15).chain(24..=29).collect::<Vec<u32>>());
        let listen = |number, listen| Asked {
            listen,
            ..call(number)
        };
        assert_eq!(listen(4, 2).refusal(0), None);
        assert_eq!(listen(5, 3).refusal(0), Some(12));
        assert_eq!(listen(6, 3).refusal(0), None);
    }

    #[test]
    fn rows_in_their_order() {
        assert_eq!(transaction(127, false, &[]).refusal(0), None);
        assert_eq!(transaction(128, false, &[256]).refusal(0), Some(8));
        assert_eq!(transaction(1_023, true, &[]).refusal(0), None);
        assert_eq!(transaction(1_024, true, &[]).refusal(0), Some(8));
        assert_eq!(transaction(0, false, &[0; 64]).refusal(0), None);
        assert_eq!(transaction(0, false, &[0; 65]).refusal(0), Some(10));
        assert_eq!(transaction(0, false, &[0x2_0000]).refusal(0), Some(10));
        assert_eq!(transaction(0, false, &[0x1_00FF, 1]).refusal(256), None);
    }

    #[test]
    fn long_operations_are_no_refusal() {
        let refusal =
            |operations: &[u32], length| transaction(0, false, operations).refusal(length);
        assert_eq!(refusal(&[256], 256), None);
        assert_eq!(refusal(&[256], 255), Some(10));
        assert_eq!(refusal(&[0x1_FFFF], 65_535), None);
        assert_eq!(refusal(&[65_535, 0x1_0001], 65_536), Some(11));
        assert_eq!(refusal(&[32_768; 2], 65_536), Some(11));
        assert_eq!(refusal(&[32_768; 2], 65_535), Some(10));
        assert_eq!(refusal(&[65_535; 64], 64 * 65_535), Some(11));
        // 64 counts operations: of these the cut list has 320 pieces, then 325.
        assert_eq!(refusal(&[1_021; 64], 64 * 1_021), None);
        assert_eq!(refusal(&[1_021; 65], 65 * 1_021), Some(10));
        assert_eq!(
            transaction(128, false, &[32_768; 2]).refusal(65_536),
            Some(8)
        );
    }

    #[test]
    fn the_driver_is_given_the_list_already_cut() {
        let asked = transaction(0, false, &[256, 0x1_0001]);
        let description = asked.description(257).unwrap();
        assert_eq!(*description.operations, [255, 1, 0x1_0001]);
    }

    #[test]
    fn configurations() {
        let own = |number, own_address, own_ten_bit| Asked {
            own_address,
            own_ten_bit,
            ..call(number)
        };
        assert_eq!(own(1, 128, false).refusal(0), None);
        assert_eq!(own(2, 128, false).refusal(0), Some(8));
        assert_eq!(own(3, 1_023, true).refusal(0), None);
        let masked = |secondary_address, mask| Asked {
            secondary_address,
            mask,
            ..call(3)
        };
        assert_eq!(masked(Some(127), Some(6)).refusal(0), None);
        assert_eq!(masked(Some(128), None).refusal(0), Some(8));
        assert_eq!(masked(None, Some(7)).refusal(0), Some(8));
    }

    #[test]
    fn buffers() {
        for number in 1..30 {
            let expected = matches!(number, 9..=12).then_some(11);
            if call(number).is_listed() {
                assert_eq!(call(number).refusal(0), expected);
                let most = if number == 7 { Some(10) } else { Some(11) };
                assert_eq!(call(number).refusal(65_536), most);
            }
        }
        assert_eq!(call(25).refusal(65_535), None);
    }

    #[test]
    fn the_driver_expresses_every_accepted_call_and_some_refused_ones() {
        let expressed = |asked: &Asked, length| asked.description(length).is_some();
        for number in 0..40 {
            assert_eq!(expressed(&call(number), 0), call(number).is_listed());
        }
        let listening = Asked {
            listen: 3,
            ..call(4)
        };
        assert!(!expressed(&listening, 0));
        assert!(expressed(&transaction(255, false, &[]), 0));
        assert!(!expressed(&transaction(256, false, &[]), 0));
        assert!(expressed(&transaction(65_535, true, &[]), 0));
        assert!(!expressed(&transaction(65_536, true, &[]), 0));
        assert!(expressed(&transaction(0, false, &[1; 65]), 65));
        assert!(expressed(&transaction(0, false, &[0xFFFF]), 65_535));
        assert!(!expressed(&transaction(0, false, &[1]), 2));
        assert!(!expressed(&transaction(0, false, &[0x2_0000]), 0));
        let configured = |own_address, secondary, mask| Asked {
            own_address,
            secondary_address: Some(secondary),
            mask: Some(mask),
            ..call(3)
        };
        assert!(expressed(&configured(65_535, 255, 255), 0));
        assert!(!expressed(&configured(65_536, 0, 0), 0));
        assert!(!expressed(&configured(0, 256, 0), 0));
        assert!(!expressed(&configured(0, 0, 256), 0));
        assert!(expressed(&call(9), 0));
        assert!(expressed(&call(9), 65_536));
    }
}
