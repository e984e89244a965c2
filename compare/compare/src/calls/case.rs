//! A described call, and its text for the program.

use std::fmt::{LowerHex, Write};

use oracle::Asked;

/// A call with all that is lent for it.
#[derive(Clone, Debug, Default, PartialEq, Eq)]
pub struct Case {
    pub asked: Asked,
    pub buffer: Vec<u8>,
    pub answers: Vec<u32>,
}

impl Case {
    /// The longest line of a list.
    const LINE: usize = 100;

    /// The text, which a comment heads if it is not empty.
    pub fn text(&self, comment: &str) -> String {
        let mut text = String::new();
        if !comment.is_empty() {
            writeln!(text, "# {comment}").unwrap();
        }
        self.head(&mut text);
        list(&mut text, "ops", &self.asked.operations);
        if !self.buffer.is_empty() && self.buffer.iter().all(|&byte| byte == 0) {
            writeln!(text, "zeros {}", self.buffer.len()).unwrap();
        } else {
            list(&mut text, "bytes", &self.buffer);
        }
        list(&mut text, "answers", &self.answers);
        text.push_str("run\n");
        text
    }

    /// The words that are not as the program has them at first.
    fn head(&self, text: &mut String) {
        let asked = &self.asked;
        write!(text, "call {}", asked.call).unwrap();
        let numbers = [
            ("address", asked.address),
            ("listen", asked.listen),
            ("timing", asked.timingr),
            ("own", asked.own_address),
            ("secondary", asked.secondary_address.unwrap_or(0)),
            ("mask", asked.mask.unwrap_or(0)),
            ("way", asked.way),
        ];
        let some = [asked.secondary_address, asked.mask].map(|it| it.is_some());
        let some = [false, false, false, false, some[0], some[1], false];
        for ((name, number), some) in numbers.into_iter().zip(some) {
            if some || number != 0 {
                write!(text, " {name} 0x{number:x}").unwrap();
            }
        }
        let flags = [
            ("ten", asked.ten_bit),
            ("own-ten", asked.own_ten_bit),
            ("configured", asked.configured),
        ];
        for (name, _) in flags.into_iter().filter(|(_, set)| *set) {
            write!(text, " {name}").unwrap();
        }
        text.push('\n');
    }
}

/// A list of numbers, in as many lines as it takes.
fn list<T: LowerHex>(text: &mut String, name: &str, numbers: &[T]) {
    let mut length = 0;
    for number in numbers {
        let word = format!(" 0x{number:x}");
        if length == 0 || length + word.len() > Case::LINE {
            if length > 0 {
                text.push('\n');
            }
            text.push_str(name);
            length = name.len();
        }
        text.push_str(&word);
        length += word.len();
    }
    if length > 0 {
        text.push('\n');
    }
}

#[cfg(test)]
mod tests {
    use super::*;

    #[test]
    fn a_text_names_what_is_not_at_its_start() {
        let case = Case {
            asked: Asked {
                call: 7,
                address: 0x50,
                operations: vec![2, 0x1_0001],
                mask: Some(0),
                configured: true,
                ..Default::default()
            },
            buffer: vec![1, 2, 0],
            answers: vec![0; 25],
        };
        let expected = "# two\n\
                        call 7 address 0x50 mask 0x0 configured\n\
                        ops 0x2 0x10001\n\
                        bytes 0x1 0x2 0x0\n";
        let text = case.text("two");
        assert!(text.starts_with(expected));
        assert!(text.lines().all(|line| line.len() <= Case::LINE));
        assert_eq!(text.matches("answers").count(), 2);
        assert_eq!(text.matches("0x0").count(), 2 + 25);
    }

    #[test]
    fn a_zero_filled_buffer_is_short() {
        let case = Case {
            buffer: vec![0; 600],
            ..Default::default()
        };
        assert_eq!(case.text(""), "call 0\nzeros 600\nrun\n");
    }
}
