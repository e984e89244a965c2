//! `compare page-program`: the page program, which reads a log from its standard input.

use std::io;

use super::generate;
use super::print;
use crate::difference;
use crate::process;
use crate::random::Random;
use crate::rattle::ENTRY;

/// How many bytes the program reads at most.
const MOST: usize = 1 << 20;

/// What the program prints, and what it says of a log that has no page.
type Said = (String, String);

/// Compares random logs, one of the most bytes and two of more. True if all went well.
pub fn compare(logs: u64, seed: u64, program: &str) -> io::Result<bool> {
    println!("page-program: the longest log, longer ones, and {logs} random ones from seed {seed}");
    let mut random = Random::new(seed);
    let (mut pages, mut refused) = (0_u64, 0_u64);
    let longest = generate::undamaged((MOST / ENTRY) as u32, &mut random).log();
    let longer = [&longest[..], &[0]].concat();
    let much_longer = [&longest[..], &longest].concat();
    let fixed = [longest, longer, much_longer].into_iter();
    let random = (0..logs).map(|_| generate::case(&mut random).log());
    for log in fixed.chain(random) {
        let expected = expected(&log);
        let given = given(program, &log)?;
        if given != expected {
            println!(
                "page-program: a difference is shown by a log of {} bytes",
                log.len()
            );
            let shown = log.len().min(200);
            println!("{:02X?}", &log[..shown]);
            difference::print(&expected.0, &given.0);
            difference::print(&expected.1, &given.1);
            return Ok(false);
        }
        pages += u64::from(expected.1.is_empty());
        refused += u64::from(!expected.1.is_empty());
    }
    println!("page-program: {pages} pages and {refused} refused logs compared, 0 differences");
    Ok(true)
}

fn expected(log: &[u8]) -> Said {
    let wrong = match log.len() > MOST {
        true => Err("longer than 1 MiB".to_string()),
        false => print::page(log, usize::MAX).map_err(print::Wrong::words),
    };
    match wrong {
        Ok(page) => (page, String::new()),
        Err(words) => (String::new(), format!("standard input: {words}\n")),
    }
}

fn given(program: &str, log: &[u8]) -> io::Result<Said> {
    let output = process::run(program, &[], log)?;
    let text = |bytes: &[u8]| String::from_utf8_lossy(bytes).into_owned();
    let failure = process::failure(&output).unwrap_or_default();
    Ok((text(&output.stdout), text(&output.stderr) + &failure))
}

#[cfg(test)]
mod tests {
    use super::*;

    #[test]
    fn what_is_wrong_is_said() {
        assert_eq!(expected(&[]), (String::new(), String::new()));
        let page = format!("{:80}\n", "000001 read  CR1     00000000 DNF=0");
        assert_eq!(expected(&[0; 8]), (page, String::new()));
        let said = |log: &[u8]| expected(log).1;
        assert_eq!(
            said(&[0; 12]),
            "standard input: its last entry is not whole\n"
        );
        let mut log = [0; 16];
        log[8] = 0x14;
        assert_eq!(
            said(&log),
            "standard input: entry 2: no register has its code\n"
        );
        assert_eq!(
            said(&vec![0; MOST + 1]),
            "standard input: longer than 1 MiB\n"
        );
        assert_eq!(expected(&vec![0; MOST]).0.len(), MOST / 8 * 81);
    }
}
