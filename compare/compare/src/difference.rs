//! Showing where two texts part.

/// Prints the first lines that are not the same, from a little before they part.
pub fn print(expected: &str, given: &str) {
    let lines = |text| str::lines(text).chain(["nothing more"]);
    let mut both = lines(expected).zip(lines(given)).enumerate();
    let Some((line, (expected, given))) = both.find(|(_, (a, b))| a != b) else {
        return;
    };
    let same = expected.bytes().zip(given.bytes());
    let same = same.take_while(|(a, b)| a == b).count();
    let part = |line: &str| -> String {
        let rest = line.chars().skip(same.saturating_sub(40));
        rest.take(100).collect()
    };
    println!("in line {}", line + 1);
    println!("expected: {}\ngiven:    {}", part(expected), part(given));
}
