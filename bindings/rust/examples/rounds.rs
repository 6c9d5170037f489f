//! Searches standard input over and over, to be timed: `rounds find_iter PATTERN ROUNDS` prints how many matches there
//! are.
use std::io::Read;

fn main() -> Result<(), Box<dyn std::error::Error>> {
    let arguments: Vec<String> = std::env::args().collect();
    let [_, _, pattern, rounds] = &arguments[..] else {
        return Err("usage: rounds find_iter PATTERN ROUNDS".into());
    };
    let mut text = Vec::new();
    std::io::stdin().read_to_end(&mut text)?;
    let regex = nfa_engines::RegexBuilder::new(pattern).utf8(true).build()?;
    let (mut count, mut sum) = (0, 0);
    for _ in 0..rounds.parse()? {
        for found in regex.find_iter(&text) {
            count += 1;
            sum += found.end();
        }
    }
    println!("{count} matches, and the sum of their ends is {sum}");
    Ok(())
}
