//! Prints every match of a tree in a text, a line for each: start and end.

use fancy::{Options, Regex};
use std::error::Error;

fn main() -> Result<(), Box<dyn Error>> {
    let words: Vec<String> = std::env::args().skip(1).collect();
    let [tree, text] = words.as_slice() else {
        return Err("usage: matches TREE TEXT".into());
    };
    for found in Regex::of_tree(tree, Options::default())?.find_iter(text) {
        let found = found?;
        println!("{} {}", found.start(), found.end());
    }
    Ok(())
}
