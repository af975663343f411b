//! A difference: said in a line, its bytes kept; and what the gate never met.

use std::path::Path;

/// Where the bytes of differences are kept.
const FOLDER: &str = "target/tests";

/// At most this many differences are said.
const SAID: usize = 20;

/// Says difference `number`, from 1, of `name`, and keeps its bytes as PROGRAM-NAME.ENDING.
pub fn say(number: usize, name: &str, what: &str, bytes: &[u8], program: &str, ending: &str) {
    if number > SAID {
        return;
    }
    let path = Path::new(FOLDER).join(format!("{program}-{}.{ending}", name.replace(' ', "-")));
    let kept = std::fs::write(&path, bytes).map_or_else(|error| error.to_string(), |()| "kept".to_string());
    println!("differs: {name}: {what} ({}: {kept})", path.display());
}

/// Says what the gate never met; how many differences that are.
pub fn never_met(names: &[String]) -> usize {
    for name in names {
        println!("differs: the gate: {name}: never met");
    }
    names.len()
}
