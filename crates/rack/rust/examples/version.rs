//! Starts a rack, and says what comes of it.

use rack::Rack;

fn main() {
    match Rack::new() {
        Ok(_) => println!("started: yes"),
        Err(error) => println!("started: no, {error}"),
    }
}
