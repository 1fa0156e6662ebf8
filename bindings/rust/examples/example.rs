//! What an mbox holds: for each message when it was sent, and then the threads, each row at its depth.
//!
//!     cargo run --example example < MBOX
use luvazhimba::{cut, sent_date, threads};
use std::error::Error;
use std::io::{stdin, Read};

fn main() -> Result<(), Box<dyn Error>> {
    let mut mbox = Vec::new();
    stdin().read_to_end(&mut mbox)?;
    let messages = cut(&mbox)?;
    for (place, it) in messages.iter().enumerate() {
        println!("{place} sent {}", sent_date(&mbox[it.start..it.end], it.arrival)?);
    }
    for row in threads(&mbox, &messages, true)? {
        let place = row.place.map_or("-".to_string(), |it| it.to_string());
        println!("{}{place}", "  ".repeat(row.depth));
    }
    Ok(())
}
