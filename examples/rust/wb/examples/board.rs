//! Two members in one process. Member 7 draws, and what it sends is handed to member 8, which shows its page. No socket and no clock: the moments are
//! made up.
//!
//!     WB_PREFIX=DIR cargo run --example board     # DIR is that of ./wb --library DIR
use wb::{Drawing, Host, Page};

fn main() -> Result<(), Box<dyn std::error::Error>> {
    let page = Page { creator: 7, number: 1 };
    let (mut seven, mut eight) = (Host::open(7, 42, 0)?, Host::open(8, 43, 0)?);
    let drawings = [Drawing::Line([0, 0, 4, 0], b'*'), Drawing::Text(0, 1, "drawn in Rust".into())];
    for (at, drawing) in (1..).zip(&drawings) {
        for datagram in seven.add(1000 * at, at, page, drawing)?.send {
            eight.came(1000 * at + 500, &datagram)?;
        }
    }
    print!("{}", eight.show(page, 13, 2)?);
    Ok(())
}
