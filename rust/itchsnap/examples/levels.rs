//! Prints the price levels of each stock of a day file: `cargo run --example levels -- DAY`.

use std::error::Error;

use itchsnap::{Day, Part, Side};

fn main() -> Result<(), Box<dyn Error>> {
    let path = std::env::args().nth(1).ok_or("usage: levels DAY")?;
    let market = Day::read(path)?.snapshot(&Part::all())?.market()?;
    let view = market.view();
    for (locate, stock) in view.stocks()? {
        println!("{locate} {stock}");
        for (side, letter) in [(Side::Buy, 'B'), (Side::Sell, 'S')] {
            for level in view.levels(locate, side)? {
                println!("{letter} {} {} {}", level.price, level.shares, level.orders);
            }
        }
    }
    Ok(())
}
