//! A trading day at the desk, as a program would run it: `cargo run --example day`. `day.stdout` is what it prints.

use felavuti::{OrderBook, OrderEvent, OrderType, Refusal, Side};

fn main() -> Result<(), Refusal> {
    let mut book = OrderBook::default();
    book.track_stats(true);

    let orders = [
        OrderType::Limit { id: 1, side: Side::Ask, qty: 10, price: 105 },
        OrderType::Limit { id: 2, side: Side::Ask, qty: 5, price: 103 },
        OrderType::Limit { id: 3, side: Side::Ask, qty: 7, price: 103 },
        OrderType::Limit { id: 4, side: Side::Bid, qty: 8, price: 104 },
        OrderType::Limit { id: 5, side: Side::Bid, qty: 6, price: 103 },
        OrderType::Cancel { id: 2 },
    ];
    for order in orders {
        match book.execute(order)? {
            OrderEvent::Filled { id, filled_qty, fills } | OrderEvent::PartiallyFilled { id, filled_qty, fills } => {
                println!("order {id} got {filled_qty}");
                for fill in fills {
                    let left = if fill.total_fill { "used up" } else { "still there" };
                    println!("    {} from order {} at {}, which is {left}", fill.qty, fill.order_2, fill.price);
                }
            }
            event => println!("{event:?}"),
        }
    }
    println!("bid {:?}, ask {:?}, spread {:?}", book.max_bid(), book.min_ask(), book.spread());
    println!("volume {}, last trade {:?}", book.traded_volume(), book.last_trade());
    println!("depth {:?}", book.depth(10)?);

    // What the desk can't do it refuses by a number, and nothing changes.
    let dear = u64::MAX / 2;
    book.execute(OrderType::Limit { id: 6, side: Side::Ask, qty: 3, price: dear })?;
    match book.execute(OrderType::Limit { id: 7, side: Side::Bid, qty: 13, price: dear }) {
        Err(refusal) => println!("{refusal}"),
        Ok(event) => println!("{event:?}"),
    }
    Ok(())
}
