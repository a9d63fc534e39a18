//! The wrapper as a program meets it: any input is answered, each refusal by its number and its words, and nothing panics.

use felavuti::{
    Answer, BookLevel, EventKind, FillRow, OrderBook, OrderEvent, OrderType, Refusal, Side, Size, Stored, ORDERS, PLACES, PRICES,
};

const SIDES: [Side; 2] = [Side::Bid, Side::Ask];
/// Numbers at the edges.
const EDGES: [u64; 6] = [0, 1, PLACES as u64, 1 << 63, u64::MAX - 1, u64::MAX];
const REFUSALS: [Refusal; 12] = [
    Refusal::NotWhole,
    Refusal::TooManyFills,
    Refusal::SumTooLarge,
    Refusal::BookFull,
    Refusal::SideFull,
    Refusal::TooManyLevels,
    Refusal::LevelTooLarge,
    Refusal::UnknownTag,
    Refusal::WrongLength,
    Refusal::NoSuchSide,
    Refusal::CutOff,
    Refusal::ShortRoom,
];

fn limit(id: u64, side: Side, qty: u64, price: u64) -> OrderType {
    OrderType::Limit { id, side, qty, price }
}

fn edge_orders() -> impl Iterator<Item = OrderType> {
    let ids = EDGES.into_iter();
    ids.flat_map(|id| {
        let sides = SIDES.into_iter().flat_map(move |side| EDGES.into_iter().map(move |qty| (side, qty)));
        let orders = sides.flat_map(move |(side, qty)| {
            let limits = EDGES.into_iter().map(move |price| limit(id, side, qty, price));
            limits.chain([OrderType::Market { id, side, qty }])
        });
        orders.chain([OrderType::Cancel { id }])
    })
}

#[test]
fn any_order_is_answered_and_a_refused_one_changes_nothing() {
    for track in [false, true] {
        let mut book = OrderBook::new(track);
        let mut refused = 0;
        // forwards and backwards, so that each order meets books of several kinds
        let orders: Vec<OrderType> = edge_orders().collect();
        for &order in orders.iter().chain(orders.iter().rev()) {
            let before = book.stored().clone();
            if let Err(refusal) = book.execute(order) {
                assert_eq!(refusal, Refusal::SumTooLarge, "{order:?}");
                assert_eq!(*book.stored(), before, "{order:?}");
                refused += 1;
            }
            assert_eq!(book.spread(), book.min_ask().zip(book.max_bid()).map(|(ask, bid)| ask - bid));
            assert!(matches!(book.depth(usize::MAX), Ok(_) | Err(Refusal::LevelTooLarge)));
            EDGES.into_iter().for_each(|id| assert!((1..=PLACES as u64).contains(&book.get(id).looked_at)));
            assert_eq!(book.stored().check(Size::BASE), 0);
        }
        assert_eq!(refused > 0, track, "sums are kept, and can be too large, only while tracking is on");
    }
}

#[test]
fn the_room_is_as_promised() {
    let mut book = OrderBook::default();
    for id in 0..ORDERS as u64 {
        let price = id % PRICES as u64;
        assert_eq!(book.execute(limit(id, Side::Bid, 1, price)), Ok(OrderEvent::Placed { id }));
    }
    assert_eq!((book.resting(), book.depth(0).unwrap().bids.len()), (ORDERS, PRICES));
    let full = book.stored().clone();
    assert_eq!(book.execute(limit(1, Side::Bid, 1, 1_000)), Err(Refusal::BookFull), "the lowest number is given");
    assert_eq!(book.execute(OrderType::Cancel { id: 0 }), Ok(OrderEvent::Canceled { id: 0 }));
    assert_eq!(book.execute(limit(1, Side::Bid, 1, 1_000)), Err(Refusal::SideFull));
    assert_eq!(book.execute(limit(0, Side::Bid, 1, 0)), Ok(OrderEvent::Placed { id: 0 }), "a freed place is used again");
    assert_eq!(book.resting(), ORDERS);

    // all of them at once: there is always room for the fills, unless it is lent
    let all = OrderType::Market { id: 9, side: Side::Ask, qty: u64::MAX };
    let mut rows = vec![FillRow([7; 5]); ORDERS + 1];
    let mut lent = book.clone();
    assert_eq!(lent.execute_into(all, &mut rows[..ORDERS - 1]), Err(Refusal::TooManyFills));
    assert!(rows.iter().all(|row| *row == FillRow([7; 5])));
    let answer = lent.execute_into(all, &mut rows).unwrap();
    let due = Answer { kind: EventKind::PartiallyFilled, id: 9, filled_qty: ORDERS as u64, fills: ORDERS };
    assert_eq!((answer, rows[ORDERS]), (due, FillRow([7; 5])));
    assert_eq!(book.execute(all).ok(), answer.event(&rows));
    assert_eq!((book.resting(), lent.resting()), (0, 0));
    assert_ne!(*book.stored(), full);
}

#[test]
fn an_answer_with_too_few_rows_gives_no_event() {
    let answer = |kind| Answer { kind, id: 1, filled_qty: 2, fills: 3 };
    assert_eq!(answer(EventKind::Filled).event(&[FillRow::default(); 2]), None);
    assert_eq!(answer(EventKind::PartiallyFilled).event(&[]), None);
    assert_eq!(answer(EventKind::Placed).event(&[]), Some(OrderEvent::Placed { id: 1 }));
    let event = answer(EventKind::Filled).event(&[FillRow([u64::MAX; 5]); 4]);
    assert!(matches!(event, Some(OrderEvent::Filled { fills, .. }) if fills.len() == 3));
}

#[test]
fn storage_of_any_kind_is_answered() {
    let mut book = OrderBook::new(true);
    book.execute(limit(1, Side::Ask, 2, 100)).unwrap();
    let good = book.stored().clone();
    let cut: [fn(&mut Stored); 6] = [
        |stored| stored.records.clear(),
        |stored| stored.bids.push(0),
        |stored| stored.asks.truncate(3),
        |stored| stored.search = Vec::new(),
        |stored| stored.desk = [u64::MAX; 12],
        |stored| stored.records.fill(u64::MAX),
    ];
    for damage in cut {
        let mut stored = good.clone();
        damage(&mut stored);
        let before = stored.clone();
        let (mut fills, mut answer) = ([7; 10], [7; 4]);
        let numbers = [
            stored.market(&mut fills, 1, 0, 1, &mut answer),
            stored.limit(&mut fills, 1, 1, 1, 1, &mut answer),
            stored.cancel(1, &mut answer),
            stored.min_ask(&mut answer),
            stored.max_bid(&mut answer),
            stored.spread(&mut answer),
            stored.depth(&mut fills, 1, &mut answer),
            stored.get(1, &mut answer),
            stored.check(Size::BASE),
        ];
        assert_eq!(numbers, [Refusal::NotWhole.number(); 9]);
        assert_eq!((stored, fills, answer), (before, [7; 10], [7; 4]));
    }
    let (mut stored, mut answer) = (good.clone(), [7; 4]);
    assert_eq!(stored.market(&mut [], 2, 2, 1, &mut answer), Refusal::NoSuchSide.number());
    assert_eq!(stored.market(&mut [0; 4], 2, 0, 1, &mut answer), Refusal::TooManyFills.number());
    assert_eq!(stored.depth(&mut [0; 1], 1, &mut answer), Refusal::TooManyLevels.number());
    assert_eq!((stored, answer), (good, [7; 4]));
}

#[test]
fn a_size_may_be_any() {
    let most = usize::MAX;
    for (orders, prices) in [(most, 1), (1, most), (most / 5 + 1, 1), (1, most / 3 + 1), (most / 2 + 1, most / 2 + 1)] {
        let size = Size { orders, prices };
        assert!(Stored::blank(size).is_err(), "{size:?}");
        assert_eq!(Stored::default().check(size), 1, "{size:?}");
    }
    let none = Stored::blank(Size { orders: 0, prices: 0 }).unwrap();
    assert_eq!(none.check(Size { orders: 0, prices: 0 }), 1);
    let mut blank = Stored::blank(Size::BASE).unwrap();
    assert_eq!((blank.fresh(), blank), (0, Stored::default()));
}

#[test]
fn a_refusal_is_an_error_with_its_number() {
    for refusal in REFUSALS {
        assert_eq!(Refusal::of(refusal.number()), Some(refusal));
        let error: Box<dyn std::error::Error + Send + Sync> = refusal.into();
        assert!(error.to_string().starts_with(&format!("refused ({}): ", refusal.number())));
    }
    assert_eq!(Refusal::of(u64::MAX).map(Refusal::number), Some(u64::MAX));
}

#[test]
fn a_book_is_told_shortly_and_goes_between_threads() {
    let mut book = OrderBook::new(true);
    book.execute(limit(1, Side::Ask, 2, 100)).unwrap();
    let told = "OrderBook { resting: 1, max_bid: None, min_ask: Some(100), traded_volume: 0, last_trade: None, .. }";
    assert_eq!(format!("{book:?}"), told);
    let book = std::thread::spawn(move || book).join().unwrap();
    assert_eq!(book.get(1).order, Some(BookLevel { price: 100, qty: 2 }));
}
