//! Tapes: the documents' bytes, orders back as they were, and each bad field by its number at its offset.

use felavuti::tape::{encode, push, write, BadField, Orders, LONGEST};
use felavuti::{OrderType, Refusal, Side};

const SIDES: [Side; 2] = [Side::Bid, Side::Ask];
const EDGES: [u64; 6] = [0, 1, 255, 256, 1 << 63, u64::MAX];
const MARKET_LENGTH: u8 = 17;
const LIMIT_LENGTH: u8 = 25;
const CANCEL_LENGTH: u8 = 8;
/// Where a value's side stands in a field.
const SIDE: usize = 11;

fn limit(id: u64, side: Side, qty: u64, price: u64) -> OrderType {
    OrderType::Limit { id, side, qty, price }
}

fn market(id: u64, side: Side, qty: u64) -> OrderType {
    OrderType::Market { id, side, qty }
}

fn cancel(id: u64) -> OrderType {
    OrderType::Cancel { id }
}

/// T1 to T12 of document 01.
fn day() -> Vec<OrderType> {
    vec![
        limit(1, Side::Ask, 10, 105),
        limit(2, Side::Ask, 5, 103),
        limit(3, Side::Ask, 7, 103),
        limit(4, Side::Bid, 8, 104),
        limit(5, Side::Bid, 6, 103),
        market(6, Side::Bid, 12),
        market(7, Side::Bid, 1),
        cancel(1),
        limit(8, Side::Ask, 0, 1),
        market(10, Side::Ask, 0),
        limit(9, Side::Ask, 1, 103),
        cancel(5),
    ]
}

fn edge_orders() -> Vec<OrderType> {
    let mut orders = Vec::new();
    for id in EDGES {
        orders.push(cancel(id));
        for (side, qty) in SIDES.into_iter().flat_map(|side| EDGES.map(|qty| (side, qty))) {
            orders.push(market(id, side, qty));
            orders.extend(EDGES.map(|price| limit(id, side, qty, price)));
        }
    }
    orders
}

fn read(tape: &[u8]) -> Result<Vec<OrderType>, BadField> {
    Orders::new(tape).collect()
}

/// A field of a tag, with a length and a value of so many bytes, all zero.
fn field(tag: u8, length: u8, value: usize) -> Vec<u8> {
    [vec![tag, 0, length], vec![0; value]].concat()
}

/// A limit order's or a market order's field with a side that is none.
fn sided(order: OrderType, side: u8) -> Vec<u8> {
    let mut field = encode([order]);
    field[SIDE] = side;
    field
}

/// A tape is refused with the number at its beginning, and behind good orders at its place there, which are read.
fn refused(bad: &[u8], refusal: Refusal) {
    assert_eq!(read(bad), Err(BadField { offset: 0, refusal }), "{bad:?}");
    for orders in [vec![cancel(7)], day()] {
        let good = encode(orders.clone());
        let tape = [&good[..], bad].concat();
        let mut reading = Orders::new(&tape);
        orders.into_iter().for_each(|order| assert_eq!(reading.next(), Some(Ok(order))));
        assert_eq!(reading.next(), Some(Err(BadField { offset: good.len(), refusal })), "{bad:?}");
        assert_eq!((reading.next(), reading.next()), (None, None), "nothing comes after an error");
        assert_eq!(reading.offset(), good.len());
    }
}

#[test]
fn a_cancel_of_seven_is_the_documents_bytes() {
    let bytes = [0x03, 0x00, 0x08, 0x00, 0x00, 0x00, 0x00, 0x00, 0x00, 0x00, 0x07];
    assert_eq!(encode([cancel(7)]), bytes);
    assert_eq!(read(&bytes), Ok(vec![cancel(7)]));
}

#[test]
fn numbers_stand_high_byte_first() {
    let order = limit(0x0102_0304_0506_0708, Side::Ask, 0x1112_1314_1516_1718, 0x2122_2324_2526_2728);
    let mut due = vec![2, 0, LIMIT_LENGTH, 1, 2, 3, 4, 5, 6, 7, 8, 1];
    due.extend(0x11..=0x18);
    due.extend(0x21..=0x28);
    assert_eq!(encode([order]), due);
    let due = [&[1, 0, MARKET_LENGTH][..], &due[3..20]].concat();
    assert_eq!(encode([market(0x0102_0304_0506_0708, Side::Ask, 0x1112_1314_1516_1718)]), due);
}

#[test]
fn orders_come_back_as_they_were() {
    assert_eq!(read(&[]), Ok(vec![]));
    let tape = encode(day());
    assert_eq!(tape.len(), 7 * 28 + 3 * 20 + 2 * 11);
    assert_eq!(read(&tape), Ok(day()));
    let orders = edge_orders();
    assert_eq!(read(&encode(orders.clone())), Ok(orders));
}

#[test]
fn a_reader_says_where_it_is_and_ends_once() {
    let tape = encode(day());
    let mut orders = Orders::new(&tape);
    let mut behind = 0;
    for order in day() {
        assert_eq!(orders.offset(), behind);
        assert_eq!(orders.next(), Some(Ok(order)));
        behind += encode([order]).len();
    }
    assert_eq!((orders.next(), orders.next(), orders.offset()), (None, None, tape.len()));
}

#[test]
fn each_bad_field_is_refused_by_its_number_at_its_offset() {
    refused(&[3], Refusal::CutOff);
    refused(&[3, 0], Refusal::CutOff);
    for tag in [0, 4, 5, 16, 255] {
        refused(&field(tag, CANCEL_LENGTH, 8), Refusal::UnknownTag);
    }
    for (tag, right) in [(1, MARKET_LENGTH), (2, LIMIT_LENGTH), (3, CANCEL_LENGTH)] {
        let wrong = (0..=255).filter(|length| *length != right);
        wrong.for_each(|length| refused(&field(tag, length, 300), Refusal::WrongLength));
        refused(&[vec![tag, 1, right], vec![0; 300]].concat(), Refusal::WrongLength);
        (0..right).for_each(|value| refused(&field(tag, right, value.into()), Refusal::CutOff));
    }
    for side in 2..=255 {
        refused(&sided(market(1, Side::Bid, 2), side), Refusal::NoSuchSide);
        refused(&sided(limit(1, Side::Bid, 2, 3), side), Refusal::NoSuchSide);
    }
}

#[test]
fn the_first_check_that_fails_gives_the_number() {
    // too few bytes for a length: the tag is not looked at
    refused(&[9], Refusal::CutOff);
    refused(&[9, 9], Refusal::CutOff);
    // then the tag, then the length, each before the value that isn't there
    refused(&[9, 0, 9], Refusal::UnknownTag);
    refused(&[3, 0, 9], Refusal::WrongLength);
    refused(&field(1, LIMIT_LENGTH, 5), Refusal::WrongLength);
    // then whether the value is there, and only then its side
    let field = sided(market(1, Side::Bid, 2), 2);
    (SIDE + 1..field.len()).for_each(|length| refused(&field[..length], Refusal::CutOff));
    refused(&[&field[..], &[0]].concat(), Refusal::NoSuchSide);
    // what stands behind a wrong field doesn't matter
    refused(&[&field[..], &encode(day())].concat(), Refusal::NoSuchSide);
}

#[test]
fn a_cancel_has_no_side() {
    // where another order has its side, the next field begins
    let tape = encode([cancel(7), limit(1, Side::Ask, 10, 105)]);
    assert!(tape[SIDE] > 1);
    assert_eq!(read(&tape), Ok(vec![cancel(7), limit(1, Side::Ask, 10, 105)]));
    assert_eq!(read(&[&encode([cancel(7)])[..], &[255]].concat()), Err(BadField { offset: 11, refusal: Refusal::CutOff }));
}

#[test]
fn an_order_is_written_over_its_own_bytes_alone() {
    for order in [market(1, Side::Ask, 2), limit(1, Side::Bid, 2, 3), cancel(1)] {
        let field = encode([order]);
        for at in 0..4 {
            let mut room = vec![0xaa; at + field.len() + 3];
            let due = [&vec![0xaa; at], &field[..], &[0xaa; 3]].concat();
            assert_eq!(write(order, &mut room, at), Ok(at + field.len()));
            assert_eq!(room, due);
            let mut exact = vec![0xaa; at + field.len()];
            assert_eq!(write(order, &mut exact, at), Ok(exact.len()));
        }
    }
}

#[test]
fn short_room_is_refused_and_nothing_changes() {
    for order in [market(1, Side::Ask, 2), limit(1, Side::Bid, 2, 3), cancel(1)] {
        let needed = encode([order]).len();
        let mut room = [0xaa; 2 * LONGEST];
        for length in 0..needed {
            assert_eq!(write(order, &mut room[..length], 0), Err(Refusal::ShortRoom));
        }
        for at in [room.len() - needed + 1, room.len(), room.len() + 1, 1 << 63, usize::MAX - needed, usize::MAX] {
            assert_eq!(write(order, &mut room, at), Err(Refusal::ShortRoom), "at {at}");
        }
        assert_eq!(room, [0xaa; 2 * LONGEST]);
        assert_eq!(write(order, &mut room, 2 * LONGEST - needed), Ok(2 * LONGEST));
    }
    assert_eq!(Refusal::ShortRoom.number(), 19);
}

#[test]
fn a_tape_grows_by_what_is_pushed() {
    let mut tape = vec![0xaa];
    for (n, order) in day().into_iter().enumerate() {
        push(&mut tape, order);
        assert_eq!(tape[1..], encode(day().into_iter().take(n + 1)));
    }
    assert_eq!((tape[0], tape[1..].to_vec()), (0xaa, encode(day())));
    assert_eq!(LONGEST, encode([limit(1, Side::Bid, 1, 1)]).len());
}

#[test]
fn a_bad_field_is_an_error_in_the_texts_words() {
    let tape = [encode([cancel(7)]), vec![3, 0, 9]].concat();
    let bad = Orders::new(&tape).find_map(Result::err).unwrap();
    let error: Box<dyn std::error::Error + Send + Sync> = bad.into();
    assert_eq!(error.to_string(), "Refused 9 at 11: a field's length isn't that of its tag");
    for (refusal, number) in [
        (Refusal::UnknownTag, 8),
        (Refusal::WrongLength, 9),
        (Refusal::NoSuchSide, 10),
        (Refusal::CutOff, 11),
        (Refusal::ShortRoom, 19),
    ] {
        assert_eq!((refusal.number(), Refusal::of(number)), (number, Some(refusal)));
        assert!(BadField { offset: 3, refusal }.to_string().starts_with(&format!("Refused {number} at 3: ")));
    }
}
