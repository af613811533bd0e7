//! Reader and writer: every refusal, the order between them, and the bytes.

mod common;

use common::{house, k1, k2, packed, with};
use twin::bits;
use twin::random::Random;
use twin::record::{read, write, House, RawShip, Version};
use twin::refusal::Refusal;

fn refused(number: u8, place: usize) -> Option<Refusal> {
    Some(Refusal::at(number, place))
}

fn overlapping(place: usize, mm: u64) -> Option<Refusal> {
    Some(Refusal::overlapping(place, mm))
}

/// k2's bytes, worked by hand from the table of fields.
#[test]
fn bytes_of_k2() {
    let mut bits = String::new();
    let mut put = |width: usize, number: i64| {
        let number = number as u64 & (!0 >> (64 - width));
        bits += &format!("{number:0width$b}");
    };
    for (width, number) in [(4, 1), (2, 1), (4, 1), (6, 0), (20, 90_000), (16, 6_000), (16, 6_000)]
    {
        put(width, number);
    }
    for number in [6_800, 8_000, 1_000, 444, 112, 224, 888, 2_000] {
        put(14, number);
    }
    for (width, number) in
        [(20, 0), (16, 0), (1, 1), (1, 0), (21, 80_000), (21, 90_000), (13, 2_000), (7, 0)]
    {
        put(width, number);
    }
    let bytes: Vec<u8> =
        (0..35).map(|i| u8::from_str_radix(&bits[8 * i..8 * i + 8], 2).unwrap()).collect();
    assert_eq!(bits.len(), 8 * 35);
    assert_eq!(packed(&k2()), bytes);
}

#[test]
fn random_ships_come_back() {
    let mut random = Random::new(1);
    for i in 0..3_000 {
        let raw = random.ship(i % 9);
        let length = Version::One.record_bytes(i % 9);
        let mut buffer = [0xa5; 128];
        assert_eq!(write(&mut buffer, &raw), Ok(length));
        assert!(buffer[length..].iter().all(|&byte| byte == 0xa5));
        let ship = read(&buffer[..length]).unwrap();
        assert_eq!(Ok(ship.clone()), raw.check());
        let mut again = [0x5a; 128];
        assert_eq!(write(&mut again, &ship.raw()), Ok(length));
        assert_eq!(again[..length], buffer[..length]);
    }
}

/// Any bytes at all: reading never fails otherwise than by a refusal, and what it takes in is
/// what the writer gives back.
#[test]
fn damaged_records() {
    let mut random = Random::new(2);
    for i in 0..20_000 {
        let mut bytes = packed(&random.ship(i % 9));
        for _ in 0..random.between(1, 3) {
            let bit = random.between(0, 8 * bytes.len() as i64 - 1) as usize;
            bytes[bit / 8] ^= 0x80 >> (bit % 8);
        }
        match read(&bytes) {
            Ok(ship) if bytes[0] >> 4 == 1 => assert_eq!(packed(&ship.raw()), bytes),
            Ok(ship) => assert_eq!(read(&packed(&ship.raw())), Ok(ship)),
            Err(refusal) => assert!(matches!(refusal.number, 2..=11 | 18 | 22..=24)),
        }
    }
}

/// Sets bits of a record, then reads it.
fn read_with(raw: &RawShip, changes: &[(usize, usize, u64)]) -> Option<Refusal> {
    let mut bytes = packed(raw);
    for &(at, width, number) in changes {
        bits::put_over(&mut bytes, at, width, number);
    }
    read(&bytes).err()
}

#[test]
fn header_refusals_in_order() {
    assert_eq!(read(&[]).err(), refused(1, 0));
    assert_eq!(read(&[0xff; 26]).err(), refused(1, 0));
    assert_eq!(read(&[0xff; 27]).err(), refused(2, 0));
    assert_eq!(read_with(&k1(), &[]), None);
    assert_eq!(read_with(&k1(), &[(0, 4, 5), (4, 2, 3)]), refused(2, 0));
    assert_eq!(read_with(&k1(), &[(0, 4, 0), (4, 2, 3)]), refused(2, 0));
    assert_eq!(read_with(&k1(), &[(4, 2, 2), (6, 4, 9)]), refused(3, 0));
    assert_eq!(read_with(&k1(), &[(6, 4, 9), (10, 6, 1)]), refused(4, 0));
    assert_eq!(read_with(&k1(), &[(6, 4, 8), (10, 6, 1)]), refused(5, 0));
    assert_eq!(read_with(&k1(), &[(10, 6, 1), (16, 20, 0)]), refused(6, 0));
    assert_eq!(read_with(&k2(), &[(27 * 8 + 57, 7, 1), (16, 20, 0)]), refused(6, 0));
    assert_eq!(read_with(&k1(), &[(16, 20, 0), (68, 14, 0)]), refused(7, 1));
    assert_eq!(read_with(&k1(), &[(68, 14, 0), (82, 14, 0)]), refused(7, 4));
    assert_eq!(read_with(&k1(), &[(82, 14, 0), (180, 20, 1)]), refused(7, 5));
    assert_eq!(read_with(&k2(), &[(180, 20, 1), (27 * 8 + 44, 13, 0)]), refused(8, 0));
    assert_eq!(read_with(&k2(), &[(200, 16, 1)]), refused(8, 0));
    assert_eq!(read_with(&k2(), &[(27 * 8 + 44, 13, 0)]), refused(9, 0));
}

#[test]
fn house_refusals_in_order() {
    let check = |houses: &[House]| with(k1(), houses).check().err();
    let sound = house(0, 10_000, 2_000);
    let open_deck = House { quarterdeck: true, enclosed: false, ..sound };
    assert_eq!(check(&[sound, house(20_000, 20_000, 1)]), refused(9, 1));
    assert_eq!(check(&[open_deck, house(20_000, 20_000, 1)]), refused(9, 1));
    assert_eq!(check(&[open_deck, house(9_999, 20_000, 1)]), refused(10, 0));
    assert_eq!(check(&[sound, house(9_999, 20_000, 1)]), overlapping(1, 1));
    assert_eq!(check(&[sound, house(10_000, 20_000, 1)]), None);
    let open = House { enclosed: false, ..sound };
    assert_eq!(check(&[open, house(9_999, 20_000, 1), house(0, 1, 1)]), overlapping(1, 1));
    assert_eq!(check(&[house(9_999, 20_000, 1), open, house(0, 1, 1)]), refused(18, 1));
}

#[test]
fn writer_refusals() {
    let attempt = |length: usize, raw: &RawShip| {
        let mut buffer = vec![0xa5; length];
        let refusal = write(&mut buffer, raw).expect_err("a refusal");
        assert!(buffer.iter().all(|&byte| byte == 0xa5));
        Some(refusal)
    };
    assert_eq!(attempt(0, &RawShip { kind: 5, n: 9, ..k1() }), refused(3, 0));
    assert_eq!(attempt(0, &RawShip { kind: u64::MAX, n: 9, ..k1() }), refused(3, 0));
    assert_eq!(attempt(0, &RawShip { kind: (1 << 32) + 1, ..k1() }), refused(3, 0));
    assert_eq!(attempt(0, &RawShip { n: u64::MAX, length: 0, ..k1() }), refused(4, 0));
    for i in 0..6 {
        let mut raw = RawShip { displacement: 1 << 20, ..k1() };
        raw.sheer[i] = [8_192, -8_193, i64::MAX, i64::MIN, 1 << 14, -(1 << 14)][i];
        assert_eq!(attempt(26, &raw), refused(7, 6 + i));
    }
    let certified = |displacement, immersion| RawShip { displacement, immersion, ..k1() };
    assert_eq!(attempt(26, &certified(1 << 20, 1 << 16)), refused(7, 12));
    assert_eq!(attempt(26, &certified(1, 1 << 16)), refused(7, 13));
    assert_eq!(attempt(26, &certified(1, 0)), refused(8, 0));
    let wild = House { aft: i64::MIN, fore: i64::MAX, height: u64::MAX, ..House::default() };
    assert_eq!(attempt(34, &with(k1(), &[wild])), refused(9, 0));
    assert_eq!(attempt(34, &k2()), refused(17, 0));
    // A wild house beyond n does not matter.
    let mut ignored = with(k1(), &[wild]);
    ignored.n = 0;
    assert_eq!(write(&mut [0; 27], &ignored), Ok(27));
}
