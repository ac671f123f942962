//! Memory as a row of bytes, of which any can be overwritten.

use crate::musselrung::{Banks, Row, Session};
use crate::rng::Rng;

pub trait Bytes: Sized {
    fn bytes(&self) -> Vec<u8>;
    fn of(bytes: &[u8]) -> Self;
}

fn taken<const N: usize>(bytes: &mut &[u8]) -> [u8; N] {
    let (first, rest) = bytes.split_at(N);
    *bytes = rest;
    first.try_into().unwrap()
}

fn number(bytes: &mut &[u8]) -> u64 {
    u64::from_le_bytes(taken(bytes))
}

impl Bytes for Banks {
    fn bytes(&self) -> Vec<u8> {
        let Row { front, held, slots, places, states } = &self.row;
        [&front.to_le_bytes()[..], &held.to_le_bytes(), slots, places, states, &self.gates].concat()
    }

    fn of(mut bytes: &[u8]) -> Banks {
        let from = &mut bytes;
        let (front, held) = (number(from), number(from));
        let row = Row { front, held, slots: taken(from), places: taken(from), states: taken(from) };
        Banks { row, gates: taken(from) }
    }
}

impl Bytes for Session {
    fn bytes(&self) -> Vec<u8> {
        let Session { k, length, references, places, depths, counts, policy } = self;
        let mut bytes: Vec<u8> = [k, length, references].into_iter().flat_map(|n| n.to_le_bytes()).collect();
        bytes.extend(places.iter().chain(depths).flat_map(|n| n.to_le_bytes()));
        bytes.extend(counts.iter().flat_map(|n| n.to_le_bytes()));
        bytes.push(*policy);
        bytes
    }

    fn of(mut bytes: &[u8]) -> Session {
        let from = &mut bytes;
        Session {
            k: number(from),
            length: number(from),
            references: number(from),
            places: std::array::from_fn(|_| u32::from_le_bytes(taken(from))),
            depths: std::array::from_fn(|_| u32::from_le_bytes(taken(from))),
            counts: std::array::from_fn(|_| u16::from_le_bytes(taken(from))),
            policy: taken::<1>(from)[0],
        }
    }
}

/// All bytes the same, noise, or noise of small numbers.
pub fn noise<T: Bytes>(rng: &mut Rng, like: &T) -> T {
    let mut bytes = like.bytes();
    let below = rng.pick(&[3, 66, 256]);
    let one = rng.pick(&[0, 0, 1, 2, 64, 255]);
    let even = rng.percent(30);
    bytes.iter_mut().for_each(|byte| *byte = if even { one } else { rng.below(below) as u8 });
    T::of(&bytes)
}

/// Some bytes anywhere, or all from one to another, which become noise, zeros, or what another memory has there.
pub fn overwritten<T: Bytes>(rng: &mut Rng, memory: T, other: &T) -> T {
    let (mut bytes, other) = (memory.bytes(), other.bytes());
    if rng.percent(50) {
        for _ in 0..rng.pick(&[1, 1, 1, 2, 5, 20]) {
            let (at, any) = (rng.below(bytes.len()), rng.next() as u8);
            bytes[at] = rng.pick(&[0, 1, 2, 3, 64, 65, 255, any]);
        }
        return T::of(&bytes);
    }
    let (a, b) = (rng.below(bytes.len()), rng.below(bytes.len()));
    let kind = rng.below(3);
    for at in a.min(b)..=a.max(b) {
        bytes[at] = [rng.next() as u8, 0, other[at]][kind];
    }
    T::of(&bytes)
}
