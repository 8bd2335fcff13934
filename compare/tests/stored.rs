//! Reading stored bytes and storing them again: refusal numbers, bytes, and every byte of the room.

use allpawasi::restore;
use compare::circuits::{any_circuit, circuit, damaged};
use compare::met::{Kind, Met};
use reference::circuit::{read, store, write};
use reference::rng::Rng;

const K1: [u8; 29] = [
    0x53, 0x48, 3, 3, 3, 0x47, 0x54, 0, 0, 1, 0x47, 0x54, 0, 2, 3, 0x47, 0x54, 0, 1, 2, 0x4F, 0x50, 3, 0x4F, 0x50, 4, 0x4F,
    0x50, 5,
];
const K5: [u8; 8] = [0x53, 0x48, 1, 1, 0, 0x4F, 0x50, 0];

/// Both programs on the same bytes and the same room.
fn compare(met: &mut Met, bytes: &[u8], only: bool, room: usize) {
    let mut ours = vec![0xA5; room];
    let mut theirs = ours.clone();
    let answer = restore(bytes, only, &mut ours);
    let expected = read(bytes, only).and_then(|c| store(&c, &mut theirs)).map_err(usize::from);
    assert_eq!(answer, expected, "answer for {bytes:02X?}, only {only}, room {room}");
    assert_eq!(ours, theirs, "room after {bytes:02X?}, only {only}, room {room}");
    met.answer("restore", &answer, |_| Kind::Done);
}

fn both_ways(met: &mut Met, bytes: &[u8]) {
    for only in [false, true] {
        compare(met, bytes, only, bytes.len() + 3);
    }
}

#[test]
fn every_prefix_of_the_examples() {
    let mut met = Met::default();
    for example in [&K1[..], &K5[..]] {
        (0..=example.len()).for_each(|end| both_ways(&mut met, &example[..end]));
        let longer = [example, &[0]].concat();
        both_ways(&mut met, &longer);
    }
    met.ends("every prefix of the examples", "restore", &[2]);
}

#[test]
fn every_byte_of_the_examples_changed_to_every_value() {
    let mut met = Met::default();
    for example in [&K1[..], &K5[..]] {
        for at in 0..example.len() {
            for value in 0..=255 {
                let mut bytes = example.to_vec();
                bytes[at] = value;
                both_ways(&mut met, &bytes);
            }
        }
    }
    met.ends("every byte of the examples changed", "restore", &[1, 2, 3, 4, 5, 6, 7]);
}

#[test]
fn every_room_for_the_first_example() {
    let mut met = Met::default();
    (0..=K1.len() + 2).for_each(|room| compare(&mut met, &K1, true, room));
    met.ends("every room for the first example", "restore", &[11]);
}

#[test]
fn the_longest_form() {
    let (mut rng, mut met) = (Rng::new(1341), Met::default());
    let bytes = write(&circuit(&mut rng, 8, 248, 32, false));
    assert_eq!(bytes.len(), 1341);
    both_ways(&mut met, &bytes);
    both_ways(&mut met, &bytes[..1340]);
    both_ways(&mut met, &[&bytes[..], &[7]].concat());
    for room in [0, 1340, 1341, 1342] {
        compare(&mut met, &bytes, false, room);
    }
    let mut more = bytes.clone();
    more[4] = 249;
    more.splice(5..5, [0x47, 0x54, 0, 0, 1]);
    both_ways(&mut met, &more);
    met.ends("the longest form", "restore", &[1, 2, 7, 11]);
}

#[test]
fn random_circuits_sound_and_damaged() {
    let (mut rng, mut met) = (Rng::new(2), Met::default());
    for round in 0..40_000 {
        let only = round % 2 == 0;
        let linear = only || rng.once_in(2);
        let c = any_circuit(&mut rng, linear);
        let bytes = damaged(&mut rng, &c);
        let room = if rng.once_in(4) { rng.below(1400) as usize } else { 1341 };
        compare(&mut met, &bytes, only, room);
    }
    met.ends("random circuits, sound and damaged", "restore", &[1, 2, 3, 4, 5, 6, 7, 11]);
}
