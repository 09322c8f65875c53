//! Texts for the readers: names and keys, sound, spoiled a little, or nonsense.

use crate::mutate;
use crate::numbers;
use rng::Rng;

pub fn volume(rng: &mut Rng) -> Vec<u8> {
    let length = match rng.below(6) {
        0 => rng.pick(&[0, 1, 62, 63, 64, 65]),
        _ => 1 + rng.below(12),
    };
    let mut volume: Vec<u8> = (0..length).map(|_| rng.pick(b"abcxyz0189-")).collect();
    if rng.once_in(8) {
        mutate::text(rng, &mut volume);
    }
    volume
}

pub fn object_name(rng: &mut Rng) -> Vec<u8> {
    let id = numbers::id(rng);
    let (millions, thousands) = (digits(rng, id / 1000 / 1000), digits(rng, id / 1000));
    let (block, length) = (numbers::block(rng), numbers::block_length(rng));
    let (id, block, length) = (digits(rng, id), digits(rng, block), digits(rng, length));
    let name = format!("chunks/{millions}/{thousands}/{id}_{block}_{length}");
    spoiled(rng, name.into_bytes())
}

pub fn full_name(rng: &mut Rng) -> Vec<u8> {
    let name = [&volume(rng), &b"/"[..], &object_name(rng)].concat();
    spoiled(rng, name)
}

pub fn redis_key(rng: &mut Rng) -> Vec<u8> {
    let (inode, index) = (numbers::id(rng), numbers::index(rng));
    let key = format!("c{}_{}", digits(rng, inode), digits(rng, index));
    spoiled(rng, key.into_bytes())
}

pub fn tkv_key(rng: &mut Rng) -> Vec<u8> {
    let (inode, index) = (numbers::id(rng), numbers::index(rng) as u32);
    let key = [&b"A"[..], &inode.to_le_bytes(), b"C", &index.to_be_bytes()].concat();
    spoiled(rng, key)
}

/// Decimal digits; now and then with zeros in front, or with more of them than 64 bits hold.
fn digits(rng: &mut Rng, number: u64) -> String {
    match rng.below(200) {
        0 => format!("0{number}"),
        1 => format!("{number}0000000000000000000000"),
        // 2^64 + number: what is left of it in 64 bits would be the number.
        2 => (u128::from(number) + (1 << 64)).to_string(),
        3 => String::new(),
        _ => number.to_string(),
    }
}

fn spoiled(rng: &mut Rng, mut text: Vec<u8>) -> Vec<u8> {
    match rng.below(10) {
        0 => {
            let length = rng.below(40);
            rng.bytes(length)
        }
        1..=3 => {
            mutate::text(rng, &mut text);
            text
        }
        _ => text,
    }
}
