//! Random calls of every kind.

use crate::call::{Call, Room};
use crate::tally::Tally;
use crate::{elsewhere, files, history, lists, marks, most, mutate, numbers, places, texts, views};
use rng::Rng;

const ORIGIN: &str = "random";

/// Compares as many random calls, whatever the number of chosen ones.
pub fn run(tally: &mut Tally, seed: u64, calls: u64) {
    let mut rng = Rng::new(seed);
    for _ in 0..calls {
        let mut call = any_call(&mut rng);
        if rng.once_in(4) {
            most::lend(&mut rng, &mut call);
        }
        let refusal = tally.compare(ORIGIN, &call);
        marks::count(tally, &call, refusal);
    }
}

/// Random calls must meet every refusal that the chosen calls do, and every kind of list, of plan,
/// of seeking, of pair, of read across chunks, of place and of judged plan that is marked; else they
/// are too tame.
pub fn reach(tally: &mut Tally) {
    for missed in marks::missed(tally) {
        tally.difference("random calls", &missed);
    }
    for (call, number) in tally.missed(ORIGIN) {
        tally.difference("random calls", &format!("none is a {call} that gives {number}"));
    }
}

fn any_call(rng: &mut Rng) -> Call {
    match rng.below(27) {
        0..=9 => with_list(rng),
        10 => in_view(rng),
        11 => Call::Added { pair: history::pair(rng) },
        12..=14 => {
            let out = room(rng);
            files::call(rng, out)
        }
        15..=20 => next_piece(rng),
        21..=23 => {
            let planned = files::call(rng, Room::Right);
            elsewhere::judged(rng, planned)
        }
        _ => with_text(rng),
    }
}

/// Of one chunk as often as of a file.
fn next_piece(rng: &mut Rng) -> Call {
    let planned = if rng.once_in(2) {
        let list = some_list(rng);
        read_plan(rng, list, Room::Right)
    } else {
        files::call(rng, Room::Right)
    };
    places::somewhere(rng, planned)
}

fn in_view(rng: &mut Rng) -> Call {
    let view = views::row(rng);
    let (segments, position) = (views::segments(rng, &view), views::position(rng, &view));
    Call::Find { view, segments, position }
}

fn with_list(rng: &mut Rng) -> Call {
    let list = some_list(rng);
    let out = room(rng);
    match rng.below(9) {
        0 => Call::Check { list },
        1 | 2 => Call::View { chunk_len: numbers::chunk_len(rng), list, out },
        3 | 4 => Call::Tidy { list, out },
        5 | 6 => read_plan(rng, list, out),
        _ => Call::Compact {
            index: numbers::chunk_index(rng),
            block_size: numbers::block_size(rng),
            k: numbers::first_records(rng, &list),
            new_id: numbers::new_id(rng, &list),
            list,
            plan: out,
            new_list: room(rng),
        },
    }
}

fn some_list(rng: &mut Rng) -> Vec<u8> {
    let mut list = lists::sound(rng);
    mutate::list(rng, &mut list);
    list
}

fn read_plan(rng: &mut Rng, list: Vec<u8>, out: Room) -> Call {
    Call::ReadPlan {
        index: numbers::chunk_index(rng),
        chunk_len: numbers::chunk_len(rng),
        block_size: numbers::block_size(rng),
        start: numbers::position(rng, &list),
        count: numbers::count(rng, &list),
        list,
        out,
    }
}

fn with_text(rng: &mut Rng) -> Call {
    let (id, block) = (numbers::id(rng), numbers::block(rng));
    let (length, index) = (numbers::block_length(rng), numbers::index(rng));
    let out = room(rng);
    match rng.below(8) {
        0 => Call::WriteObjectName { id, block, length, out },
        1 => Call::WriteFullName { volume: texts::volume(rng), id, block, length, out },
        2 => Call::WriteRedisKey { inode: id, index, out },
        3 => Call::WriteTkvKey { inode: id, index, out },
        4 => Call::ReadObjectName { name: text(rng, texts::object_name) },
        5 => Call::ReadFullName { name: text(rng, texts::full_name) },
        6 => Call::ReadRedisKey { key: text(rng, texts::redis_key) },
        _ => Call::ReadTkvKey { key: text(rng, texts::tkv_key) },
    }
}

/// A text of that kind, and now and then one of another.
fn text(rng: &mut Rng, kind: fn(&mut Rng) -> Vec<u8>) -> Vec<u8> {
    if rng.once_in(20) {
        let other = rng.below(4) as usize;
        return [texts::object_name, texts::full_name, texts::redis_key, texts::tkv_key][other](
            rng,
        );
    }
    kind(rng)
}

fn room(rng: &mut Rng) -> Room {
    match rng.below(10) {
        0 => Room::OneShort,
        1 => Room::Empty,
        2 => Room::Bytes(rng.below(300) as usize),
        3..=5 => Room::Longer(1 + rng.below(60) as usize),
        _ => Room::Right,
    }
}
