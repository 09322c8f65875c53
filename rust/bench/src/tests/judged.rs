//! Plans made elsewhere.

use ezumokarin::{judge_plan, Judged};
use rng::Rng;

use super::{lists, BLOCKS};
use crate::elsewhere::{cut, Order, Spread};
use crate::files::File;
use crate::record::{len, place, PieceBytes, CHUNK, PIECE};
use crate::shapes::SHAPES;
use crate::timed::judged::{same, ORDERS};
use crate::yard::judge::{Judge, Lists};

const FIRST: u32 = 4_294_967_292;
/// Past all lists.
const FILE_LEN: u64 = u64::MAX;

fn second_file<'a>(file: &Lists<'a>) -> second::File<'a> {
    let Lists { lists, lengths, first } = *file;
    second::File { lists, lengths, first_index: first.into(), file_len: FILE_LEN }
}

fn bytes(file: &Lists) -> u64 {
    file.lengths.len() as u64 * u64::from(CHUNK)
}

fn our_plan(file: &Lists, block_size: u32) -> Vec<u8> {
    second::file_plan_bytes(&second_file(file), block_size.into(), 0, bytes(file)).expect("a plan")
}

/// What the second program says; the archive must say it too.
fn expected(file: &Lists, block_size: u32, plan: &[u8]) -> Option<Judged> {
    let (block, count, first) = (block_size.into(), bytes(file), file.first.into());
    let by_archive =
        judge_plan(file.lists, file.lengths, first, FILE_LEN, block, 0, count, plan).ok();
    let said =
        second::judge(&second_file(file), block, 0, count, plan).ok().map(|said| match said {
            second::Judged::Accepted => Judged::Accepted,
            second::Judged::WrongPiece { number, .. } => Judged::WrongPiece(number),
            second::Judged::WrongByte { place, .. } => Judged::WrongByte(place),
        });
    assert_eq!(by_archive, said);
    said
}

/// One piece left out, doubled or of another bit; or its end left out.
fn spoilt(plan: &[u8], rng: &mut Rng) -> Vec<u8> {
    let mut pieces = plan.as_chunks::<PIECE>().0.to_vec();
    let number = rng.below(pieces.len() as u64) as usize;
    match rng.below(8) {
        0 => drop(pieces.remove(number)),
        1 => pieces.push(pieces[number]),
        2 => {
            let rest = rng.below(PIECE as u64) as usize;
            return [&plan[..number * PIECE], &plan[number * PIECE..][..rest]].concat();
        }
        _ => pieces[number][rng.below(PIECE as u64) as usize] ^= 1 << rng.below(8),
    }
    pieces.concat()
}

/// Up to four lists, one behind the other.
fn joined(rng: &mut Rng, lists: &[Vec<u8>]) -> (Vec<u8>, Vec<u64>) {
    let some = 1 + rng.below(4) as usize;
    let chosen: Vec<&Vec<u8>> =
        (0..some).map(|_| &lists[rng.below(lists.len() as u64) as usize]).collect();
    let lengths = chosen.iter().map(|list| list.len() as u64).collect();
    (chosen.into_iter().flatten().copied().collect(), lengths)
}

#[test]
fn verdicts_are_those_of_the_second_program() {
    let mut rng = Rng::new(9);
    let mut judge = Judge::new();
    let all = lists();
    let (mut wrong_pieces, mut wrong_bytes) = (0, 0);
    for _ in 0..2_000 {
        let (lists, lengths) = joined(&mut rng, &all);
        let file = Lists { lists: &lists, lengths: &lengths, first: FIRST };
        let (block_size, order) = (rng.pick(&BLOCKS), rng.pick(&ORDERS));
        let ours = our_plan(&file, block_size);
        let pieces = ours.len() / PIECE + rng.below(20) as usize;
        let plan = order.plan(cut(&ours, pieces, Spread::Even, &mut rng).expect("enough bytes"));
        let accepted = judge.judge(file, block_size, &plan);
        assert_eq!(accepted, Some(Judged::Accepted));
        assert_eq!(accepted, expected(&file, block_size, &plan));
        let mut spoilt = spoilt(&plan, &mut rng);
        if rng.once_in(4) && spoilt.len() >= PIECE {
            spoilt = self::spoilt(&spoilt, &mut rng);
        }
        let verdict = judge.judge(file, block_size, &spoilt);
        assert_eq!(verdict, expected(&file, block_size, &spoilt), "{order:?}");
        wrong_pieces += u32::from(matches!(verdict, Some(Judged::WrongPiece(_))));
        wrong_bytes += u32::from(matches!(verdict, Some(Judged::WrongByte(_))));
    }
    assert!(wrong_pieces > 500 && wrong_bytes > 500);
}

#[test]
fn refused_lists_get_no_verdict() {
    let mut judge = Judge::new();
    let good = [0; 24];
    let file = |lists, lengths, first| Lists { lists, lengths, first };
    for (file, block_size) in [
        (file(&good, &[], 0), BLOCKS[0]),
        (file(&good, &[24, 1], 0), BLOCKS[0]),
        (file(&good, &[u64::MAX, 25], 0), BLOCKS[0]),
        (file(&good, &[0, 24], u32::MAX), BLOCKS[0]),
        (file(&good, &[1, 23], 0), BLOCKS[0]),
        (file(&good, &[24], 0), 65_537),
        (file(&[0xff; 24], &[0, 24], 0), BLOCKS[0]),
    ] {
        assert_eq!(judge.judge(file, block_size, &[]), None);
        assert_eq!(expected(&file, block_size, &[]), None);
    }
}

/// What is timed gives the same verdicts, here with fewer pieces.
#[test]
fn verdicts_are_seen_to_be_the_same() {
    let mut judge = Judge::new();
    for shape in &SHAPES {
        let lists = shape.lists(20, 3);
        let file = File::new(&lists);
        let mut out = File::buffer(20, BLOCKS[1]);
        let count = file.plan(BLOCKS[1], &mut out).expect("a plan");
        for order in ORDERS {
            let pieces =
                cut(&out[..count], 5_000, Spread::Crowded, &mut Rng::new(1)).expect("enough bytes");
            assert!(same(&file, &order.plan(pieces), &mut judge), "{}, {order:?}", shape.name);
        }
        let longer = cut(&out[..count], 200, Spread::Even, &mut Rng::new(1)).expect("enough bytes");
        assert!(!same(&file, &longer[1..].concat(), &mut judge), "{}", shape.name);
    }
}

#[test]
fn plans_are_cut_into_as_many_pieces_as_are_wanted() {
    let mut rng = Rng::new(10);
    let (lengths, list) = ([0], []);
    let file = Lists { lists: &list, lengths: &lengths, first: FIRST };
    let ours = our_plan(&file, BLOCKS[0]);
    assert_eq!(cut(&ours, 0, Spread::Even, &mut rng), None);
    for wanted in [1, 2, 10_000] {
        let pieces = cut(&ours, wanted, Spread::Even, &mut rng).expect("enough bytes");
        assert_eq!(pieces.len(), wanted);
        let rising = Order::Rising.plan(pieces.clone());
        let reversed = Order::Reversed.plan(pieces.clone());
        assert_eq!(rising, pieces.concat());
        assert_eq!(reversed, pieces.iter().rev().copied().collect::<Vec<_>>().concat());
        let mut shuffled: Vec<PieceBytes> =
            Order::Shuffled.plan(pieces.clone()).as_chunks().0.to_vec();
        assert!(wanted < 10_000 || shuffled != pieces);
        shuffled.sort_unstable_by_key(place);
        assert_eq!(shuffled, pieces);
        assert_eq!(pieces.iter().map(len).sum::<u32>(), CHUNK);
    }
}
