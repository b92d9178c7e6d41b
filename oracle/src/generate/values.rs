//! Questions of the kinds 5, 6, 7 and 9: reading, writing, stored texts and normal images.
//! The paragraph "Value stream" of document 01.

use super::images::image;
use super::misfits::{malform, misfit};
use super::questions::Asking;
use super::trees::{Draw, Tree};
use crate::cases::Case;
use crate::describe::{atomics, type_word};
use crate::frames::MOST;
use crate::judge::Expect;
use crate::model::{Atomic, StructKind, Ty};
use crate::rng::Rng;
use crate::stream::{self, Entry};

/// A type word, a count and an image, as kinds 5, 6 and 9 begin; now and then the image has not the value's
/// length, or no type has the word. Such questions have no counterpart in the original: the document refuses them.
fn start(asking: &mut Asking, ty: Ty, count: u64) -> (Vec<u8>, u16, Option<u8>) {
    let mut image = image(&mut asking.rng, &asking.judge.types, ty, count);
    match asking.rng.below(64) {
        0 => {
            image.push(0);
            (image, type_word(ty), Some(14))
        }
        1 => (image, asking.wrong_word(), Some(15)),
        _ => (image, type_word(ty), None),
    }
}

fn head(word: u16, count: u64) -> Vec<u8> {
    [&word.to_le_bytes()[..], &count.to_le_bytes()].concat()
}

/// The room is the stream's length, larger, or at times one byte less.
pub(crate) fn read(asking: &mut Asking) -> (Vec<u8>, Option<u8>) {
    let (ty, count) = asking.sizes.draw(&mut asking.rng, &asking.judge.types);
    let (image, word, aim) = start(asking, ty, count);
    let length = match aim {
        None => asking.judge.stream(ty, count, &image).map_or(0, |s| s.len()),
        Some(_) => 64,
    };
    let (room, short) = match asking.rng.below(16) {
        0 => (length - 1, Some(16)),
        1..=4 => (length, None),
        5 => (u32::MAX as usize, None),
        _ => (1_048_000, None),
    };
    let body = [head(word, count), (room as u32).to_le_bytes().to_vec(), image].concat();
    (body, aim.or(short))
}

pub(crate) fn normal(asking: &mut Asking) -> (Vec<u8>, Option<u8>) {
    let (ty, count) = asking.sizes.draw(&mut asking.rng, &asking.judge.types);
    let (image, word, aim) = start(asking, ty, count);
    ([head(word, count), image].concat(), aim)
}

/// Any value, and perhaps a refusal to aim at.
fn any_value(asking: &mut Asking) -> (Ty, u64, Option<u8>) {
    let (ty, count) = asking.sizes.draw(&mut asking.rng, &asking.judge.types);
    let aims = [None, None, None, None, Some(18), Some(19), Some(20), Some(21)];
    (ty, count, *asking.rng.pick(&aims))
}

/// An integer or a bit string by itself, half of them out of range, so that each range's ends are met.
fn whole_numbers(rng: &mut Rng) -> (Ty, u64, Option<u8>) {
    let whole: Vec<Atomic> = atomics().filter(|a| a.has_bits()).collect();
    let ty = Ty::Atomic(*rng.pick(&whole));
    (ty, *rng.pick(&[0, 0, 0, 3]), *rng.pick(&[None, Some(19)]))
}

/// A tree, and the refusal aimed at where its fault stands in the tree.
fn drawn(asking: &mut Asking, ty: Ty, count: u64, aim: Option<u8>) -> (Tree, Option<u8>) {
    let late = *asking.rng.pick(&[1, 1, 3, 12]);
    let mut draw = Draw { rng: &mut asking.rng, types: &asking.judge.types, aim, late, done: false };
    let tree = draw.value(ty, count);
    (tree, aim.filter(|_| draw.done))
}

/// The stream of a tree, and the refusal where it was made wrong after the tree.
fn stream_of(asking: &mut Asking, ty: Ty, count: u64, tree: &Tree) -> (Vec<u8>, Option<u8>) {
    let mut entries = Vec::new();
    tree.entries(&mut entries);
    if asking.rng.one_in(24) {
        misfit(&mut asking.rng, &asking.judge.types, ty, count, &mut entries);
        return (stream::encode(&entries), Some(18));
    }
    let mut stream = stream::encode(&entries);
    let malformed = asking.rng.one_in(48) && malform(&mut asking.rng, &mut stream);
    (stream, malformed.then_some(17))
}

/// The tree goes to the port as a stream and to the original as JSON.
pub(crate) fn write(asking: &mut Asking) -> Case {
    let (ty, count, aim) = match asking.rng.one_in(4) {
        true => whole_numbers(&mut asking.rng),
        false => any_value(asking),
    };
    let (image, word, wrong) = start(asking, ty, count);
    let (mut tree, mut aim) = drawn(asking, ty, count, aim);
    let (mut stream, mut wrong_stream) = stream_of(asking, ty, count, &tree);
    // one element too many of a very long value would not go into a frame
    if stream.len() > MOST - 70_000 {
        (tree, aim) = (Tree::Null, None);
        (stream, wrong_stream) = (stream::encode(&[Entry::Null]), None);
    }
    let wrong = wrong.or(wrong_stream);
    let written = match wrong {
        None => asking.judge.encoded(ty, count, &tree.json(), &image),
        Some(_) => None,
    };
    let length = (image.len() as u32).to_le_bytes();
    let question = [&[6], &head(word, count)[..], &length, &image, &stream].concat();
    let expect = written.map_or_else(|| Expect::Refused(image), Expect::Bytes);
    Case { question, expect, aim: wrong.or(aim) }
}

/// Mostly of a string type, where there is one.
pub(crate) fn text(asking: &mut Asking) -> (Vec<u8>, Option<u8>) {
    let defs = &asking.judge.types.defs;
    let small = |i: &usize| defs[*i].kind == StructKind::Str && defs[*i].size <= 65_536;
    let strings: Vec<usize> = (0..defs.len()).filter(small).collect();
    let ty = match strings.is_empty() || asking.rng.one_in(8) {
        true => asking.sizes.draw(&mut asking.rng, &asking.judge.types).0,
        false => Ty::Struct(*asking.rng.pick(&strings)),
    };
    let string = matches!(ty, Ty::Struct(i) if strings.contains(&i));
    let mut image = image(&mut asking.rng, &asking.judge.types, ty, 0);
    let short = asking.rng.one_in(32) && !image.is_empty();
    if short {
        image.pop();
    }
    let aim = if string { short.then_some(14) } else { Some(15) };
    ([&type_word(ty).to_le_bytes()[..], &image].concat(), aim)
}
