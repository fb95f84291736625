//! Random cases: valid, damaged, refused.
use crate::answer::Answer::{self, Judged, Refused, Written};
use crate::bare;
use crate::calls::*;
use crate::case::{self, Lists, MOST};
use crate::next_calls::*;
use crate::random::Random;
use lizkarg::Element;
use lizkarg::Verdict::{Accepted, Failed};
use plain::lists::{Room, Sizes, LISTS, SIZES};
use plain::{next, refusals, ring, sheet};

/// A value near a limit, or any.
pub fn odd_size(rng: &mut Random) -> u64 {
    match rng.below(8) {
        0 => 999999999999999,
        1 => 1000000000000000,
        2 => u64::MAX - rng.below(3) as u64,
        3 => 1 << rng.below(64),
        _ => rng.pick(&[0, 1, 2, 3, 4, 5, 8, 9, 15, 16, 17, 31, 32, 33, 63, 64, 65, 256, 257, 65535, 65536, 65537]),
    }
}

fn odd_number(rng: &mut Random) -> i32 {
    match rng.below(4) {
        0 => rng.pick(&[MOST + 1, -MOST - 1, i32::MAX, i32::MIN, MOST, -MOST]),
        1 => rng.signed(3),
        _ => rng.signed(MOST),
    }
}

/// Another size; or z in one digit in place of two, and the other way round.
fn damage_size(rng: &mut Random, s: &mut Sizes) {
    let (mut header, one_digit, at) = (s.header(), s.one_digit, rng.below(SIZES + 1));
    if at < SIZES {
        header[at] = odd_size(rng);
    }
    *s = Sizes { one_digit: one_digit != (at == SIZES), ..Sizes::from_header(header) };
}

pub fn damage_list(rng: &mut Random, l: &mut Lists) {
    let list = l.each_mut().into_iter().nth(rng.below(LISTS)).unwrap();
    match rng.below(8) {
        0 => list.push(0),
        1 => drop(list.pop()),
        _ if list.is_empty() => (),
        _ => {
            let at = rng.below(list.len());
            list[at] = odd_number(rng);
        }
    }
}

/// A digit of the opening, mostly a low one: at half its base, one more, a base, or far out, with either sign. Or other digits of the same value, of which a
/// low one is wide, the commitments formed anew: all checks hold but perhaps check 9.
fn damage_digit(rng: &mut Random, s: &Sizes, l: &mut Lists) {
    let block = rng.pick(&s.blocks());
    let value = rng.below(block.values);
    let (low, top) = block.places().nth(value).unwrap();
    if low.is_empty() {
        // z in one digit
        l.opening[top.start + rng.below(top.len())] = odd_number(rng);
        return;
    }
    let low_at = low.start + rng.below(low.len());
    let (half, base) = ((block.base / 2) as i32, block.base as i32);
    if rng.once_in(3) {
        let sign = if l.opening[low_at] >= 0 { 1 } else { -1 };
        let next = l.opening[low_at + block.width] - sign;
        if next.abs() <= MOST {
            l.opening[low_at] += sign * base;
            l.opening[low_at + block.width] = next;
            commit_anew(s, l);
        }
        return;
    }
    let at = if rng.once_in(4) { top.start + rng.below(top.len()) } else { low_at };
    let size = rng.pick(&[half, half, half + 1, half + 1, (base + 1) / 2, base, 2 * half + 1, 1 << 30, MOST]);
    l.opening[at] = rng.pick(&[size, -size]);
    if rng.once_in(2) {
        commit_anew(s, l);
    }
}

fn damage_room(rng: &mut Random, room: &mut Room) {
    let each = [
        &mut room.z, &mut room.t, &mut room.g, &mut room.h, &mut room.u1, &mut room.p, &mut room.second_b, &mut room.u2,
    ];
    let length = each.into_iter().nth(rng.below(8)).unwrap();
    *length = if rng.once_in(2) { *length + 1 } else { length.saturating_sub(1) };
}

fn all_calls(tally: &mut Tally, case: &Case, room: &Room) -> Answer {
    let _ = commit(tally, case, room);
    let _ = project(tally, case, room);
    let _ = aggregate(tally, case, room);
    let _ = commit_garbage(tally, case, room);
    let _ = amortize(tally, case, room);
    verify(tally, case)
}

fn products(tally: &mut Tally, rng: &mut Random) {
    let d = if rng.once_in(8) { odd_size(rng) as usize } else { 2 << rng.below(6) };
    let mut draw = || {
        let mut e = Element::ZERO;
        e.coefficients[..d.min(64)].fill_with(|| rng.signed(MOST));
        if rng.once_in(8) {
            e.coefficients[rng.below(64)] = odd_number(rng);
        }
        e
    };
    let (x, y) = (draw(), draw());
    let bad = |e: &Element| e.coefficients.iter().enumerate().any(|(i, v)| (*v as i64).abs() > ring::MOST || i >= d && *v != 0);
    let answer = x.multiply(d, y).map_err(|refused| refused.0);
    let should = if ![2, 4, 8, 16, 32, 64].contains(&d) {
        Err(1)
    } else if bad(&x) || bad(&y) {
        Err(8)
    } else {
        let [x, y] = [x, y].map(|e| ring::elements(d, &e.coefficients[..d]).remove(0));
        let mut product = Element::ZERO;
        product.coefficients[..d].copy_from_slice(&ring::flat(&[ring::mul(&x, &y)]));
        Ok(product)
    };
    assert_eq!(answer, should, "multiply at degree {d}");
    tally.count("multiply", answer.map_or_else(Refused, |_| Written));
}

/// The verdict on a sheet.
pub fn judge(tally: &mut Tally, text: &[u8]) -> Answer {
    let answer = lizkarg::judge_sheet(text).into();
    tally.count("judge_sheet", answer);
    let should = match sheet::judged(text) {
        Ok((s, l)) => plain_verify(&Case::new(&s, &l)),
        Err(number) => Refused(number),
    };
    assert_eq!(answer, should, "judge_sheet: {}", String::from_utf8_lossy(text));
    answer
}

/// A text read into a slice of some length.
pub fn read(tally: &mut Tally, text: &[u8], length: usize) {
    let should = sheet::read(text, Some(length));
    let mut header = None;
    let run = |[numbers]: [&mut [i32]; 1]| lizkarg::read_sheet(text, numbers).map(|read| header = Some(read));
    let refusal = should.as_ref().map(|_| ()).map_err(|number| *number);
    let _ = written(tally, "read_sheet", refusal, [length], run, || Ok([should.clone().unwrap().1]));
    assert_eq!(header, should.ok().map(|(s, _)| (sizes(&s), cut(&s))), "read_sheet");
}

/// A sheet written into a buffer of `room` bytes that hold `fill`: the answer, and every byte afterwards. The text, where there is one.
fn write(tally: &mut Tally, s: &Sizes, numbers: &[i32], room: usize, fill: u8) -> Option<Vec<u8>> {
    let (mut text, mut should_text) = (vec![fill; room], vec![fill; room]);
    let answer = lizkarg::write_sheet(sizes(s), cut(s), numbers, &mut text).map_err(|refused| refused.0);
    let should = sheet::write_into(s, numbers, &mut should_text);
    assert_eq!(answer, should, "write_sheet: {s:?}");
    assert!(text == should_text, "write_sheet: texts differ, {s:?}");
    tally.count("write_sheet", answer.map_or_else(Refused, |_| Written));
    text.truncate(answer.ok()?);
    Some(text)
}

/// The numbers of a case, as a sheet: written into buffers of one byte less than its text has, of as many, and of more; what was written is read back.
pub fn writes(tally: &mut Tally, rng: &mut Random, s: &Sizes, l: &Lists) {
    let own = lizkarg::Sheet { sizes: sizes(s), cut: cut(s), numbers: l.in_sheet_order() };
    let length = lizkarg::sheet_bytes(own.sizes, own.cut);
    assert_eq!(length, sheet::bytes_of(s), "sheet_bytes: {s:?}");
    // sizes that give other numbers may have a text of a billion bytes: no text of these numbers is longer than this
    let most = 289 + 17 * own.numbers.len();
    let (exact, more) = (length.min(most), rng.between(1, 40));
    let mut written = |room| write(tally, s, &own.numbers, room, rng.next() as u8);
    let texts = [written(exact.saturating_sub(1)), written(exact), written(exact + more)];
    let text = own.write();
    for text in texts.into_iter().flatten().chain(text.clone()) {
        assert_eq!(text.len(), length, "write_sheet");
        assert!(lizkarg::Sheet::read(&text).as_ref() == Ok(&own), "write_sheet: read back, the numbers differ");
    }
    // its own buffer is never too short
    let should = sheet::write_into(s, &own.numbers, &mut vec![0; exact]);
    assert_eq!(text.map(|text| text.len()).map_err(|refused| refused.0), should, "Sheet::write");
}

/// A sheet with a fault in its text, or none.
fn damage_text(rng: &mut Random, text: &mut Vec<u8>) {
    let at = rng.below(text.len());
    match rng.below(10) {
        0..=2 => (),
        3 => drop(text.pop()),
        4 => text.push(rng.pick(b" \n0")),
        5 => drop(text.remove(at)),
        6 => text.insert(at, rng.pick(b" -0\n")),
        7 => {
            // a header field
            let v = (odd_size(rng) % 10_000_000_000_000_000) as i64 * if rng.once_in(4) { -1 } else { 1 };
            let field = sheet::field(v);
            let from = rng.below(SIZES) * 16;
            text[from..from + 16].copy_from_slice(&field[field.len() - 16..]);
        }
        8 => {
            // a field after the header
            let ends: Vec<usize> = (289..text.len() - 16).filter(|at| text[at + 15..at + 17].iter().all(|c| *c != b' ')).collect();
            if !ends.is_empty() {
                let from = rng.pick(&ends);
                let field = sheet::field(odd_number(rng));
                if text[from..from + 16].iter().all(|c| *c != b'\n') {
                    text[from..from + 16].copy_from_slice(&field);
                }
            }
        }
        _ => text[at] = rng.pick(b" -+0123456789a\n\r"),
    }
}

/// The sheet of a case, whole or damaged, judged, and read into slices of one number less, as many as its header gives, and one more. With one z digit there is
/// none.
fn sheets(tally: &mut Tally, rng: &mut Random, s: &Sizes, l: &Lists) {
    if s.one_digit {
        return;
    }
    let mut text = sheet::write(s, l);
    if let Ok(read) = lizkarg::Sheet::read(&text) {
        assert!(read.proof() == proof(s, l), "Sheet::proof");
    }
    damage_text(rng, &mut text);
    judge(tally, &text);
    let count = lizkarg::sheet_numbers(&text);
    assert_eq!(count, sheet::count(&text), "sheet_numbers: {}", String::from_utf8_lossy(&text));
    let read_whole = lizkarg::Sheet::read(&text);
    if let Ok(read) = &read_whole {
        assert!(read.write().as_ref() == Ok(&text), "Sheet::write: {}", String::from_utf8_lossy(&text));
    }
    let read_whole = read_whole.map(|read| (read.sizes, read.cut, read.numbers)).map_err(|refused| refused.0);
    assert_eq!(read_whole, sheet::read(&text, None).map(|(s, numbers)| (sizes(&s), cut(&s), numbers)), "Sheet::read");
    // a damaged header may give millions of numbers, and then the other lines are broken
    for length in [count.saturating_sub(1), count, count + 1, l.in_sheet_order().len()] {
        read(tally, &text, length.min(1 << 20));
    }
}

/// The sheet of a damaged case, where its lists still have the lengths that its sizes give and its sizes have 16 digits.
fn sheets_of_damaged(tally: &mut Tally, rng: &mut Random, s: &Sizes, l: &Lists) {
    let sized = l.each()[..LISTS - 1].iter().map(|list| list.len()).eq(s.lengths().each()[..LISTS - 1].iter().map(|length| **length));
    if sized && s.header().iter().all(|v| *v < 10_000_000_000_000_000) {
        sheets(tally, rng, s, l);
    }
}

/// The next instance: accepted exactly if the padded opening solves it (the bound apart, which is check 9) and its low digits are narrow; a wide one that is
/// refused by 15 may solve it, exactly if the checks hold. `answer` is the verifier's.
fn next_of(tally: &mut Tally, rng: &mut Random, case: &Case, answer: Answer) {
    let (s, l) = (case.s, case.l);
    parts(tally, s, &l.opening);
    let room = instance_room(s);
    assert_eq!(room, sizes(s).next(cut(s)).whole, "next: {s:?}");
    if room > 10_000_000 {
        return;
    }
    let Some(written) = next_instance(tally, case, room + rng.once_in(8) as usize) else { return };
    let after = next::sizes(s);
    let solved = next::meets(&after, &written, &next::witness(s, &l.opening));
    let judgement = if answer == Refused(15) { plain_judgement(case) } else { answer };
    assert_eq!(solved, matches!(judgement, Judged(Accepted(_) | Failed(9))), "next instance");
    let free = case::small(rng);
    if rng.once_in(4) && after.r * after.n * after.d * (after.k + free.w) < 200_000 {
        let least = rng.once_in(2);
        second_fold(tally, rng, case, written, &free, least, solved);
    }
}

/// The next instance, cut anew, now and then with ν or μ out of their limits. The slice is as long as the sizes say that were not damaged.
fn refused_next(tally: &mut Tally, rng: &mut Random, undamaged: &Sizes, s: &Sizes, l: &Lists) {
    let (mut nu, mut mu) = case::chunks(rng, s.one_digit);
    let room = instance_room(&Sizes { nu, mu, ..*undamaged }).min(10_000_000);
    match rng.below(8) {
        0 => nu = odd_size(rng) as usize,
        1 => mu = odd_size(rng) as usize,
        _ => (),
    }
    let s = Sizes { nu, mu, ..*s };
    next_instance(tally, &Case::new(&s, l), room);
    parts(tally, &s, &l.opening);
}

/// A random statement: one honest fold and three damaged ones.
fn statement(tally: &mut Tally, seed: u64, number: u64, sizes: fn(&mut Random) -> Sizes) {
    let mut rng = Random::new(seed.wrapping_mul(0x100000001b3).wrapping_add(number));
    let s = sizes(&mut rng);
    lengths(&s);
    let short = rng.once_in(2);
    let mut l = case::random(&mut rng, &s, short);
    let second = fold(tally, &s, &mut l);
    let case = Case::formed(&s, &l, second);
    let answer = verify(tally, &case);
    assert!(matches!(answer, Judged(Accepted(_) | Failed(1 | 9))), "case {number}: an honest fold is {answer:?}");
    next_of(tally, &mut rng, &case, answer);
    refused_next(tally, &mut rng, &s, &s, &l);
    sheets(tally, &mut rng, &s, &l);
    writes(tally, &mut rng, &s, &l);
    products(tally, &mut rng);
    for _ in 0..3 {
        damaged(tally, &mut rng, s, l.clone());
    }
    bare::levels(tally, &mut rng, &s);
    if rng.once_in(4) {
        bare::chain(tally, &mut rng);
    }
}

/// A fold with a size, a list, a length or a digit damaged, through all calls.
fn damaged(tally: &mut Tally, rng: &mut Random, undamaged: Sizes, mut l: Lists) {
    let (mut s, mut room) = (undamaged, undamaged.room());
    match rng.below(11) {
        0 => damage_size(rng, &mut s),
        1 => damage_room(rng, &mut room),
        8..=10 => damage_digit(rng, &s, &mut l),
        2 => {
            damage_list(rng, &mut l);
            damage_list(rng, &mut l);
        }
        3 => {
            damage_size(rng, &mut s);
            damage_list(rng, &mut l);
        }
        _ => damage_list(rng, &mut l),
    }
    lengths(&s);
    let case = Case::new(&s, &l);
    let answer = all_calls(tally, &case, &room);
    match answer {
        Judged(_) | Refused(15) if refusals::sizes(&s, true).is_ok() => next_of(tally, rng, &case, answer),
        _ => refused_next(tally, rng, &undamaged, &s, &l),
    }
    sheets_of_damaged(tally, rng, &s, &l);
    writes(tally, rng, &s, &l);
}

/// `count` statements, shared out among the processors. The same seed and number give the same statement whatever their number.
pub fn run(tally: &mut Tally, seed: u64, count: u64, sizes: fn(&mut Random) -> Sizes) {
    let threads = std::thread::available_parallelism().map_or(1, |n| n.get() as u64);
    let work = |first: u64| {
        let mut own = Tally::default();
        for number in (first..count).step_by(threads as usize) {
            statement(&mut own, seed, number, sizes);
            if number % 100000 == 99999 {
                println!("statement {}", number + 1);
            }
        }
        own
    };
    std::thread::scope(|scope| {
        let running: Vec<_> = (0..threads).map(|first| scope.spawn(move || work(first))).collect();
        for thread in running {
            match thread.join() {
                Ok(own) => tally.add(&own),
                Err(difference) => std::panic::resume_unwind(difference),
            }
        }
    });
}
