// The whole case and the first worked values of SPECIFICATION 12, through the C interface.
use lizkarg::Verdict::{Accepted, Failed};
use lizkarg::*;

// without its main, which takes the program's arguments
#[allow(dead_code)]
#[path = "../examples/prove.rs"]
mod prove;

#[test]
fn products() {
    let (x, y) = (Element::new([1, 2]), Element::X);
    assert_eq!(x.multiply(2, x), Ok(Element::new([-3, 4])));
    assert_eq!(y.multiply(2, y), Ok(Element::new([-1])));
    assert_eq!(x.multiply(2, Element::ONE), Ok(x));
    assert_eq!(Element::ZERO.multiply(3, Element::ZERO), Err(Refused(1)));
    assert_eq!(Element::new([0, 0, 1]).multiply(2, Element::ZERO), Err(Refused(8)));
    assert_eq!(Element::new([2147483599]).multiply(2, Element::ZERO), Err(Refused(8)));
    assert_eq!(Element::new([2147483598]).multiply(2, Element::ONE), Ok(Element::new([2147483598])));
}

/// The example makes a proof that is accepted, and its sheet, and one of another witness that is not.
#[test]
fn example() {
    let verdict = |witness: &[i32]| prove::prove(witness).map(|(verdict, _)| verdict);
    assert_eq!(prove::prove(&[1, 2]), Ok((Accepted(0), include_bytes!("../../../examples/whole-case.sheet").to_vec())));
    assert_eq!(verdict(&[2, 1]), Ok(Failed(8)));
    assert_eq!(verdict(&[1, 2, 0]), Err(Refused(7)));
    assert_eq!(verdict(&[i32::MIN, 2]), Err(Refused(8)));
}

const CASE: &str = "2 1 1 1 0 0 1 1 1 4 8 4 2 2 1 1 5 13/1 0/1 0/0 0/1 0/0 0/1 0/1 0/1 0/0 0/-3 4/2 2/0 0/0 0/0 0/0 0/0 0/1 0/0 0/0 0/0 0/0 0/0 0/0 0/0 1/-2 1/0 0/1 2/0 0/1 0/-1 1/0 0/0 0";

fn text(case: &str) -> Vec<u8> {
    let mut text = String::new();
    for line in case.split('/') {
        for field in line.split(' ') {
            text.push_str(&format!("{field:>16}"));
        }
        text.push('\n');
    }
    text.into_bytes()
}

/// The verdict by the reader and the verifier, which is the judge's.
fn verdict(case: &str) -> Result<Verdict, Refused> {
    let answer = Sheet::read(&text(case)).and_then(|sheet| sheet.proof().verify());
    assert_eq!(judge_sheet(&text(case)), answer);
    answer
}

#[test]
fn whole_case() {
    assert_eq!(verdict(CASE), Ok(Accepted(0)));
    assert_eq!(verdict(&CASE.replace("5 13/", "5 12/")), Ok(Failed(9)));
    for (target, margin) in [(14_u64, 1), (20, 7), (269, 256), (4294967309, 4294967296), (999999999999999, 999999999999986)] {
        assert_eq!(verdict(&CASE.replace("5 13/", &format!("5 {target}/"))), Ok(Accepted(margin)));
    }
    assert_eq!(verdict(&CASE.replace("2 1 1 1 0 0", "3 1 1 1 0 0")), Err(Refused(1)));
    assert_eq!(verdict(&CASE.replace("-3 4", "-3 a")), Err(Refused(12)));
}

#[test]
fn words() {
    assert_eq!(verdict(CASE).unwrap().code(), (0, 0));
    let widest = Accepted(999999999999999);
    assert_eq!((widest.code(), widest.margin(), widest.is_accepted()), ((0, 999999999999999), Some(999999999999999), true));
    assert_eq!((Failed(5).code(), Failed(5).margin(), Failed(5).is_accepted()), ((1, 5), None, false));
    assert_eq!(Accepted(7).to_string(), "accepted: all nine checks hold, margin 7");
    assert_eq!(Failed(5).to_string(), "failed: check 5, A z is not the sum of the c_i t_i");
    let error: Box<dyn std::error::Error> = Refused(7).into();
    assert_eq!(error.to_string(), "refused: 7, a list's length is not what the sizes give");
    assert_ne!(Refused(11).reason(), Refused(99).reason());
    assert_eq!(Refused(13).to_string(), "refused: 13, the buffer is shorter than the text");
    assert_eq!(Refused(14).to_string(), "refused: 14, a constraint of the bare level has a nonzero a_ij with i < j");
    assert_eq!(Refused(15).to_string(), "refused: 15, a low digit is more than half its base");
}

/// The command `verdict --words` says the same; but it knows no parts and no turns.
#[test]
fn words_of_the_command() {
    let command = include_str!("../../../verdict");
    let said =
        |sentence: String| command.contains(&format!(") echo '{sentence}' ;;")) || command.contains(&format!(") echo \"{sentence}\" ;;"));
    assert!(said(Accepted(7).to_string().replace("margin 7", "margin $2")));
    for check in 1..=9 {
        assert!(said(Failed(check).to_string()), "{}", Failed(check));
    }
    for row in [1, 2, 3, 4, 5, 6, 8, 9, 10, 12, 15] {
        assert!(said(Refused(row).to_string().replace("L, w or a part or turn number", "L or w")), "{}", Refused(row));
    }
}

/// Row 15: a low digit of z, t, g and h on both sides of half its base, with both signs, and a top digit at the end of the range. The reader, the writer and
/// the next instance take them all.
#[test]
fn low_digits() {
    let sheet = Sheet::read(&text(CASE)).unwrap();
    let (most, opening) = (2147483598, 48);
    for (b, b1, b2) in [(4, 8, 4), (5, 9, 3), (65536, 65535, 65536), (65535, 65536, 65535), (2, 8, 2)] {
        for (block, base) in [b, b1, b2, b1].into_iter().enumerate() {
            let (low, top, half) = (opening + 4 * block, opening + 4 * block + 2, base as i32 / 2);
            for (place, x, wide) in [
                (low, half, false),
                (low + 1, half, false),
                (low, half + 1, true),
                (low + 1, half + 1, true),
                (low + 1, 1 << 30, true),
                (low, most, true),
                (top, half + 1, false),
                (top + 1, most, false),
            ] {
                for x in [x, -x] {
                    let mut changed = sheet.clone();
                    (changed.sizes.z, changed.sizes.b1, changed.sizes.b2) = (ZDigits::Two(b), b1, b2);
                    // bases that make the other digits narrow
                    changed.numbers[opening..].fill(0);
                    changed.numbers[place] = x;
                    let answer = changed.proof().verify();
                    assert_eq!(answer == Err(Refused(15)), wide, "{b} {b1} {b2}, {place}: {x}");
                    assert_eq!(answer.is_err(), wide);
                    let text = changed.write().unwrap();
                    assert_eq!(judge_sheet(&text), answer);
                    assert_eq!(Sheet::read(&text).as_ref(), Ok(&changed));
                    assert!(matches!(changed.proof().next_instance(changed.cut), Ok(Next::Written(_))));
                    changed.numbers[46] = 3;
                    assert_eq!(changed.proof().verify(), Err(Refused(10)));
                }
            }
        }
    }
}

/// Row 7: the slice of 64 numbers has the length that the sizes give.
#[test]
fn length_of_the_slice() {
    let text = text(CASE);
    assert_eq!(sheet_numbers(&text), 64);
    assert_eq!(sheet_numbers(&text[..288]), 0);
    for (length, refused) in [(63, true), (64, false), (65, true)] {
        let mut numbers = vec![77; length];
        assert_eq!(read_sheet(&text, &mut numbers).err(), refused.then_some(Refused(7)));
        assert_eq!(numbers.iter().all(|x| *x == 77), refused);
    }
}

#[test]
fn long_sheet() {
    let mut text = text(CASE);
    text.resize(65537, b' ');
    assert_eq!(judge_sheet(&text), Err(Refused(12)));
    assert_eq!(judge_sheet(&[]), Err(Refused(12)));
}

/// A header alone, of the largest sizes: refused without room for its 87 million numbers.
#[test]
fn header_alone() {
    let text = text("64 256 16 32 32 256 8 8 8 4 8 4 8 8 1 1 5 13");
    assert!(sheet_numbers(&text) > 80_000_000);
    assert_eq!(Sheet::read(&text), Err(Refused(12)));
}

/// Numbers that are too few or too many are refused by 7.
#[test]
fn numbers_of_a_proof() {
    let Sheet { sizes, numbers, .. } = Sheet::read(&text(CASE)).unwrap();
    assert_eq!(Proof::of_numbers(sizes, &numbers).verify(), Ok(Accepted(0)));
    for wrong in [&numbers[1..], &numbers[..63], &[], &[&numbers[..], &[0]].concat()] {
        assert_eq!(Proof::of_numbers(sizes, wrong).verify(), Err(Refused(7)));
    }
}

/// Sizes past their limits are refused by their rows whatever lengths they give.
#[test]
fn huge_sizes() {
    let sheet = Sheet::read(&text(CASE)).unwrap();
    let (huge, sizes) = (usize::MAX, sheet.sizes);
    for (changed, number) in [
        (Sizes { d: huge, ..sizes }, 1),
        (Sizes { n: huge, ..sizes }, 2),
        (Sizes { r: huge, ..sizes }, 2),
        (Sizes { kappa: huge, ..sizes }, 3),
        (Sizes { t1: huge, t2: huge, ..sizes }, 4),
        (Sizes { n: huge, r: huge, k: huge, l: huge, w: huge, ..sizes }, 2),
    ] {
        let proof = Proof { statement: Statement { sizes: changed, ..sheet.proof().statement }, ..sheet.proof() };
        assert_eq!(Prover::new(proof.statement, &[1, 2]).prove(proof.draws).err(), Some(Refused(number)));
        assert_eq!(proof.verify(), Err(Refused(number)));
        assert_eq!(proof.next_instance(sheet.cut), Err(Refused(number)));
        assert_eq!(proof.next_witness(sheet.cut), Err(Refused(number)));
        assert_eq!(proof.write_sheet(sheet.cut), Err(Refused(number)));
        assert_eq!(sheet_bytes(changed, sheet.cut), 0);
    }
    for cut in [Cut { nu: huge, mu: 1 }, Cut { nu: 1, mu: huge }, Cut { nu: 0, mu: 1 }, Cut { nu: 1, mu: 0 }, Cut { nu: 8, mu: 1 }] {
        assert_eq!(sheet.proof().next_instance(cut), Err(Refused(5)));
        assert!(sheet.proof().next_witness(cut).is_err());
        assert_eq!(sheet.proof().write_sheet(cut), Err(Refused(5)));
        assert_eq!(sheet_bytes(sizes, cut), 0);
    }
}

/// A buffer that is too short, one of the text's length, and one of five bytes more, which stay as they are.
#[test]
fn buffers() {
    let (text, sheet) = (text(CASE), Sheet::read(&text(CASE)).unwrap());
    assert_eq!(sheet_bytes(sheet.sizes, sheet.cut), 1345);
    for (length, answer) in [(0, Err(Refused(13))), (1344, Err(Refused(13))), (1345, Ok(1345)), (1350, Ok(1345))] {
        let mut buffer = vec![b'#'; length];
        assert_eq!(write_sheet(sheet.sizes, sheet.cut, &sheet.numbers, &mut buffer), answer);
        let written = answer.unwrap_or(0);
        assert_eq!(buffer[..written], text[..written]);
        assert!(buffer[written..].iter().all(|byte| *byte == b'#'));
    }
}

/// The first row that refuses: sizes, the count of the numbers, the numbers, the buffer.
#[test]
fn refusals_of_the_writer() {
    let Sheet { sizes, cut, numbers } = Sheet::read(&text(CASE)).unwrap();
    let changed = |place: usize, number: i32| [&numbers[..place], &[number], &numbers[place + 1..]].concat();
    let wide = Cut { nu: 8, mu: 1 };
    for (sizes, cut, numbers, number) in [
        (Sizes { d: 3, r: 17, ..sizes }, cut, vec![], 1),
        (Sizes { r: 17, kappa: 0, ..sizes }, cut, vec![], 2),
        (Sizes { kappa: 0, t2: 9, ..sizes }, cut, vec![], 3),
        (Sizes { t2: 9, ..sizes }, wide, vec![], 4),
        (Sizes { bound: 1_000_000_000_000_000, ..sizes }, wide, vec![], 5),
        (Sizes { target: 1_000_000_000_000_000, ..sizes }, cut, vec![], 6),
        (sizes, cut, vec![i32::MIN; 63], 7),
        (sizes, cut, vec![i32::MIN; 65], 7),
        (sizes, cut, changed(46, i32::MIN), 8),
        (sizes, cut, changed(46, 3), 10),
        (sizes, cut, numbers.clone(), 13),
    ] {
        let mut buffer = [b'#'; 1344];
        assert_eq!(write_sheet(sizes, cut, &numbers, &mut buffer), Err(Refused(number)));
        assert_eq!(buffer, [b'#'; 1344]);
        assert_eq!(Sheet { sizes, cut, numbers }.write().err(), (number != 13).then_some(Refused(number)));
    }
}

/// Lists of wrong lengths are no sheet, also where all are as many numbers as its sizes give.
#[test]
fn lists_of_wrong_lengths() {
    let sheet = Sheet::read(&text(CASE)).unwrap();
    let (proof, cut, numbers) = (sheet.proof(), sheet.cut, &sheet.numbers);
    fn shifted(sizes: Sizes, numbers: &[i32]) -> Proof<'_> {
        let proof = Proof::of_numbers(sizes, numbers);
        Proof { statement: Statement { a_matrix: &numbers[..3], b_matrix: &numbers[3..6], ..proof.statement }, ..proof }
    }
    assert_eq!(shifted(sheet.sizes, numbers).write_sheet(cut), Err(Refused(7)));
    assert_eq!(shifted(sheet.sizes, &[i32::MIN; 64]).write_sheet(cut), Err(Refused(7)));
    assert_eq!(shifted(Sizes { bound: u64::MAX, ..sheet.sizes }, numbers).write_sheet(cut), Err(Refused(6)));
    let empty = Proof { messages: Messages { u1: &[], ..proof.messages }, ..proof };
    assert_eq!(empty.write_sheet(cut), Err(Refused(7)));
    assert_eq!(proof.write_sheet(cut), Ok(text(CASE)));
}

/// The largest sizes have a text of more than a thousand million bytes: too few numbers are refused without room for it.
#[test]
fn numbers_of_the_largest_sizes() {
    let Sheet { sizes, cut, numbers } = Sheet::read(&text(CASE)).unwrap();
    let largest = Sizes { d: 64, n: 256, r: 16, k: 32, l: 32, w: 256, kappa: 8, kappa1: 8, kappa2: 8, t1: 8, t2: 8, ..sizes };
    assert!(sheet_bytes(largest, cut) > 1_000_000_000);
    assert_eq!(Sheet { sizes: largest, cut, numbers }.write(), Err(Refused(7)));
}

/// The writer has no limit of 65536 bytes, nor has the reader.
#[test]
fn long_text() {
    let Sheet { sizes, cut, .. } = Sheet::read(&text(CASE)).unwrap();
    let sizes = Sizes { d: 32, n: 16, r: 3, l: 1, w: 2, ..sizes };
    let numbers = sheet_numbers(&text("32 16 3 1 1 2 1 1 1 4 8 4 2 2 1 1 5 13"));
    let sheet = Sheet { sizes, cut, numbers: (0..numbers as i32).map(|number| number % 2).collect() };
    let text = sheet.write().unwrap();
    assert!(text.len() > 65536);
    assert_eq!(judge_sheet(&text), Err(Refused(12)));
    assert_eq!(Sheet::read(&text), Ok(sheet));
}

/// n' = 6, r' = 3, K' = 6: the constraints of the whole case in the order 5, 6, 7, 8, 3, 4, each 25 elements: 6 of a, 18 of φ, b.
#[test]
fn next_instance_of_the_whole_case() {
    let (z_low, z_high, rest, b) = (6, 12, 18, 24);
    let nonzero: [&[(usize, [i32; 2])]; 6] = [
        &[(z_low, [1, 0]), (z_high, [4, 0]), (rest, [0, -1]), (rest + 1, [0, -8])],
        &[(0, [1, 0]), (1, [8, 0]), (3, [16, 0]), (rest + 2, [1, 0]), (rest + 3, [4, 0])],
        &[(rest + 4, [1, 0]), (rest + 5, [8, 0])],
        &[(rest + 2, [1, 0]), (rest + 3, [4, 0]), (rest + 4, [1, 0]), (rest + 5, [8, 0]), (b, [-3, 4])],
        &[(rest, [1, 0]), (rest + 2, [1, 0]), (b, [2, 2])],
        &[(rest + 4, [1, 0]), (rest + 5, [1, 0])],
    ];
    let mut should = vec![0; 6 * 25 * 2];
    for (constraint, all) in nonzero.iter().enumerate() {
        for (place, element) in *all {
            let at = (constraint * 25 + place) * 2;
            should[at..at + 2].copy_from_slice(element);
        }
    }
    let sheet = Sheet::read(&text(CASE)).unwrap();
    let (proof, cut) = (sheet.proof(), sheet.cut);
    let mut out = vec![77; should.len()];
    assert_eq!(proof.write_next_instance(cut, &mut out), Ok(Next::Written(())));
    assert_eq!(out, should);
    assert_eq!(proof.next_instance(cut), Ok(Next::Written(should)));
    // not written: a check fails, the length is not right, ν and μ are out of range
    let old = vec![77; out.len() + 1];
    let mut out = old.clone();
    let bad = Proof { messages: Messages { second_b: &[1, 0, 0, 0, 0, 0, 0, 0, 0, 0], ..proof.messages }, ..proof };
    assert_eq!(bad.write_next_instance(cut, &mut out[1..]), Ok(Next::Failed(2)));
    assert_eq!(bad.next_instance(cut), Ok(Next::Failed(2)));
    assert_eq!(proof.write_next_instance(cut, &mut out), Err(Refused(7)));
    assert_eq!(proof.write_next_instance(Cut { nu: 8, mu: 1 }, &mut out), Err(Refused(5)));
    assert_eq!(proof.write_next_instance(Cut { nu: 1, mu: usize::MAX }, &mut out), Err(Refused(5)));
    assert_eq!(out, old);
}

#[test]
fn parts_of_the_whole_case() {
    let sheet = Sheet::read(&text(CASE)).unwrap();
    let (proof, cut) = (sheet.proof(), sheet.cut);
    let o = proof.messages.opening;
    for (part, chunk) in [(1, &o[..2]), (2, &o[2..4]), (3, &o[4..])] {
        assert_eq!(proof.next_part(cut, part).unwrap().as_ptr_range(), chunk.as_ptr_range());
    }
    assert_eq!(proof.next_witness(cut).unwrap(), [&o[..2], &[0; 10], &o[2..4], &[0; 10], &o[4..]].concat());
    let short = Proof { messages: Messages { opening: &o[1..], ..proof.messages }, ..proof };
    let wide = Cut { nu: 8, ..cut };
    for (proof, cut, part, number) in
        [(proof, cut, 0, 2), (proof, cut, 4, 2), (proof, wide, 17, 5), (proof, wide, 18, 2), (short, cut, 1, 7)]
    {
        assert_eq!(proof.next_part(cut, part), Err(Refused(number)));
        assert!(proof.next_part_or_empty(cut, part).is_empty());
    }
}

/// Two challenges of degree d, all other numbers zero, through every call that takes challenges: they are taken, or refused by 10.
fn through(d: usize, c: &[i32], taken: bool) {
    let header = format!("{d} 1 2 0 0 0 1 1 1 4 4 4 2 2 1 1 0 0");
    let mut numbers = vec![0; sheet_numbers(&text(&header))];
    let at = numbers.len() - 20 * d;
    numbers[at..at + 2 * d].copy_from_slice(c);
    let lines = numbers.chunks(d).map(|line| line.iter().map(i32::to_string).collect::<Vec<_>>().join(" "));
    let text = text(&[header].into_iter().chain(lines).collect::<Vec<_>>().join("/"));
    let sizes = Sizes {
        d,
        n: 1,
        r: 2,
        k: 0,
        l: 0,
        w: 0,
        kappa: 1,
        kappa1: 1,
        kappa2: 1,
        z: ZDigits::Two(4),
        b1: 4,
        b2: 4,
        t1: 2,
        t2: 2,
        bound: 0,
        target: 0,
    };
    let sheet = Sheet { sizes, cut: Cut { nu: 1, mu: 1 }, numbers };
    let (proof, witness) = (sheet.proof(), vec![0; 2 * d]);
    let refused = if taken { Ok(()) } else { Err(Refused(10)) };
    let mut z = vec![77; 2 * d];
    assert_eq!(proof.statement.amortize(&proof.draws, &witness, &mut z), refused);
    assert_eq!(z == vec![77; 2 * d], !taken);
    assert_eq!(Prover::new(proof.statement, &witness).prove(proof.draws), refused.map(|()| proof));
    assert_eq!(proof.verify(), refused.map(|()| Accepted(0)));
    assert_eq!(judge_sheet(&text), refused.map(|()| Accepted(0)));
    assert_eq!(proof.next_instance(sheet.cut).map(|next| assert!(matches!(next, Next::Written(_)))), refused);
    assert_eq!(Sheet::read(&text), refused.map(|()| sheet.clone()));
    assert_eq!(sheet.write(), refused.map(|()| text.clone()));
    assert_eq!(proof.write_sheet(sheet.cut), refused.map(|()| text));
}

/// So many coefficients 2 or -2, then 1 or -1, then 0.
fn counted(d: usize, ones: usize, twos: usize) -> Vec<i32> {
    let size = |at: usize| if at < twos { 2 } else { (at < twos + ones) as i32 };
    (0..d).map(|at| if at % 2 == 0 { size(at) } else { -size(at) }).collect()
}

/// At degree 64 by their counts, at degree 32 by their squared length; a wrong one as the first and as the last.
#[test]
fn challenges() {
    let drawn = counted(64, 31, 10);
    through(64, &[&drawn[..], &drawn].concat(), true);
    for (ones, twos) in [(30, 10), (32, 10), (31, 9), (31, 11), (32, 9), (30, 11), (35, 9), (27, 11), (19, 13), (3, 17), (0, 0)] {
        let wrong = counted(64, ones, twos);
        through(64, &[&drawn[..], &wrong].concat(), false);
        through(64, &[&wrong[..], &drawn].concat(), false);
    }
    let three = [&[3], &drawn[1..]].concat();
    through(64, &[drawn, three].concat(), false);
    for (ones, twos, taken) in [(3, 17, true), (0, 18, false), (0, 0, true), (32, 0, true)] {
        through(32, &[counted(32, ones, twos), counted(32, 0, 0)].concat(), taken);
    }
}

/// The whole case with z in one digit: z is -2+X as it is, so that the opening is that of two digits without z high.
fn one_digit(sheet: &Sheet) -> (Sizes, Vec<i32>) {
    (Sizes { z: ZDigits::One, ..sheet.sizes }, [&sheet.numbers[..50], &sheet.numbers[52..]].concat())
}

/// Message 5, the verdict and its margin, the lengths; two digits do not take the numbers of one, nor one those of two.
#[test]
fn whole_case_in_one_digit() {
    let sheet = Sheet::read(&text(CASE)).unwrap();
    let (sizes, numbers) = one_digit(&sheet);
    let proof = Proof::of_numbers(sizes, &numbers);
    assert_eq!((sizes.lengths().z, sizes.lengths().opening, sheet.sizes.lengths().z), (2, 14, 4));
    assert_eq!(proof.messages.opening, [-2, 1, 1, 2, 0, 0, 1, 0, -1, 1, 0, 0, 0, 0]);
    assert_eq!(Prover::new(proof.statement, &[1, 2]).prove(proof.draws), Ok(proof));
    assert_eq!(proof.verify(), Ok(Accepted(0)));
    for (target, answer) in [(12, Failed(9)), (20, Accepted(7)), (999999999999999, Accepted(999999999999986))] {
        assert_eq!(Proof::of_numbers(Sizes { target, ..sizes }, &numbers).verify(), Ok(answer));
    }
    for (sizes, numbers) in [(sizes, &sheet.numbers), (sheet.sizes, &numbers)] {
        assert_eq!(Proof::of_numbers(sizes, numbers).verify(), Err(Refused(7)));
    }
    for (z, length, number) in [(ZDigits::One, 4, 7), (ZDigits::One, 0, 7), (ZDigits::Two(4), 2, 7), (ZDigits::Two(1), 4, 4)] {
        let statement = Statement { sizes: Sizes { z, ..sizes }, ..proof.statement };
        let mut out = vec![77; length];
        assert_eq!(statement.amortize(&proof.draws, &[1, 2], &mut out), Err(Refused(number)));
        assert!(out.iter().all(|x| *x == 77));
    }
    assert_eq!((ZDigits::One.base(), ZDigits::Two(4).base(), ZDigits::One.count(), ZDigits::Two(0).count()), (None, Some(4), 1, 2));
}

/// z is free in its one digit; the low digits of t, g and h are not.
#[test]
fn low_digits_in_one_digit() {
    let (sizes, numbers) = one_digit(&Sheet::read(&text(CASE)).unwrap());
    for (place, x, wide) in
        [(48, 2147483598, false), (49, -1000, false), (50, 4, false), (50, 5, true), (54, -3, true), (58, 5, true), (56, 1000, false)]
    {
        let mut changed = numbers.clone();
        changed[place] = x;
        assert_eq!(Proof::of_numbers(sizes, &changed).verify() == Err(Refused(15)), wide, "{place}: {x}");
    }
}

/// r' = 2: a chunk of z with itself has a = 1 in check 6, and no mixed product stands anywhere.
#[test]
fn next_instance_in_one_digit() {
    let (sizes, numbers) = one_digit(&Sheet::read(&text(CASE)).unwrap());
    let proof = Proof::of_numbers(sizes, &numbers);
    let (cut, z, rest, b) = (Cut { nu: 1, mu: 1 }, 3, 9, 15);
    let nonzero: [&[(usize, [i32; 2])]; 6] = [
        &[(z, [1, 0]), (rest, [0, -1]), (rest + 1, [0, -8])],
        &[(0, [1, 0]), (rest + 2, [1, 0]), (rest + 3, [4, 0])],
        &[(rest + 4, [1, 0]), (rest + 5, [8, 0])],
        &[(rest + 2, [1, 0]), (rest + 3, [4, 0]), (rest + 4, [1, 0]), (rest + 5, [8, 0]), (b, [-3, 4])],
        &[(rest, [1, 0]), (rest + 2, [1, 0]), (b, [2, 2])],
        &[(rest + 4, [1, 0]), (rest + 5, [1, 0])],
    ];
    let mut should = vec![0; 6 * 16 * 2];
    for (constraint, all) in nonzero.iter().enumerate() {
        for (place, element) in *all {
            should[(constraint * 16 + place) * 2..][..2].copy_from_slice(element);
        }
    }
    let after = sizes.next(cut);
    assert_eq!((after.n, after.r, after.k, after.whole), (6, 2, 6, should.len()));
    assert_eq!(proof.next_instance(cut), Ok(Next::Written(should)));
    let o = proof.messages.opening;
    assert_eq!(proof.next_witness(cut).unwrap(), [&o[..2], &[0; 10], &o[2..]].concat());
    for (nu, mu, refused) in [(9, 7, false), (15, 1, false), (16, 1, true), (9, 8, true), (0, 1, true), (usize::MAX, 1, true)] {
        let answer = proof.next_instance(Cut { nu, mu });
        assert_eq!(answer.is_err(), refused, "{nu} {mu}");
        assert_eq!(answer == Err(Refused(5)), refused);
    }
    let wide = Cut { nu: 8, mu: 1 };
    assert_eq!(proof.next_part(wide, 9), Ok(&o[2..]));
    assert_eq!((proof.next_part(wide, 8), proof.next_part(wide, 10)), (Ok(&o[..0]), Err(Refused(2))));
    assert_eq!(
        (proof.next_part(Cut { nu: 16, mu: 1 }, 17), proof.next_part(Cut { nu: 16, mu: 1 }, 18)),
        (Err(Refused(5)), Err(Refused(2)))
    );
}

/// ν·n' = n, up to r' = 16; past row 5 no cut is full. Here m = 6.
#[test]
fn full_chunks() {
    let (half, most) = (1 << (usize::BITS - 1), usize::MAX);
    let small = [(3, 1), (5, 6), (12, 6), (0, 0), (0, 1), (0, 6), (1, 0), (2, 0), (12, 0)];
    let huge = [(1, most), (1, most - 1), (12, most), (0, most), (half, 1), (half, 2), (half, half), (half + 1, most)];
    let huge = huge.into_iter().chain([(most, 0), (most, 1), (most, 2), (most, 3), (most, most)]);
    for (z, full, other) in [
        (ZDigits::One, [(1, 15), (6, 10)], [(12, 4), (1, 16), (2, 15), (6, 11)]),
        (ZDigits::Two(4), [(1, 14), (6, 4)], [(7, 2), (1, 15), (2, 13), (6, 5)]),
    ] {
        let (d, n, r, k, l, w, kappa, kappa1, kappa2, b1, b2, t1, t2, bound, target) = (2, 12, 1, 1, 0, 0, 1, 1, 1, 8, 4, 2, 2, 5, 13);
        let sizes = Sizes { d, n, r, k, l, w, kappa, kappa1, kappa2, z, b1, b2, t1, t2, bound, target };
        for (nu, mu) in [(1, 1), (2, 1), (3, 2), (4, 2), (6, 3)].into_iter().chain(full) {
            assert!(sizes.has_full_chunks(Cut { nu, mu }), "{z:?} {nu} {mu}");
        }
        for (nu, mu) in small.into_iter().chain(huge.clone()).chain(other) {
            assert!(!sizes.has_full_chunks(Cut { nu, mu }), "{z:?} {nu} {mu}");
        }
    }
}

/// A sheet has two z digits.
#[test]
fn no_sheet_of_one_digit() {
    let sheet = Sheet::read(&text(CASE)).unwrap();
    let (sizes, numbers) = one_digit(&sheet);
    let mut buffer = [b'#'; 2000];
    for numbers in [&numbers, &sheet.numbers] {
        assert_eq!(write_sheet(sizes, sheet.cut, numbers, &mut buffer), Err(Refused(4)));
    }
    assert_eq!(buffer, [b'#'; 2000]);
    assert_eq!(sheet_bytes(sizes, sheet.cut), 0);
    assert_eq!(Proof::of_numbers(sizes, &numbers).write_sheet(sheet.cut), Err(Refused(4)));
}
