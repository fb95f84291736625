// The messages, the verifier, the next instance and the writer of sheets on the stored cases of bindings/c/tests: each number and each text that a call
// writes is the second implementation's.
use lizkarg::Verdict::{Accepted, Failed};
use lizkarg::*;
use std::path::Path;

fn file(name: &str) -> Vec<u8> {
    std::fs::read(Path::new(env!("CARGO_MANIFEST_DIR")).join("../c/tests").join(name)).unwrap()
}

fn numbers(name: &str) -> Vec<i32> {
    String::from_utf8(file(name)).unwrap().split_whitespace().map(|word| word.parse().unwrap()).collect()
}

/// A message is not refused and writes `should`.
fn writes<const N: usize>(should: [&[i32]; N], call: impl Fn([&mut [i32]; N]) -> Result<(), Refused>) {
    let mut out = should.map(|list| vec![77; list.len()]);
    assert_eq!(call(out.each_mut().map(|list| &mut list[..])), Ok(()));
    assert_eq!(out.each_ref().map(|list| &list[..]), should);
}

fn with_sizes<'a>(proof: &Proof<'a>, sizes: Sizes) -> Proof<'a> {
    Proof { statement: Statement { sizes, ..proof.statement }, ..*proof }
}

fn run(name: &str) {
    let (text, more) = (file(&format!("{name}.sheet")), numbers(&format!("{name}.more")));
    let sheet = Sheet::read(&text).unwrap();
    let (proof, sizes, cut) = (sheet.proof(), sheet.sizes, sheet.cut);
    let Proof { statement, draws, messages } = &proof;
    let (lengths, after) = (sizes.lengths(), sizes.next(cut));
    let (witness, more) = more.split_at(lengths.witness);
    let (places, next) = more.split_at(2 * after.r);
    let (z, rest) = messages.opening.split_at(lengths.z);
    let (t, rest) = rest.split_at(lengths.t);
    let (g, h) = rest.split_at(lengths.g);

    writes([t, g, messages.u1], |[t, g, u1]| statement.commit(witness, t, g, u1));
    writes([messages.p], |[p]| statement.project(draws, witness, p));
    writes([messages.second_b], |[second_b]| statement.aggregate(draws, witness, second_b));
    writes([h, messages.u2], |[h, u2]| statement.commit_garbage(draws, witness, h, u2));
    writes([z], |[z]| statement.amortize(draws, witness, z));
    assert_eq!(Prover::new(*statement, witness).prove(*draws), Ok(proof));

    assert_eq!(proof.verify(), Ok(Accepted(0)));
    assert_eq!(with_sizes(&proof, Sizes { target: sizes.target - 1, ..sizes }).verify(), Ok(Failed(9)));
    assert_eq!(with_sizes(&proof, Sizes { target: sizes.target + 1, ..sizes }).verify(), Ok(Accepted(1)));
    let widest = 999999999999999;
    assert_eq!(with_sizes(&proof, Sizes { target: widest, ..sizes }).verify(), Ok(Accepted(widest - sizes.target)));
    assert_eq!(with_sizes(&proof, Sizes { b2: 1, ..sizes }).verify(), Err(Refused(4)));

    let opening = messages.opening;
    for (part, place) in places.chunks(2).enumerate() {
        let (start, length) = (place[0] as usize, place[1] as usize);
        assert_eq!(proof.next_part(cut, part + 1).unwrap().as_ptr_range(), opening[start..start + length].as_ptr_range());
    }
    assert_eq!(next.len(), after.whole);
    assert_eq!(proof.next_instance(cut), Ok(Next::Written(next.to_vec())));
    assert_eq!((sheet.write().as_ref(), proof.write_sheet(cut).as_ref()), (Ok(&text), Ok(&text)));
    assert_eq!(sheet_bytes(sizes, cut), text.len());
    writes([next], |[out]| proof.write_next_instance(cut, out).map(|answer| assert_eq!(answer, Next::Written(()))));
    one_digit(name, &proof, witness, cut);
}

/// The same fold with z in one digit: NAME.one.
fn one_digit(name: &str, two: &Proof, witness: &[i32], cut: Cut) {
    let words = String::from_utf8(file(&format!("{name}.one"))).unwrap();
    let (target, rest) = words.split_once('\n').unwrap();
    let sizes = Sizes { z: ZDigits::One, target: target.parse().unwrap(), ..two.statement.sizes };
    let rest: Vec<i32> = rest.split_whitespace().map(|word| word.parse().unwrap()).collect();
    let (z, rest) = rest.split_at(sizes.lengths().z);
    let (places, next) = rest.split_at(2 * sizes.next(cut).r);
    let opening = [z, &two.messages.opening[2 * z.len()..]].concat();
    let statement = Statement { sizes, ..two.statement };
    let proof = Proof { statement, messages: Messages { opening: &opening, ..two.messages }, ..*two };
    writes([z], |[z]| statement.amortize(&two.draws, witness, z));
    assert_eq!(Prover::new(statement, witness).prove(two.draws), Ok(proof));
    assert_eq!(proof.verify(), Ok(Accepted(0)));
    assert_eq!(with_sizes(&proof, Sizes { target: sizes.target - 1, ..sizes }).verify(), Ok(Failed(9)));
    assert_eq!(with_sizes(&proof, Sizes { target: sizes.target + 1, ..sizes }).verify(), Ok(Accepted(1)));
    assert_eq!(with_sizes(&proof, two.statement.sizes).verify(), Err(Refused(7)));
    for (part, place) in places.chunks(2).enumerate() {
        let (start, length) = (place[0] as usize, place[1] as usize);
        assert_eq!(proof.next_part(cut, part + 1).unwrap().as_ptr_range(), opening[start..start + length].as_ptr_range());
    }
    assert_eq!(proof.next_part(cut, places.len() / 2 + 1), Err(Refused(2)));
    assert_eq!(proof.next_instance(cut), Ok(Next::Written(next.to_vec())));
}

#[test]
fn lists_of_the_same_lengths() {
    run("alike");
}

#[test]
fn sizes_apart() {
    run("apart");
}

#[test]
fn empty_lists() {
    run("empty");
}

/// Each sheet of examples/ that can be read is written again byte for byte.
#[test]
fn examples() {
    let mut written = 0;
    for entry in std::fs::read_dir(Path::new(env!("CARGO_MANIFEST_DIR")).join("../../examples")).unwrap() {
        let text = std::fs::read(entry.unwrap().path()).unwrap();
        if let Ok(sheet) = Sheet::read(&text) {
            assert_eq!(sheet.write().as_ref(), Ok(&text));
            assert_eq!(sheet.proof().write_sheet(sheet.cut), Ok(text));
            written += 1;
        }
    }
    assert_eq!(written, 13);
}
