//! Makes a proof, prints the verdict, and writes the sheet to the file that is named: `cargo run --example prove [FILE]`.
//!
//! The case of SPECIFICATION 12.4: some s with s·s = -3 + 4X, where X·X = -1, and squared length at most 5. The witness is 1 + 2X.
use lizkarg::{Cut, Draws, Prover, Refused, Sizes, Statement, Verdict, ZDigits};

const SIZES: Sizes = Sizes {
    d: 2,
    n: 1,
    r: 1,
    k: 1,
    l: 0,
    w: 0,
    kappa: 1,
    kappa1: 1,
    kappa2: 1,
    z: ZDigits::Two(4),
    b1: 8,
    b2: 4,
    t1: 2,
    t2: 2,
    bound: 5,
    target: 13,
};

/// How the next instance would cut the opening.
const CUT: Cut = Cut { nu: 1, mu: 1 };

/// The verdict on the proof of this witness, and its sheet.
pub fn prove(witness: &[i32]) -> Result<(Verdict, Vec<u8>), Refused> {
    let statement = Statement {
        sizes: SIZES,
        a_matrix: &[1, 0],
        b_matrix: &[1, 0, 0, 0],
        c_matrix: &[1, 0, 0, 0],
        d_matrix: &[1, 0, 1, 0],
        whole: &[1, 0, 0, 0, -3, 4],
        constant_terms: &[],
    };
    // with no projection rows and no constant-term constraints, nothing is drawn before message 4
    let draws = Draws { alpha: &[1, 0], delta: &[0; 10], c: &[0, 1], ..Draws::default() };
    let mut prover = Prover::new(statement, witness);
    let proof = prover.prove(draws)?;
    Ok((proof.verify()?, proof.write_sheet(CUT)?))
}

pub fn main() -> Result<(), Box<dyn std::error::Error>> {
    let (verdict, sheet) = prove(&[1, 2])?;
    println!("{verdict}");
    if let Some(path) = std::env::args_os().nth(1) {
        std::fs::write(path, sheet)?;
    }
    Ok(())
}
