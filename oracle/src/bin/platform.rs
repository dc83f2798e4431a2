//! How often the platform's exp, ln and erfc have other bits than document 01's, and by how many last places at most.
//!     cargo run --release --offline --bin platform [values of each]
use oracle::random::Random;
use oracle::reference::{erfc, Document01};

mod c {
    extern "C" {
        pub fn erfc(x: f64) -> f64;
    }
}

fn apart(x: f64, y: f64) -> u64 {
    x.to_bits().abs_diff(y.to_bits())
}

fn main() {
    let n = std::env::args().nth(1).map_or(1_000_000, |n| n.parse::<u64>().expect("a number of values"));
    let mut random = Random(1);
    let mut count = |name: &str, lo: f64, hi: f64, both: &dyn Fn(f64) -> (f64, f64)| {
        let (mut other, mut most) = (0, 0);
        for _ in 0..n {
            let (ours, theirs) = both(random.uniform(lo, hi));
            other += u64::from(apart(ours, theirs) > 0);
            most = most.max(apart(ours, theirs));
        }
        println!("{name} from {lo} to {hi}: of {n}, {other} by at most {most}");
    };
    count("exp", -10.0, 10.0, &|x| (x.exp_01(), x.exp()));
    count("exp", -745.0, -708.0, &|x| (x.exp_01(), x.exp()));
    count("ln", 0.0, 10.0, &|x| (x.ln_01(), x.ln()));
    count("erfc", 0.0, 6.0, &|x| (erfc(x), unsafe { c::erfc(x) }));
    println!("exp(1): ours {:016X}, the platform's {:016X}", 1f64.exp_01().to_bits(), 1f64.exp().to_bits());
    println!("erfc(0.5): ours {:016X}, the platform's {:016X}", erfc(0.5).to_bits(), unsafe { c::erfc(0.5) }.to_bits());
}
