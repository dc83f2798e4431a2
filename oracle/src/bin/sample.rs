//! Writes a sample of the oracle's answers, the list that crates/replay reads: `cargo run --release --bin sample > ../crates/replay/stdin`.
//! The questions are those of the comparison, from another seed; what the Rust computes where document 01 refuses is left out. A line is a kind of six
//! letters and words of 16 hexadecimal digits: the inputs, then the expected answer (its number, 0 for done, and its values; zeros with a refusal).
use oracle::greeks_noted::{bsm_greeks, bsm_price, implied_volatility, GreekError, OptionParams, OptionType};
use oracle::questions::{self, Asked, Family, Quotes, FAMILIES, FUNCTIONS};
use oracle::random::Random;
use oracle::surface_noted::{VolPoint, VolSurface};
use oracle::{checks, normal, notes, reference};

/// Every not-a-number is written as one.
fn bits(x: f64) -> u64 {
    if x.is_nan() { 0x7ff8_0000_0000_0000 } else { x.to_bits() }
}

fn line(kind: &str, words: &[u64]) {
    let words: Vec<String> = words.iter().map(|w| format!(" {w:016X}")).collect();
    println!("{kind:<6}{}", words.concat());
}

fn functions(r: &mut Random, each: usize) {
    for name in FUNCTIONS {
        for i in 0..each {
            let x = questions::argument(r, FAMILIES[i % FAMILIES.len()], name);
            let y = match name {
                "sqrt" => x.sqrt(),
                "exp" => reference::exp(x),
                "ln" => reference::ln(x),
                "erfc" => reference::erfc(x),
                "pdf" => normal::pdf(x),
                _ => normal::cdf(x),
            };
            line(name, &[bits(x), bits(y)]);
        }
    }
}

fn params(put: bool, [spot, strike, time_to_expiry, risk_free_rate, volatility]: [f64; 5]) -> OptionParams {
    let option_type = if put { OptionType::Put } else { OptionType::Call };
    OptionParams { spot, strike, time_to_expiry, risk_free_rate, volatility, option_type }
}

/// 01's number for the guard that the Rust names.
fn guard(message: &str) -> u64 {
    let guards = [("market_price", 5), ("spot", 6), ("strike", 7), ("time_to_expiry", 8), ("volatility", 10)];
    guards.iter().find(|g| message.starts_with(g.0)).unwrap().1
}

fn option_line(kind: &str, asked: &Asked, number: u64, values: &[f64]) {
    let mut words = vec![u64::from(asked.put)];
    words.extend(asked.values.map(bits));
    words.push(number);
    words.extend(values.iter().map(|v| bits(*v)));
    line(kind, &words);
}

/// Prices or greeks: those inside 01's limits, and those that both refuse.
fn options<const N: usize>(r: &mut Random, kind: &str, count: usize, side: impl Fn(&OptionParams) -> Result<[f64; N], GreekError>) {
    let mut left = count;
    while left > 0 {
        let asked = questions::option(r, FAMILIES[left % FAMILIES.len()]);
        let [spot, strike, expiry, rate, volatility] = asked.values;
        let check = checks::option(spot, strike, expiry, rate, volatility).number;
        match side(&params(asked.put, asked.values)) {
            Ok(values) if check == 0 => option_line(kind, &asked, 0, &values),
            Err(GreekError::InvalidParams(m)) if check == guard(&m) => option_line(kind, &asked, check, &[0.0; N]),
            _ => continue,
        }
        left -= 1;
    }
}

/// Solves: `NoConvergence` is 12 after the two ends, 13 after all 52 prices.
fn solves(r: &mut Random, count: usize) {
    let mut left = count;
    while left > 0 {
        let asked = questions::implied(r, FAMILIES[left % FAMILIES.len()]);
        let [market, spot, strike, expiry, rate] = asked.values;
        let check = checks::implied(market, spot, strike, expiry, rate).number;
        notes::clear();
        let answer = implied_volatility(market, &params(asked.put, [spot, strike, expiry, rate, 0.0]));
        let made = notes::evaluations();
        let (number, values) = match answer {
            Ok(_) if check == 0 => (0, notes::answer().unwrap()),
            Err(GreekError::NoConvergence) if check == 0 => (if made == 2 { 12 } else { 13 }, [0.0; 4]),
            Err(GreekError::InvalidParams(m)) if check == guard(&m) => (check, [0.0; 4]),
            _ => continue,
        };
        let mut words = vec![u64::from(asked.put)];
        words.extend(asked.values.map(bits));
        words.push(number);
        words.extend(values.map(bits));
        words.push(made);
        line("solve", &words);
        left -= 1;
    }
}

/// A tray, its surface whole, and readings of it: `None` is 18 without quotes, 19 outside the strikes, else 20.
fn surface(r: &mut Random, q: &Quotes) {
    let mut points = Vec::new();
    for i in 0..q.len() {
        line("quote", &[bits(q.strikes[i]), bits(q.expiries[i]), bits(q.volatilities[i])]);
        points.push(VolPoint { strike: q.strikes[i], expiry: q.expiries[i], implied_vol: q.volatilities[i] });
    }
    let s = VolSurface::from_points(points);
    let counts = notes::build();
    line("build", &[0, s.strikes().len() as u64, s.expiries().len() as u64]);
    for (j, x) in s.strikes().iter().enumerate() {
        line("strike", &[j as u64, bits(*x)]);
    }
    for (i, x) in s.expiries().iter().enumerate() {
        line("expiry", &[i as u64, bits(*x)]);
    }
    for (i, row) in s.grid().iter().enumerate() {
        for (j, x) in row.iter().enumerate() {
            line("cell", &[(64 * i + j) as u64, bits(*x), u64::from(counts[i][j])]);
        }
    }
    let mut asked = 0;
    while asked < 8 {
        let (strike, expiry) = (questions::place(r, s.strikes()), questions::place(r, s.expiries()));
        // The Rust reads a not-a-number.
        if strike.is_nan() || expiry.is_nan() {
            continue;
        }
        let outside = s.strikes().is_empty() || strike < s.strikes()[0] || strike > s.strikes()[s.strikes().len() - 1];
        let none = |number: u64| if s.strikes().is_empty() { 18 } else { number };
        let (number, value) = s.interpolate(strike, expiry).map_or((none(if outside { 19 } else { 20 }), 0.0), |v| (0, v));
        line("read", &[bits(strike), bits(expiry), number, bits(value)]);
        let (number, value) = s.atm_vol(expiry).map_or((none(20), 0.0), |v| (0, v));
        if asked % 3 == 0 {
            line("middle", &[bits(expiry), number, bits(value)]);
        }
        asked += 1;
    }
}

fn surfaces(r: &mut Random, count: usize) {
    // Document 01's: two strikes 2^-40 apart, 2^-39 apart, and all three.
    let (near, far) = (100.0 + 2f64.powi(-40), 100.0 + 2f64.powi(-39));
    for strikes in [vec![100.0, near], vec![100.0, far], vec![100.0, near, far], vec![far, near, 100.0], vec![]] {
        let mut q = Quotes::default();
        for (i, k) in strikes.iter().enumerate() {
            q.push(*k, 0.5, if i == 0 { 0.25 } else { 0.5 });
        }
        surface(r, &q);
    }
    let mut left = count;
    while left > 0 {
        let q = questions::tray(r, [Family::Ordinary, Family::Wide, Family::Edge, Family::Branch, Family::Branch][left % 5]);
        let few = |xs: &[f64], most: usize| {
            let mut xs = xs.to_vec();
            xs.sort_by(f64::total_cmp);
            xs.dedup();
            xs.len() <= most
        };
        if q.is_empty() || q.len() > 20 || !few(&q.strikes, 9) || !few(&q.expiries, 6) {
            continue;
        }
        surface(r, &q);
        left -= 1;
    }
}

fn gaps(r: &mut Random, count: usize) {
    let mut left = count;
    while left > 0 {
        let mut rows = questions::gaps(r, FAMILIES[left % FAMILIES.len()]);
        let (expiries, strikes) = (rows.len(), rows.first().map_or(0, Vec::len));
        if strikes * expiries > 24 {
            continue;
        }
        let each = |kind: &str, rows: &[Vec<f64>]| {
            for (i, row) in rows.iter().enumerate() {
                for (j, x) in row.iter().enumerate() {
                    line(kind, &[(64 * i + j) as u64, bits(*x)]);
                }
            }
        };
        each("gap", &rows);
        line("fill", &[strikes as u64, expiries as u64, 0]);
        VolSurface::fill(&mut rows, expiries, strikes);
        each("filled", &rows);
        left -= 1;
    }
}

fn main() {
    let mut r = Random(1973);
    functions(&mut r, 100);
    options(&mut r, "price", 400, |p| bsm_price(p).map(|x| [x]));
    options(&mut r, "greeks", 250, |p| bsm_greeks(p).map(|g| [g.delta, g.gamma, g.theta, g.vega, g.rho, g.vanna, g.volga]));
    solves(&mut r, 500);
    surfaces(&mut r, 30);
    gaps(&mut r, 40);
}
