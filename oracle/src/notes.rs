//! What the Rust does not return, noted on the way by the substitutions that build.rs lists.
use std::cell::{Cell, RefCell};

/// Gives the price at a volatility, any price.
pub type Model = Box<dyn FnMut(f64) -> f64>;

thread_local! {
    // Of a solve: the points tried with their prices; its answer, the error there, point c and the error there.
    static TRIED: RefCell<Vec<(f64, f64)>> = const { RefCell::new(Vec::new()) };
    static ANSWER: Cell<Option<[f64; 4]>> = const { Cell::new(None) };
    // The model that a solver is fed from.
    static MODEL: RefCell<Option<Model>> = const { RefCell::new(None) };
    // Of a build: the counts of its cells.
    static COUNTS: RefCell<Vec<Vec<u32>>> = const { RefCell::new(Vec::new()) };
}

pub fn price(volatility: f64, price: f64) -> f64 {
    TRIED.with_borrow_mut(|t| t.push((volatility, price)));
    price
}

/// The price of the model that was set.
pub fn fed(volatility: f64) -> f64 {
    let p = MODEL.with_borrow_mut(|m| m.as_mut().map_or(f64::NAN, |f| f(volatility)));
    price(volatility, p)
}

pub fn set_model(model: Model) {
    MODEL.replace(Some(model));
}

pub fn all_tried() -> Vec<(f64, f64)> {
    TRIED.with_borrow(Clone::clone)
}

pub fn found(b: f64, fb: f64, c: f64, fc: f64) {
    ANSWER.set(Some([b, fb, c, fc]));
}

pub fn counts(grid: &[Vec<u32>]) {
    COUNTS.replace(grid.to_vec());
}

/// Before a solve.
pub fn clear() {
    TRIED.with_borrow_mut(Vec::clear);
    ANSWER.set(None);
}

pub fn evaluations() -> u64 {
    TRIED.with_borrow(|t| t.len() as u64)
}

pub fn answer() -> Option<[f64; 4]> {
    ANSWER.get()
}

pub fn tried(volatility: f64) -> Option<f64> {
    TRIED.with_borrow(|t| t.iter().find(|p| p.0.to_bits() == volatility.to_bits()).map(|p| p.1))
}

/// The evaluation at which a price minus the market price was first not finite.
pub fn first_not_finite(market: f64) -> Option<u64> {
    TRIED.with_borrow(|t| t.iter().position(|p| !(p.1 - market).is_finite()).map(|i| i as u64 + 1))
}

/// After a build.
pub fn build() -> Vec<Vec<u32>> {
    COUNTS.take()
}
