//! A bakery's counter: the book of standing orders, and new orders for cakes that come in one after the other.
//!
//!     cargo run --example counter
use ushnazar::{
    weigh, Certificate, Direction, Domain, Multipliers, Pair, Proof, Refusal, Sheet, SheetBuilder, State, Variable,
    Verdict,
};

/// The oven runs for an hour; a tray of loaves takes 1 minute of it and a cake 4.
const OVEN_MINUTES: f64 = 60.0;
const MINUTES_FOR_A_CAKE: f64 = 4.0;
/// Trays of loaves on order each morning.
const LOAVES: f64 = 20.0;

/// The book with so many cakes on order.
///
/// The solver ended at the vertex where just what is on order is baked. The oven's slack then is the minutes left; where
/// it is below 0 it has to leave the basis, upward, and its row of the basis inverse gives the multipliers.
fn book(cakes_on_order: f64) -> Sheet {
    let left = OVEN_MINUTES - LOAVES - MINUTES_FOR_A_CAKE * cakes_on_order;
    let mut book = SheetBuilder::new(1e-9);
    let baked = |place, value| Variable { max: 100.0, state: State::Basic { place }, value, ..Variable::default() };
    let loaves = book.structural(Domain::Integer, baked(1, LOAVES));
    let cakes = book.structural(Domain::Integer, baked(2, cakes_on_order));
    // loaves + 4 cakes + left = 60, at least 0 left
    let left = Variable { max: f64::INFINITY, state: State::Basic { place: 0 }, value: left, ..Variable::default() };
    book.row_and_slack([(loaves, 1.0), (cakes, MINUTES_FOR_A_CAKE)], OVEN_MINUTES, 1.0, left);
    // loaves + short = 20 and cakes + short = the order, at most 0 short
    let short = Variable { min: f64::NEG_INFINITY, ..Variable::default() };
    book.row_and_slack([(loaves, 1.0)], LOAVES, 1.0, short);
    book.row_and_slack([(cakes, 1.0)], cakes_on_order, 1.0, short);
    let rho = [1.0, -1.0, -MINUTES_FOR_A_CAKE].map(Pair::from).to_vec();
    book.build(Multipliers::Unchecked { rho }, 0, Direction::Up)
}

fn in_words(verdict: &Verdict<Certificate>) -> String {
    let Verdict { proof: Proof { holds, gap, rows, .. }, outward, .. } = verdict;
    match (verdict.declined, holds) {
        (true, _) => format!("declined: {rows} rows together show that the oven is {outward:.1} minutes short"),
        (false, true) => format!("not declined: it held, but with every step rounded outward the gap is {outward}"),
        (false, false) => format!("not declined: a gap of {gap:.1} minutes shows nothing"),
    }
}

fn main() -> Result<(), Refusal> {
    println!("standing orders: {LOAVES} trays of loaves and 8 cakes");
    println!("  {}", in_words(&weigh(&book(8.0))?));
    for cakes in [10.0, 11.0] {
        println!("a new order makes it {cakes} cakes");
        println!("  {}", in_words(&weigh(&book(cakes))?));
    }
    println!("an order that nobody could have meant: {} cakes", f64::NAN);
    match weigh(&book(f64::NAN)) {
        Ok(verdict) => println!("  {}", in_words(&verdict)),
        Err(refusal) => println!("  {refusal}"),
    }
    Ok(())
}
