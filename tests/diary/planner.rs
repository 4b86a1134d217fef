//! A planner in Rust, as the crate's own pages have it: a car drives in, is parked through a jam, and is fetched.

use station::{Event, Number, Outcome, Refusal, Station};

fn show(garage: &Station) -> Result<(), Refusal> {
    let record = garage.record();
    print!("cars: {}\n{}", record.places()?.len(), record.drawing()?);
    Ok(())
}

/// Somebody looks at what is set apart, and sends what is there: here nothing had moved.
fn look(garage: &mut Station) -> Result<(), Refusal> {
    print!("{}", garage.apart().drawing()?);
    garage.image(garage.record())?;
    println!("image: accepted");
    Ok(())
}

fn drive(garage: &mut Station, what: &str, begins: Event) -> Result<(), Refusal> {
    garage.event(begins)?;
    garage.event(Event::EndedDone)?;
    println!("{what}: accepted");
    Ok(())
}

/// The motor's report comes from the garage; here it is told beforehand.
fn step(garage: &mut Station, words: &str, outcome: Outcome, ended: &str) -> Result<(), Refusal> {
    let set = [words.parse().expect("an instruction")];
    let issue = match garage.request(&set) {
        Err(refusal) if refusal.number == Number::SetApart => {
            println!("{words}: {}", refusal.number);
            look(garage)?;
            garage.request(&set)?
        }
        answer => answer?,
    };
    garage.result(issue, 0, outcome)?;
    println!("{words}: {ended}");
    Ok(())
}

fn main() -> Result<(), Refusal> {
    let garage = &mut Station::new();
    drive(garage, "in", Event::BeginIn)?;
    step(garage, "lift basement", Outcome::Done, "done")?;
    step(garage, "belts row 1 left lift, lower, full", Outcome::Stuck, "stuck")?;
    step(garage, "belts row 1 left lift, lower, full", Outcome::Done, "done")?;
    show(garage)?;
    step(garage, "belts row 1 left lift, higher, full", Outcome::Done, "done")?;
    step(garage, "lift street", Outcome::Done, "done")?;
    drive(garage, "out", Event::BeginOut)?;
    show(garage)
}
