//! Scripts for replay: those of the gate, and random ones. The gate's sections state the code that each
//! call must give, so that a slip of the rules shows while the cases are written.

pub mod builder;
pub mod delivery;
pub mod make;
pub mod making;
pub mod paying;
pub mod random;
pub mod rng;
pub mod rounds;
pub mod sending;
pub mod timers;

use builder::Builder;
use rng::Rng;

/// The gate's cases, always the same.
pub fn gate() -> Builder {
    let mut builder = Builder::new();
    let mut rng = Rng::new(0x0C52_2024_0001);
    making::cases(&mut builder);
    builder.section("making");
    timers::cases(&mut builder, &mut rng);
    builder.section("timers");
    delivery::cases(&mut builder, &mut rng);
    builder.section("delivery");
    sending::cases(&mut builder, &mut rng);
    builder.section("sending");
    rounds::cases(&mut builder, &mut rng);
    builder.section("rounds");
    paying::cases(&mut builder, &mut rng);
    builder.section("paying");
    random::gate_cases(&mut builder, &mut rng);
    builder.section("random");
    builder.ending();
    builder
}
