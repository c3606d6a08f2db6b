//! A plain emulator of the Interdata 7/32 in its fullword mode, with its access controller, a bus
//! of devices and an operator's console.
//!
//! It is written for reading and for comparison: everything a test may want to look at is a public
//! field or a public function. `generate` makes tapes and the outcome that this emulator expects
//! of each.

pub mod access;
pub mod arithmetic;
pub mod bus;
pub mod codes;
pub mod console;
mod effects;
pub mod generate;
pub mod interrupt;
pub mod machine;
mod processor;
pub mod queue;
pub mod store;
pub mod tape;

pub use bus::{Bus, Drives, Joined, Silent, Tally, Teletype};
pub use console::{Denial, Reason, Run};
pub use interrupt::{Answer, Record, Trace};
pub use machine::{Key, Machine};
pub use queue::Queue;
pub use store::{Kind, Store};
pub use tape::TapeFault;
