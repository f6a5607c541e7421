//! An independent model, written from the papers and the project's decisions alone: the device as
//! document 01 has it, changed by document 02's items 2 (a reset takes time), 6 (a cache read goes
//! round at the page's end) and 7 (the second stepping), and beside the device document 02's parameter
//! page, keeper of the bus and card.
//!
//! It shares no code and no type with the proved library. The tests compare the two on random
//! contents of all their inputs, sound and not, and the benchmark takes this model as what a good
//! programmer would have written by hand. The vectors' expected lines are printed by it.
//!
//! The device comes in as plain numbers ([`State`]), as it does over the C interface, so that
//! unsound ones can be told apart. A sound one is turned into a `Machine`, whose types leave no
//! room for the unsound, and back into numbers at the end.
//!
//! One module per subject, and what the papers say of it stands there alone:
//!
//! | module | subject |
//! |---|---|
//! | `part` | a part's geometry and stepping, when it is sound, and which blocks are protected |
//! | `log` | the records of a log, read and written |
//! | `refusal` | the numbers of refusal |
//! | `registers` | A0h to D0h: masks, bits, reading and writing |
//! | `transfer` | chip select and the bytes shifted, one after the other |
//! | `instructions` | the codes, and what acts when chip select rises |
//! | `work` | the work of the array: operations, their units, reset and power loss |
//! | `state` | the state as plain numbers, and when it is sound |
//! | `run` | a log run on a device: the checks, then record by record |
//! | `orderly` | whether demand 3 speaks of a log |
//! | `calls` | what a simulator calls beside a log: transfers, long work, the next byte, the units left |
//! | `page` | the parameter page: its check, its maker, the reader of its three copies |
//! | `keeper` | four cores at one chip select: queues of waiting transfers, and whose turn it is |
//! | `card` | the card slot: the card's commands, its security code, and a card log run |

mod calls;
pub mod card;
mod instructions;
mod keeper;
mod log;
mod orderly;
pub mod page;
mod part;
mod refusal;
mod registers;
mod run;
mod state;
mod transfer;
mod work;

pub use calls::{blank, operation_length, peek, shifts, transfer, units_left, work};
pub use keeper::{Bus, Keeper, Queue};
pub use log::{next, write, Record};
pub use orderly::judge;
pub use part::{Part, Stepping};
pub use refusal::Refusal;
pub use run::{run, Answer, Memory};
pub use state::State;

/// A cell or cache byte that is erased, and DO where no answer is named.
const BLANK: u8 = 0xFF;
