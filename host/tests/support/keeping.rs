//! Calls on a keeper of the bus, and who takes them: the library and the independent model.

use sleetanvil::paper;
use sleetanvil::raw::{self, RawKeeper};

/// One call.
#[derive(Clone, Copy, Debug, PartialEq, Eq)]
pub enum Call {
    Add { core: u8, tag: u8 },
    Grant,
}

/// All that a call gives back, every byte of it. An adding has core and tag 0.
#[derive(Clone, Copy, Debug, PartialEq, Eq)]
pub struct Outcome {
    pub refusal: u8,
    pub core: u8,
    pub tag: u8,
    pub keeper: RawKeeper,
}

impl Outcome {
    /// Of a call that grants nothing: an adding, or one that is refused.
    pub fn ungranted(refusal: u8, keeper: RawKeeper) -> Self {
        Outcome {
            refusal,
            core: 0,
            tag: 0,
            keeper,
        }
    }
}

/// Whatever takes calls: the library, the model, or a model that is wrong.
pub type Subject = fn(RawKeeper, Call) -> Outcome;

pub fn library(keeper: RawKeeper, call: Call) -> Outcome {
    match call {
        Call::Add { core, tag } => {
            let added = raw::keeper_add(keeper, core, tag);
            Outcome::ungranted(added.refusal, added.keeper)
        }
        Call::Grant => {
            let granted = raw::keeper_grant(keeper);
            Outcome {
                refusal: granted.refusal,
                core: granted.core,
                tag: granted.tag,
                keeper: granted.keeper,
            }
        }
    }
}

pub fn model(keeper: RawKeeper, call: Call) -> Outcome {
    let mut after = paper::Keeper::from(keeper);
    let answer = match call {
        Call::Add { core, tag } => after.add(core, tag).map(|()| (0, 0)),
        Call::Grant => after.grant(),
    };
    let (core, tag) = answer.unwrap_or_default();
    Outcome {
        refusal: answer.err().unwrap_or(0),
        core,
        tag,
        keeper: after.into(),
    }
}
