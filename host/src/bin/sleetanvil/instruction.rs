//! The instructions, as the program tells of them.

/// What comes after an instruction.
#[derive(Clone, Copy)]
pub enum Form {
    Alone,
    Get,
    Set,
    Id,
    Row,
    ReadCache,
    Load,
}

/// An instruction of the part.
pub struct Instruction {
    pub name: &'static str,
    pub form: Form,
    /// The bytes it needs, if it acts when chip select rises.
    pub bytes: Option<usize>,
}

impl Instruction {
    /// The instruction of a code; none for a code that is unknown.
    pub fn of(code: u8) -> Option<Self> {
        let (name, form, bytes) = match code {
            0x06 => ("Write Enable", Form::Alone, Some(1)),
            0x04 => ("Write Disable", Form::Alone, Some(1)),
            0x0F => ("Get Feature", Form::Get, None),
            0x1F => ("Set Feature", Form::Set, Some(3)),
            0x9F => ("Read ID", Form::Id, None),
            0x13 => ("Page Read", Form::Row, Some(4)),
            0x03 => ("Read From Cache", Form::ReadCache, None),
            0x0B => ("Fast Read From Cache", Form::ReadCache, None),
            0x02 => ("Program Load", Form::Load, None),
            0x84 => ("Program Load Random Data", Form::Load, None),
            0x10 => ("Program Execute", Form::Row, Some(4)),
            0xD8 => ("Block Erase", Form::Row, Some(4)),
            0xFF => ("Reset", Form::Alone, Some(1)),
            _ => return None,
        };
        Some(Instruction { name, form, bytes })
    }
}

/// A code with the name of its instruction.
pub fn named(code: u8) -> String {
    match Instruction::of(code) {
        Some(instruction) => format!("{code:02X}h {}", instruction.name),
        None => format!("{code:02X}h, unknown"),
    }
}

/// Whether a code is an instruction that the part takes only while the array is idle.
pub fn needs_idle(code: u8) -> bool {
    Instruction::of(code).is_some() && !matches!(code, 0x0F | 0x9F | 0xFF)
}
