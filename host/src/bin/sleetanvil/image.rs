//! Image files: a whole device. `sleetanvil --help` gives their form.

use std::fs;
use std::io::{self, Write};
use std::path::Path;

use sleetanvil::{Device, Geometry, Refusal, State, Stepping};

use crate::args::Part;
use crate::save::Target;

const MAGIC: &[u8; 8] = b"SLEETIMG";
/// Cells and page counts alone.
const OLD: u32 = 1;
/// State and cache register too.
const VERSION: u32 = 2;
const HEADER: usize = 32;
const STATE: usize = 24;
/// What there is to say of a state that the second stepping alone has.
const WITH_CMP: &str = ": CMP, bit 1 of A0h, is 1, and the first stepping has no CMP; give \
    --stepping 2, or --power-up, which clears it";

/// What a replay begins with.
pub struct Image {
    geometry: Geometry,
    cells: Vec<u8>,
    counts: Vec<u8>,
    /// State and cache register; none for a part at power-up.
    now: Option<(State, Vec<u8>)>,
}

impl Image {
    /// A part fresh from the factory.
    pub fn erased(geometry: Geometry) -> Self {
        Image {
            geometry,
            cells: vec![0xFF; geometry.cells_len()],
            counts: vec![0; geometry.counts_len()],
            now: None,
        }
    }

    /// The same at power-up, with WP# high.
    pub fn powered_up(self) -> Self {
        Image { now: None, ..self }
    }

    /// The same state and memory on a part of another stepping.
    pub fn with_stepping(self, stepping: Stepping) -> Self {
        Image {
            geometry: self.geometry.with_stepping(stepping),
            ..self
        }
    }

    /// The device of this image.
    pub fn device(self) -> Result<Device, String> {
        let (geometry, cells, counts) = (self.geometry, self.cells, self.counts);
        let state = self.now.as_ref().map(|(state, _)| *state);
        let device = match self.now {
            None => Device::power_up_with(geometry, cells, counts),
            Some((state, cache)) => Device::from_parts(geometry, state, cells, cache, counts),
        };
        device.map_err(|refusal| {
            let second = geometry.with_stepping(Stepping::Second);
            let hint = match (refusal, state) {
                (Refusal::BadState, Some(state)) if state.is_sound(&second) => WITH_CMP,
                _ => "",
            };
            format!("no replay can begin with it: {refusal}{hint}")
        })
    }

    /// Load an image file, which has to be of the part that is wanted, if one is.
    pub fn load(path: &Path, wanted: Option<Part>) -> Result<Self, String> {
        let bytes = fs::read(path).map_err(|error| error.to_string())?;
        Image::decode(&bytes, wanted)
    }

    fn decode(bytes: &[u8], wanted: Option<Part>) -> Result<Self, String> {
        if !bytes.starts_with(MAGIC) {
            return Err("not an image file".into());
        }
        let (header, rest) = bytes
            .split_at_checked(HEADER)
            .ok_or("the image ends inside its head")?;
        let (part, stepping, version) = part_of_header(header)?;
        if let Some(wanted) = wanted.filter(|&wanted| wanted != part) {
            return Err(format!(
                "the image is of part {}, not {}",
                part.name(),
                wanted.name()
            ));
        }
        let geometry = part.geometry().with_stepping(stepping);
        let kept = geometry.cells_len() + geometry.counts_len();
        let now = match version {
            OLD => 0,
            _ => STATE + geometry.cache_len(),
        };
        if rest.len() != kept + now {
            return Err(format!(
                "the image has {} bytes, and one of part {} and version {version} has {}",
                bytes.len(),
                part.name(),
                HEADER + kept + now
            ));
        }
        let (cells, rest) = rest.split_at(geometry.cells_len());
        let (counts, now) = rest.split_at(geometry.counts_len());
        Ok(Image {
            geometry,
            cells: cells.to_vec(),
            counts: counts.to_vec(),
            now: match now.split_first_chunk() {
                None => None,
                Some((state, cache)) => Some((decode_state(state)?, cache.to_vec())),
            },
        })
    }
}

/// Save a device in a file.
pub fn save(device: &Device, target: &Target) -> Result<(), String> {
    target.save(|file| write(device, file))
}

fn write(device: &Device, to: &mut impl Write) -> io::Result<()> {
    to.write_all(&header(device.geometry(), VERSION))?;
    to.write_all(device.cells())?;
    to.write_all(device.counts())?;
    to.write_all(&encode_state(device.state()))?;
    to.write_all(device.cache())
}

fn header(geometry: &Geometry, version: u32) -> [u8; HEADER] {
    let numbers = [
        version,
        geometry.data,
        geometry.spare,
        geometry.pages,
        geometry.blocks,
    ];
    let mut header = [0; HEADER];
    header[..8].copy_from_slice(MAGIC);
    for (place, number) in header[8..28].chunks_exact_mut(4).zip(numbers) {
        place.copy_from_slice(&number.to_le_bytes());
    }
    header[28..30].copy_from_slice(&geometry.identity);
    header[30] = geometry.stepping as u8;
    header
}

/// The named part whose header this is, its stepping, and the version.
fn part_of_header(bytes: &[u8]) -> Result<(Part, Stepping, u32), String> {
    let version = u32::from_le_bytes([bytes[8], bytes[9], bytes[10], bytes[11]]);
    if ![OLD, VERSION].contains(&version) {
        return Err(format!(
            "the image is of version {version}, and only {OLD} and {VERSION} are known"
        ));
    }
    let steppings = [Stepping::First, Stepping::Second];
    Part::ALL
        .into_iter()
        .flat_map(|part| steppings.map(|stepping| (part, stepping, version)))
        .find(|(part, stepping, version)| {
            header(&part.geometry().with_stepping(*stepping), *version) == bytes
        })
        .ok_or_else(|| "the image is of no part that is known here".into())
}

fn encode_state(state: &State) -> [u8; STATE] {
    let mut bytes = [0; STATE];
    bytes[..11].copy_from_slice(&[
        state.a0,
        state.b0,
        state.c0,
        state.d0,
        state.wp,
        state.selected,
        state.count,
        state.first,
        state.second,
        state.third,
        state.job,
    ]);
    bytes[12..14].copy_from_slice(&state.instruction.to_le_bytes());
    bytes[14..16].copy_from_slice(&state.column.to_le_bytes());
    bytes[16..18].copy_from_slice(&state.row.to_le_bytes());
    // The longest operation of a sound part has 256 times 4,096 units.
    bytes[20..].copy_from_slice(&(state.units as u32).to_le_bytes());
    bytes
}

/// A state, sound or not.
fn decode_state(bytes: &[u8; STATE]) -> Result<State, String> {
    let [a0, b0, c0, d0, wp, selected, count, first, second, third, job, ..] = *bytes;
    let word = |place| u16::from_le_bytes([bytes[place], bytes[place + 1]]);
    let state = State {
        a0,
        b0,
        c0,
        d0,
        wp,
        selected,
        count,
        first,
        second,
        third,
        job,
        instruction: word(12),
        column: word(14),
        row: word(16),
        units: u32::from_le_bytes([bytes[20], bytes[21], bytes[22], bytes[23]]) as usize,
    };
    match encode_state(&state) == *bytes {
        true => Ok(state),
        false => Err("a byte of the image's state that has to be 0 is not".into()),
    }
}

#[cfg(test)]
mod tests {
    use sleetanvil::{Device, Geometry, Stepping};

    use super::{write, Image};
    use crate::support::generate::Generator;

    /// Devices in random sound states, of both steppings, come back as they were.
    #[test]
    fn a_device_comes_back() {
        for number in 0..2_000 {
            let mut generator = Generator::new(0x1A6E, number);
            let stepping = match number % 2 {
                0 => Stepping::First,
                _ => Stepping::Second,
            };
            let geometry = Geometry::bench().with_stepping(stepping);
            let state = generator.sound_state(&geometry);
            let mut fill = |length| (0..length).map(|_| generator.rng.byte()).collect();
            let (cells, cache, counts) = (fill(640), fill(20), fill(32));
            let device = Device::from_parts(geometry, state, cells, cache, counts);
            let device = device.expect("a sound device");
            let mut bytes = Vec::new();
            write(&device, &mut bytes).expect("memory to write to");
            let image = Image::decode(&bytes, None);
            assert_eq!(image.and_then(Image::device), Ok(device));
        }
    }
}
