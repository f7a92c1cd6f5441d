//! The byte streams of cases and frames; every number low byte first.

use crate::examples::Description;
use crate::machine::Call;

/// One case for composing.
#[derive(Clone, PartialEq, Eq, Debug)]
pub struct ComposeCase {
    pub description: Description,
    /// Bytes of the output buffer.
    pub room: u16,
}

/// One net with the calls made on it.
#[derive(Clone, PartialEq, Eq, Debug)]
pub struct Frame {
    pub description: Description,
    pub damages: Vec<Damage>,
    pub calls: Vec<Call>,
    pub verbose: bool,
}

/// A byte stored in the image before it is loaded.
#[derive(Clone, Copy, PartialEq, Eq, Debug)]
pub struct Damage {
    pub position: u16,
    pub value: u8,
}

impl ComposeCase {
    pub fn write(&self, out: &mut Vec<u8>) {
        put_u16(out, self.description.capacities.len());
        put_u16(out, self.description.relations.len());
        put_u16(out, usize::from(self.room));
        out.extend(&self.description.capacities);
        out.extend(&self.description.relations);
    }

    fn read(reader: &mut Reader) -> Option<ComposeCase> {
        let capacities = reader.u16()?;
        let relations = reader.u16()?;
        let room = reader.u16()?;
        Some(ComposeCase {
            description: reader.description(capacities, relations)?,
            room,
        })
    }
}

impl Frame {
    pub fn write(&self, out: &mut Vec<u8>) {
        put_u16(out, self.description.capacities.len());
        put_u16(out, self.description.relations.len());
        put_u16(out, self.calls.len());
        out.push(u8::try_from(self.damages.len()).expect("few damages"));
        out.push(u8::from(self.verbose));
        out.extend(&self.description.capacities);
        out.extend(&self.description.relations);
        for damage in &self.damages {
            put_u16(out, usize::from(damage.position));
            out.push(damage.value);
        }
        for &call in &self.calls {
            let (kind, context) = call_fields(call);
            out.push(kind);
            put_u16(out, context);
        }
    }

    fn read(reader: &mut Reader) -> Option<Frame> {
        let capacities = reader.u16()?;
        let relations = reader.u16()?;
        let calls = reader.u16()?;
        let damages = reader.u8()?;
        let verbose = reader.u8()? == 1;
        Some(Frame {
            description: reader.description(capacities, relations)?,
            damages: (0..damages)
                .map(|_| reader.damage())
                .collect::<Option<_>>()?,
            calls: (0..calls).map(|_| reader.call()).collect::<Option<_>>()?,
            verbose,
        })
    }
}

/// All cases of a stream, or nothing where it breaks off or makes no sense.
pub fn read_cases(bytes: &[u8]) -> Option<Vec<ComposeCase>> {
    read_all(bytes, ComposeCase::read)
}

/// All frames of a stream, or nothing where it breaks off or makes no sense.
pub fn read_frames(bytes: &[u8]) -> Option<Vec<Frame>> {
    read_all(bytes, Frame::read)
}

fn read_all<T>(bytes: &[u8], read_one: impl Fn(&mut Reader) -> Option<T>) -> Option<Vec<T>> {
    let mut reader = Reader { rest: bytes };
    let mut all = Vec::new();
    while !reader.rest.is_empty() {
        all.push(read_one(&mut reader)?);
    }
    Some(all)
}

fn put_u16(out: &mut Vec<u8>, number: usize) {
    let number = u16::try_from(number).expect("fits two bytes");
    out.extend(number.to_le_bytes());
}

fn call_fields(call: Call) -> (u8, usize) {
    match call {
        Call::Activate(context) => (0, context),
        Call::Deactivate(context) => (1, context),
        Call::Undo => (2, 0),
        Call::Settle => (3, 0),
    }
}

struct Reader<'a> {
    rest: &'a [u8],
}

impl<'a> Reader<'a> {
    fn bytes(&mut self, count: u16) -> Option<&'a [u8]> {
        let (front, rest) = self.rest.split_at_checked(usize::from(count))?;
        self.rest = rest;
        Some(front)
    }

    fn u8(&mut self) -> Option<u8> {
        Some(self.bytes(1)?[0])
    }

    fn u16(&mut self) -> Option<u16> {
        let pair = self.bytes(2)?;
        Some(u16::from_le_bytes([pair[0], pair[1]]))
    }

    fn description(&mut self, capacities: u16, relations: u16) -> Option<Description> {
        Some(Description {
            capacities: self.bytes(capacities)?.to_vec(),
            relations: self.bytes(relations)?.to_vec(),
        })
    }

    fn damage(&mut self) -> Option<Damage> {
        Some(Damage {
            position: self.u16()?,
            value: self.u8()?,
        })
    }

    fn call(&mut self) -> Option<Call> {
        let kind = self.u8()?;
        let context = usize::from(self.u16()?);
        match kind {
            0 => Some(Call::Activate(context)),
            1 => Some(Call::Deactivate(context)),
            2 => Some(Call::Undo),
            3 => Some(Call::Settle),
            _ => None,
        }
    }
}
