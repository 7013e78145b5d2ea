//! A plant's bytes, checked and read into individuals and connections; and written.

use crate::fault::{Fault, Refusal};
use crate::flat::FlatKb;

const INDIVIDUAL: u8 = 0x40;
const CONNECTION: u8 = 0x41;

const MOST_INDIVIDUALS: usize = 1_024;

/// A role from one individual to another.
#[derive(Clone, Copy, PartialEq, Eq, PartialOrd, Ord)]
pub(super) struct Connection {
    pub from: u16,
    pub to: u16,
    pub role: u8,
}

/// What a file without faults says.
pub(super) struct File {
    /// The bits of each: its names and fresh names.
    pub individuals: Vec<u64>,
    pub connections: Vec<Connection>,
}

impl File {
    /// Its bytes, the individuals first.
    pub fn bytes(&self) -> Vec<u8> {
        let mut bytes = Vec::new();
        for &bits in &self.individuals {
            bytes.push(INDIVIDUAL);
            bytes.extend((bits as u16).to_le_bytes());
        }
        for connection in &self.connections {
            bytes.push(CONNECTION);
            bytes.extend(connection.from.to_le_bytes());
            bytes.extend(connection.to.to_le_bytes());
            bytes.push(connection.role);
        }
        bytes
    }
}

/// A record with its whole body.
enum Record {
    Individual(u64),
    Connection(Connection),
}

/// Reads a plant for a sheet.
pub(super) fn read(plant: &[u8], kb: &FlatKb) -> Result<File, Refusal> {
    let mut reader = Reader {
        kb,
        file: File {
            individuals: Vec::new(),
            connections: Vec::new(),
        },
    };
    let mut rest = plant;
    while !rest.is_empty() {
        let (record, more) = record(rest).ok_or(Refusal::of_whole(Fault::NoPlantRecord))?;
        reader.add(record).map_err(Refusal::of_whole)?;
        rest = more;
    }
    if reader.file.individuals.is_empty() {
        return Err(Refusal::of_whole(Fault::NoIndividuals));
    }
    Ok(reader.file)
}

/// The first record of some bytes and what follows it, if its kind is known and
/// it is not cut off.
fn record(bytes: &[u8]) -> Option<(Record, &[u8])> {
    let (&kind, body) = bytes.split_first()?;
    match kind {
        INDIVIDUAL => {
            let (&bits, rest) = body.split_first_chunk()?;
            Some((Record::Individual(u16::from_le_bytes(bits).into()), rest))
        }
        CONNECTION => {
            let (&[from, from_high, to, to_high, role], rest) = body.split_first_chunk()?;
            let connection = Connection {
                from: u16::from_le_bytes([from, from_high]),
                to: u16::from_le_bytes([to, to_high]),
                role,
            };
            Some((Record::Connection(connection), rest))
        }
        _ => None,
    }
}

struct Reader<'a> {
    kb: &'a FlatKb,
    file: File,
}

impl Reader<'_> {
    fn add(&mut self, record: Record) -> Result<(), Fault> {
        match record {
            Record::Individual(bits) => self.individual(bits),
            Record::Connection(connection) => self.connection(connection),
        }
    }

    fn individual(&mut self, bits: u64) -> Result<(), Fault> {
        if self.file.individuals.len() == MOST_INDIVIDUALS {
            return Err(Fault::TooManyIndividuals);
        }
        let mut set = (0..16).filter(|bit| bits >> bit & 1 == 1);
        if !set.all(|bit| self.kb.is_drawn(bit)) {
            return Err(Fault::NotInPlant);
        }
        self.file.individuals.push(bits);
        Ok(())
    }

    fn connection(&mut self, connection: Connection) -> Result<(), Fault> {
        let is_there = |number: u16| usize::from(number) < self.file.individuals.len();
        let role = usize::from(connection.role);
        if !is_there(connection.from) || !is_there(connection.to) || role >= self.kb.roles {
            return Err(Fault::NotInPlant);
        }
        self.file.connections.push(connection);
        Ok(())
    }
}
