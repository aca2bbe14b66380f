//! The outbox: records to clients and to drivers, and their bytes.

/// The shortest outbox that a call takes.
pub const MIN_OUTBOX: usize = 32_768;

/// What a record is.
#[derive(Clone, Copy, Debug, PartialEq, Eq)]
pub enum Mark {
    /// The final reply to a request.
    Reply,
    Update,
    /// An order to a driver to change a parameter.
    DriverChange,
    /// An order to a driver to carry out a command.
    DriverCommand,
}

/// One record. The client of a driver's order is the one that asked for it.
#[derive(Clone, Debug, PartialEq, Eq)]
pub struct Record {
    pub mark: Mark,
    pub client: u8,
    pub body: Vec<u8>,
}

impl Mark {
    const ALL: [Mark; 4] = [
        Mark::Reply,
        Mark::Update,
        Mark::DriverChange,
        Mark::DriverCommand,
    ];

    fn bytes(self) -> [u8; 2] {
        *match self {
            Mark::Reply => b"RP",
            Mark::Update => b"UP",
            Mark::DriverChange => b"DR",
            Mark::DriverCommand => b"DC",
        }
    }
}

impl Record {
    /// A line to a client; its line feed is added here.
    pub fn line(mark: Mark, client: usize, line: &[u8]) -> Record {
        Record {
            mark,
            client: client as u8,
            body: [line, b"\n"].concat(),
        }
    }

    /// An order to a driver: the number of a parameter or command, then the
    /// value or argument.
    pub fn order(mark: Mark, client: usize, number: usize, stored: &[u8]) -> Record {
        Record {
            mark,
            client: client as u8,
            body: [&[number as u8], stored].concat(),
        }
    }

    /// Whether it is sent to this client: orders go to drivers.
    pub fn is_to(&self, client: usize) -> bool {
        let to_client = matches!(self.mark, Mark::Reply | Mark::Update);
        to_client && usize::from(self.client) == client
    }

    /// Mark, client, length in two bytes, body.
    pub fn to_bytes(&self) -> Vec<u8> {
        let mut bytes = self.mark.bytes().to_vec();
        bytes.push(self.client);
        bytes.extend_from_slice(&(self.body.len() as u16).to_be_bytes());
        bytes.extend_from_slice(&self.body);
        bytes
    }
}

/// The bytes of several records.
pub fn to_bytes(records: &[Record]) -> Vec<u8> {
    records.iter().flat_map(Record::to_bytes).collect()
}

/// Reads an outbox back into its records, if it is nothing but records.
pub fn read(mut bytes: &[u8]) -> Option<Vec<Record>> {
    let mut records = Vec::new();
    while let [mark_1, mark_2, client, length_1, length_2, rest @ ..] = bytes {
        let mark = Mark::ALL
            .into_iter()
            .find(|mark| mark.bytes() == [*mark_1, *mark_2])?;
        let length = usize::from(u16::from_be_bytes([*length_1, *length_2]));
        let (body, rest) = rest.split_at_checked(length)?;
        records.push(Record {
            mark,
            client: *client,
            body: body.to_vec(),
        });
        bytes = rest;
    }
    bytes.is_empty().then_some(records)
}
