//! The error classes of requests, with their texts, and those of parameters
//! that can't be read.

use crate::value::ValueFault;

/// The classes in the order in which a request is judged.
#[derive(Clone, Copy, Debug, PartialEq, Eq)]
pub enum ErrorClass {
    ProtocolError,
    NoSuchModule,
    NoSuchParameter,
    NoSuchCommand,
    ReadOnly,
    BadJson,
    WrongType,
    RangeError,
}

impl ErrorClass {
    /// The class as it stands in a reply.
    pub fn name(self) -> &'static str {
        match self {
            ErrorClass::ProtocolError => "ProtocolError",
            ErrorClass::NoSuchModule => "NoSuchModule",
            ErrorClass::NoSuchParameter => "NoSuchParameter",
            ErrorClass::NoSuchCommand => "NoSuchCommand",
            ErrorClass::ReadOnly => "ReadOnly",
            ErrorClass::BadJson => "BadJSON",
            ErrorClass::WrongType => "WrongType",
            ErrorClass::RangeError => "RangeError",
        }
    }

    /// The text for people.
    pub fn text(self) -> &'static str {
        match self {
            ErrorClass::ProtocolError => "malformed or unknown request",
            ErrorClass::NoSuchModule => "no such module",
            ErrorClass::NoSuchParameter => "no such parameter",
            ErrorClass::NoSuchCommand => "no such command",
            ErrorClass::ReadOnly => "parameter is read only",
            ErrorClass::BadJson => "data is not JSON",
            ErrorClass::WrongType => "value has the wrong type",
            ErrorClass::RangeError => "value is out of range",
        }
    }

    /// The error report.
    pub fn report(self) -> String {
        format!("[\"{}\",\"{}\",{{}}]", self.name(), self.text())
    }
}

/// Why a parameter can't be read, as its driver reports it; the number is that
/// of the report.
#[derive(Clone, Copy, Debug, PartialEq, Eq)]
pub enum SensorError {
    HardwareError = 1,
    CommunicationFailed = 2,
    ReadFailed = 3,
    OutOfRange = 4,
}

impl SensorError {
    pub const ALL: [SensorError; 4] = [
        SensorError::HardwareError,
        SensorError::CommunicationFailed,
        SensorError::ReadFailed,
        SensorError::OutOfRange,
    ];

    /// The error of a class's number.
    pub fn of(class: u64) -> Option<SensorError> {
        SensorError::ALL
            .into_iter()
            .find(|error| u64::from(error.class()) == class)
    }

    pub fn class(self) -> u8 {
        self as u8
    }

    /// The class as it stands in a report.
    pub fn name(self) -> &'static str {
        match self {
            SensorError::HardwareError => "HardwareError",
            SensorError::CommunicationFailed => "CommunicationFailed",
            SensorError::ReadFailed => "ReadFailed",
            SensorError::OutOfRange => "OutOfRange",
        }
    }
}

impl From<ValueFault> for ErrorClass {
    fn from(fault: ValueFault) -> ErrorClass {
        match fault {
            ValueFault::BadJson => ErrorClass::BadJson,
            ValueFault::WrongType => ErrorClass::WrongType,
            ValueFault::RangeError => ErrorClass::RangeError,
        }
    }
}
