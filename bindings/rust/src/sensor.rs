//! Why a parameter can't be read.

use std::fmt;

/// The error classes that a driver reports; while a parameter is in error, no
/// value is shown.
#[derive(Clone, Copy, Debug, PartialEq, Eq, PartialOrd, Ord)]
#[repr(u8)]
pub enum SensorError {
    HardwareError = 1,
    CommunicationFailed = 2,
    ReadFailed = 3,
    OutOfRange = 4,
}

impl SensorError {
    pub const ALL: [SensorError; 4] = [
        SensorError::HardwareError,
        SensorError::CommunicationFailed,
        SensorError::ReadFailed,
        SensorError::OutOfRange,
    ];

    /// The number of the class.
    pub fn class(self) -> u8 {
        self as u8
    }

    /// What a class stands for: `None` for 0 and above 4.
    pub fn of(class: u8) -> Option<SensorError> {
        SensorError::ALL
            .into_iter()
            .find(|error| error.class() == class)
    }
}

/// The class as lines have it.
impl fmt::Display for SensorError {
    fn fmt(&self, f: &mut fmt::Formatter) -> fmt::Result {
        fmt::Debug::fmt(self, f)
    }
}

#[cfg(test)]
mod tests {
    use super::*;

    #[test]
    fn each_class_has_its_number_and_name() {
        let names = [
            "HardwareError",
            "CommunicationFailed",
            "ReadFailed",
            "OutOfRange",
        ];
        for (error, (class, name)) in SensorError::ALL.into_iter().zip((1..).zip(names)) {
            assert_eq!((error.class(), error.to_string().as_str()), (class, name));
            assert_eq!(SensorError::of(class), Some(error));
        }
        assert_eq!(SensorError::of(0), None);
        assert_eq!(SensorError::of(5), None);
    }
}
