//! Zones and their codes.

/// A stretch of track: 1 to 65,535 units long, ending at 65,536 at most.
#[derive(Clone, Copy, PartialEq, Eq, Debug)]
pub struct Zone {
    offset: u16,
    length: u16,
}

impl Zone {
    pub fn new(offset: u32, length: u32) -> Option<Zone> {
        let length = u16::try_from(length).ok().filter(|&length| length > 0)?;
        let offset = u16::try_from(offset).ok()?;
        (u32::from(offset) + u32::from(length) <= 65_536).then_some(Zone { offset, length })
    }

    pub fn offset(self) -> u32 {
        self.offset.into()
    }

    pub fn length(self) -> u32 {
        self.length.into()
    }

    pub fn code(self) -> u32 {
        self.offset() << 16 | self.length()
    }

    pub fn from_code(code: u32) -> Option<Zone> {
        Zone::new(code >> 16, code & 0xffff)
    }
}

#[cfg(test)]
mod tests {
    use super::*;

    #[test]
    fn codes_as_documented() {
        let code = |offset, length| Zone::new(offset, length).map(Zone::code);
        assert_eq!(code(0, 1), Some(1));
        assert_eq!(code(100, 50), Some(6_553_650));
        assert_eq!(code(65_535, 1), Some(4_294_901_761));
        assert_eq!(code(65_535, 2), None);
        assert_eq!(code(0, 0), None);
        assert_eq!(code(0, 65_536), None);
        assert_eq!(code(65_536, 1), None);
    }

    #[test]
    fn codes_read_back() {
        let zone = Zone::new(4095, 61_441).unwrap();
        assert_eq!(Zone::from_code(zone.code()), Some(zone));
        assert_eq!(Zone::from_code(0), None);
    }
}
