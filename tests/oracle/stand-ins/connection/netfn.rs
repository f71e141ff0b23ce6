/// Stands in for the crate's network functions: only App, with the numbers of
/// the standard.
pub enum NetFn {
    /// The application commands.
    App,
}

impl NetFn {
    /// The number in a request.
    pub fn request_value(&self) -> u8 {
        0x06
    }

    /// The number in a response.
    pub fn response_value(&self) -> u8 {
        0x07
    }
}

impl From<u8> for NetFn {
    /// Panics on every other number: a made-up answer would pass for the
    /// crate's.
    fn from(value: u8) -> Self {
        match value {
            0x06 | 0x07 => Self::App,
            _ => panic!("the stand-in knows only App"),
        }
    }
}
