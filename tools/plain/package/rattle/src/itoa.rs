//! `itoa`: the decimal digits of a number of at most 64 bits.

/// Room for the digits of a number.
#[derive(Default)]
pub struct Buffer([u8; 20]);

impl Buffer {
    /// Room for the digits of a number.
    pub fn new() -> Buffer {
        Buffer::default()
    }

    /// The digits of a number, behind a sign where it is negative.
    pub fn format<I: TryInto<i128>>(&mut self, number: I) -> &str {
        let number: i128 = number.try_into().ok().expect("it has at most 64 bits");
        let mut left = number.unsigned_abs() as u64;
        let mut start = self.0.len();
        loop {
            start -= 1;
            self.0[start] = b'0' + (left % 10) as u8;
            left /= 10;
            if left == 0 {
                break;
            }
        }
        if number < 0 {
            start -= 1;
            self.0[start] = b'-';
        }
        std::str::from_utf8(&self.0[start..]).expect("digits are text")
    }
}
