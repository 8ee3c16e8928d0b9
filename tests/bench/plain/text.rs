//! Names, numbers and single bytes of a text that is wholly in memory.

/// Why a text is refused, and the byte up to which it was read.
pub struct Refused {
    pub why: &'static str,
    pub at: usize,
}

pub type Result<T> = std::result::Result<T, Refused>;

/// A model's one, in millionths.
pub const ONE: i64 = 1_000_000;

/// The largest number, in millionths.
pub const LARGEST: u64 = 10_000_000_000_000;

const LONGEST_TOKEN: usize = 400;
const LARGEST_EXPONENT: i64 = 400;

/// The size of a number, rounded down to millionths, and whether that is less than it is.
#[derive(Clone, Copy)]
struct Size {
    millionths: u64,
    is_more: bool,
}

/// A text and the place up to which it was read.
#[derive(Clone)]
pub struct Tokens<'a> {
    text: &'a [u8],
    at: usize,
}

fn is_blank(byte: u8) -> bool {
    matches!(byte, b' ' | b'\t' | b'\n' | b'\r')
}

fn is_of_name(byte: u8) -> bool {
    byte.is_ascii_alphanumeric() || byte == b'_' || byte == b'-'
}

impl<'a> Tokens<'a> {
    pub fn new(text: &'a [u8]) -> Self {
        Tokens { text, at: 0 }
    }

    pub fn refused<T>(&self, why: &'static str) -> Result<T> {
        Err(Refused { why, at: self.at })
    }

    fn byte_at(&self, at: usize) -> u8 {
        self.text.get(at).copied().unwrap_or(0)
    }

    /// The first byte of the next token, after blanks and comments; none at the end.
    #[inline]
    pub fn peek(&mut self) -> Option<u8> {
        while let Some(&byte) = self.text.get(self.at) {
            if is_blank(byte) {
                self.at += 1;
            } else if byte == b'#' {
                self.skip_comment();
            } else {
                return Some(byte);
            }
        }
        None
    }

    fn skip_comment(&mut self) {
        let rest = &self.text[self.at..];
        let length = rest.iter().position(|&byte| byte == b'\n');
        self.at += length.unwrap_or(rest.len());
    }

    /// Whether the next token is this byte, which is then taken.
    #[inline]
    pub fn takes(&mut self, byte: u8) -> bool {
        let is_next = self.peek() == Some(byte);
        if is_next {
            self.at += 1;
        }
        is_next
    }

    pub fn expect(&mut self, byte: u8) -> Result<()> {
        if self.takes(byte) {
            Ok(())
        } else {
            self.refused("another byte is wanted")
        }
    }

    /// The next token, if it is a name; it is not taken.
    pub fn peek_name(&mut self) -> Option<&'a [u8]> {
        if !self.peek()?.is_ascii_alphabetic() {
            return None;
        }
        let rest = &self.text[self.at..];
        let length = rest.iter().position(|&byte| !is_of_name(byte));
        Some(&rest[..length.unwrap_or(rest.len())])
    }

    pub fn take_name(&mut self, name: &[u8]) -> Result<()> {
        if name.len() > LONGEST_TOKEN {
            return self.refused("a name is too long");
        }
        self.at += name.len();
        Ok(())
    }

    /// Whether the next token is this name, which is then taken.
    pub fn takes_name(&mut self, name: &[u8]) -> bool {
        let is_next = self.peek_name() == Some(name);
        if is_next {
            self.at += name.len();
        }
        is_next
    }

    /// Whether a number begins here.
    #[inline]
    pub fn is_at_number(&mut self) -> bool {
        matches!(self.peek(), Some(b'0'..=b'9' | b'.' | b'+' | b'-'))
    }

    /// A number that is a whole number of millionths.
    #[inline]
    pub fn number(&mut self) -> Result<i64> {
        let is_negative = self.sign();
        let size = self.size()?;
        if size.is_more {
            return self.refused("a digit after the sixth decimal");
        }
        let millionths = size.millionths as i64;
        Ok(if is_negative { -millionths } else { millionths })
    }

    /// A number, rounded down to millionths.
    #[inline]
    pub fn floor(&mut self) -> Result<i64> {
        let is_negative = self.sign();
        let size = self.size()?;
        let millionths = size.millionths as i64;
        Ok(if is_negative {
            -millionths - i64::from(size.is_more)
        } else {
            millionths
        })
    }

    /// A number from 0 to 1, in millionths.
    #[inline]
    pub fn probability(&mut self) -> Result<u32> {
        let number = self.number()?;
        if (0..=ONE).contains(&number) {
            Ok(number as u32)
        } else {
            self.refused("no probability")
        }
    }

    /// Takes a `-` or an `X` of a graph, if one is next. A `-` may not stand directly before a numeral.
    pub fn takes_no_successor(&mut self) -> bool {
        if self.peek() == Some(b'-') && !matches!(self.byte_at(self.at + 1), b'0'..=b'9' | b'.') {
            self.at += 1;
            return true;
        }
        self.takes_name(b"X")
    }

    /// A number of digits alone; what is above 10,000,000 is given as that.
    #[inline]
    pub fn digits(&mut self) -> Result<usize> {
        if !self.peek().is_some_and(|byte| byte.is_ascii_digit()) {
            return self.refused("no number of digits alone");
        }
        let from = self.at;
        let whole = self.run_of_digits();
        if matches!(self.byte_at(self.at), b'.' | b'e' | b'E') {
            return self.refused("no number of digits alone");
        }
        self.end_numeral(from)?;
        Ok(whole as usize)
    }

    /// Takes a sign, if there is one, and says whether it is a minus.
    #[inline]
    fn sign(&mut self) -> bool {
        if self.takes(b'-') {
            return true;
        }
        self.takes(b'+');
        false
    }

    #[inline]
    fn size(&mut self) -> Result<Size> {
        if !matches!(self.peek(), Some(b'0'..=b'9' | b'.')) {
            return self.refused("no number");
        }
        let from = self.at;
        let whole = self.run_of_digits();
        let mut size = Size {
            millionths: whole * ONE as u64,
            is_more: false,
        };
        if self.byte_at(self.at) == b'.' {
            self.at += 1;
            self.fraction(&mut size);
        }
        if self.at == from + 1 && self.text[from] == b'.' {
            return self.refused("a point alone");
        }
        if matches!(self.byte_at(self.at), b'e' | b'E') {
            size = self.with_exponent(from)?;
        }
        self.end_numeral(from)?;
        if size.millionths > LARGEST || (size.millionths == LARGEST && size.is_more) {
            return self.refused("a number is too large");
        }
        Ok(size)
    }

    /// The value of the digits here, at most one above the largest number.
    #[inline]
    fn run_of_digits(&mut self) -> u64 {
        let mut value = 0;
        while self.byte_at(self.at).is_ascii_digit() {
            let digit = u64::from(self.text[self.at] - b'0');
            value = (value * 10 + digit).min(10_000_001);
            self.at += 1;
        }
        value
    }

    /// Adds the digits after a point: six of them count.
    #[inline]
    fn fraction(&mut self, size: &mut Size) {
        let rest = &self.text[self.at..];
        let length = rest.iter().position(|byte| !byte.is_ascii_digit());
        let digits = &rest[..length.unwrap_or(rest.len())];
        let (first, finer) = digits.split_at(digits.len().min(6));
        let value = first
            .iter()
            .fold(0, |value, byte| value * 10 + u64::from(byte - b'0'));
        size.millionths += value * 10u64.pow(6 - first.len() as u32);
        size.is_more = finer.iter().any(|&byte| byte != b'0');
        self.at += digits.len();
    }

    fn end_numeral(&self, from: usize) -> Result<()> {
        let byte = self.byte_at(self.at);
        if byte.is_ascii_alphabetic() || byte == b'_' || byte == b'.' {
            return self.refused("something stands directly after a number");
        }
        if self.at - from > LONGEST_TOKEN {
            return self.refused("a number is too long");
        }
        Ok(())
    }

    /// The size of the numeral that begins at `from` and whose exponent begins here.
    #[cold]
    fn with_exponent(&mut self, from: usize) -> Result<Size> {
        let mantissa = &self.text[from..self.at];
        self.at += 1;
        let is_negative = self.byte_at(self.at) == b'-';
        if matches!(self.byte_at(self.at), b'+' | b'-') {
            self.at += 1;
        }
        if !self.byte_at(self.at).is_ascii_digit() {
            return self.refused("an exponent without digits");
        }
        let exponent = self.run_of_digits() as i64;
        if exponent > LARGEST_EXPONENT {
            return self.refused("an exponent is too large");
        }
        Ok(scaled(
            mantissa,
            if is_negative { -exponent } else { exponent },
        ))
    }
}

/// Digits, perhaps with a point, times a power of ten.
fn scaled(mantissa: &[u8], exponent: i64) -> Size {
    let decimals = mantissa
        .iter()
        .rev()
        .position(|&byte| byte == b'.')
        .unwrap_or(0);
    let digits = mantissa.iter().filter(|byte| byte.is_ascii_digit());
    // The place of a digit: how many digits of whole millionths follow it, below 0 after the sixth decimal place.
    let mut place = digits.clone().count() as i64 - decimals as i64 + exponent + 6;
    let mut size = Size {
        millionths: 0,
        is_more: false,
    };
    for byte in digits {
        place -= 1;
        let digit = u64::from(byte - b'0');
        if digit == 0 {
            continue;
        }
        match place {
            ..0 => size.is_more = true,
            0..=13 => size.millionths += digit * 10u64.pow(place as u32),
            14.. => size.millionths = 2 * LARGEST,
        }
    }
    size
}
