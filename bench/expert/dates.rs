//! Reading and writing datetimes, where a day's text is read and written once as long as it repeats.
use crate::scan::load;
use std::arch::x86_64::*;

const DAYS: [&[u8; 3]; 7] = [b"Thu", b"Fri", b"Sat", b"Sun", b"Mon", b"Tue", b"Wed"];
const MONTHS: [&[u8; 3]; 12] =
    [b"Jan", b"Feb", b"Mar", b"Apr", b"May", b"Jun", b"Jul", b"Aug", b"Sep", b"Oct", b"Nov", b"Dec"];

pub const LENGTH: usize = 29;

fn days_before(year: u64, month: u64, day: u64) -> u64 {
    let year = year - u64::from(month < 3);
    let leap_days = year / 4 - year / 100 + year / 400;
    year * 365 + leap_days + (153 * ((month + 9) % 12) + 2) / 5 + day - 1 - 719_468
}

/// Year, month and day, counted from 1, so many days after the start of 1970.
fn civil_date(days: u64) -> (u64, u64, u64) {
    let days = days + 719_468;
    let (era, day) = (days / 146_097, days % 146_097);
    let year = (day - day / 1_460 + day / 36_524 - day / 146_096) / 365;
    let day = day - (365 * year + year / 4 - year / 100);
    let from_march = (5 * day + 2) / 153;
    let month = (from_march + 2) % 12 + 1;
    (400 * era + year + u64::from(month < 3), month, day - (153 * from_march + 2) / 5 + 1)
}

fn two_digits(text: &[u8]) -> Option<u64> {
    let (tens, ones) = (text[0].wrapping_sub(b'0'), text[1].wrapping_sub(b'0'));
    (tens < 10 && ones < 10).then_some(u64::from(tens) * 10 + u64::from(ones))
}

/// A month: its text, as `Jan 2000`, the days before it and its length.
#[derive(Clone, Copy)]
struct Month {
    text: [u8; 8],
    before: u64,
    length: u64,
}

impl Month {
    #[inline(never)]
    fn read(text: [u8; 8]) -> Option<Month> {
        let month = MONTHS.iter().position(|name| text[..3] == name[..])? as u64 + 1;
        let year = two_digits(&text[4..])? * 100 + two_digits(&text[6..])?;
        if text[3] != b' ' || year < 1970 {
            return None;
        }
        let (next_year, next) = if month == 12 { (year + 1, 1) } else { (year, month + 1) };
        let before = days_before(year, month, 1);
        Some(Month { text, before, length: days_before(next_year, next, 1) - before })
    }
}

fn is_day_name(text: &[u8]) -> bool {
    let named = |name: &[u8; 3]| u32::from_le_bytes([name[0], name[1], name[2], b',']);
    let found = u32::from_le_bytes([text[0], text[1], text[2], text[3]]);
    DAYS.iter().any(|name| found == named(name))
}

/// The day's text that was read last, as `Sat, 01 Jan 2000`, its first second, and its month.
pub struct DateReader {
    text: [u8; 16],
    second: u64,
    month: Month,
}

impl DateReader {
    pub fn new() -> DateReader {
        DateReader { text: [0; 16], second: 0, month: Month { text: [0; 8], before: 0, length: 0 } }
    }

    #[inline(never)]
    fn turn_to(&mut self, text: &[u8; 16]) -> Option<()> {
        let month = text[8..].try_into().expect("eight bytes");
        if self.month.text != month {
            self.month = Month::read(month)?;
        }
        let day = two_digits(&text[5..])?;
        if !is_day_name(text) || text[4] != b' ' || text[7] != b' ' || !(1..=self.month.length).contains(&day) {
            return None;
        }
        self.second = (self.month.before + day - 1) * 86_400;
        self.text = *text;
        Some(())
    }

    /// The seconds since 1970 that the 29 bytes from `at` on name.
    #[inline(always)]
    pub fn read(&mut self, text: &[u8], at: usize) -> Option<u64> {
        // Safety: the program is compiled for processors that have these instructions.
        unsafe {
            let differs = _mm_xor_si128(load(text, at), load(&self.text, 0));
            if _mm_testz_si128(differs, differs) == 0 {
                self.turn_to(text[at..at + 16].try_into().expect("16 bytes"))?;
            }
            // From byte 13 on: three of the year, which was read, and ` hh:mm:ss GMT`. What differs from
            // ` 00:00:00 GMT` are digits.
            let zero =
                _mm_setr_epi8(0, 0, 0, 0x20, 0x30, 0x30, 0x3a, 0x30, 0x30, 0x3a, 0x30, 0x30, 0x20, 0x47, 0x4d, 0x54);
            let most = _mm_setr_epi8(-1, -1, -1, 0, 2, 9, 0, 5, 9, 0, 5, 9, 0, 0, 0, 0);
            let digits = _mm_xor_si128(load(text, at + 13), zero);
            let fits = _mm_cmpeq_epi8(_mm_max_epu8(digits, most), most);
            let tens_and_ones = _mm_setr_epi8(0, 0, 0, 0, 10, 1, 0, 10, 1, 0, 10, 1, 0, 0, 0, 0);
            let units = _mm_setr_epi16(0, 0, 3600, 60, 60, 1, 0, 0);
            let seconds = _mm_madd_epi16(_mm_maddubs_epi16(digits, tens_and_ones), units);
            let both = _mm_cvtsi128_si64(_mm_srli_si128::<4>(seconds)) as u64;
            let clock = (both & 0xffff_ffff) + (both >> 32);
            (_mm_movemask_epi8(fits) == 0xffff && clock < 86_400).then_some(self.second + clock)
        }
    }
}

/// `hh:mm:ss`, all six digits at once: each pair stands in bytes of its own, and 205/2048 is near enough to a tenth.
#[inline(always)]
fn clock(second: u32) -> [u8; 8] {
    let minutes = second / 60;
    let pairs = u64::from(minutes / 60) | u64::from(minutes % 60) << 24 | u64::from(second % 60) << 48;
    let tens = (pairs.wrapping_mul(205) >> 11) & 0x0007_0000_0700_0007;
    (tens | (pairs - tens * 10) << 8).wrapping_add(0x3030_3a30_303a_3030).to_le_bytes()
}

/// `Sat, 01 Jan 2000` of the day so many days after the start of 1970.
fn day_text(days: u64) -> [u8; 16] {
    let (year, month, day) = civil_date(days);
    let digit = |number: u64| b'0' + (number % 10) as u8;
    let mut text = *b"Thu, 00 Jan 0000";
    text[..3].copy_from_slice(DAYS[(days % 7) as usize]);
    text[5..7].copy_from_slice(&[digit(day / 10), digit(day)]);
    text[8..11].copy_from_slice(MONTHS[month as usize - 1]);
    text[12..].copy_from_slice(&[digit(year / 1000), digit(year / 100), digit(year / 10), digit(year)]);
    text
}

/// The text of the day that was written last, its first second, and the days before its month.
pub struct DateWriter {
    text: [u8; LENGTH],
    midnight: u64,
    month: u64,
}

impl DateWriter {
    pub fn new() -> DateWriter {
        DateWriter { text: imf(0), midnight: 0, month: 0 }
    }

    #[inline(never)]
    fn turn_to(&mut self, days: u64) {
        // The first 28 days of a month differ in their name and number alone.
        let number = days.wrapping_sub(self.month).wrapping_add(1);
        if (1..=28).contains(&number) {
            self.text[..3].copy_from_slice(DAYS[(days % 7) as usize]);
            self.text[5..7].copy_from_slice(&[b'0' + (number / 10) as u8, b'0' + (number % 10) as u8]);
        } else {
            self.text[..16].copy_from_slice(&day_text(days));
            self.month = days + 1 - u64::from(self.text[5] - b'0') * 10 - u64::from(self.text[6] - b'0');
        }
        self.midnight = days * 86_400;
    }

    #[inline(always)]
    pub fn text(&mut self, second: u64) -> &[u8; LENGTH] {
        if second.wrapping_sub(self.midnight) >= 86_400 {
            self.turn_to(second / 86_400);
        }
        self.text[17..25].copy_from_slice(&clock((second - self.midnight) as u32));
        &self.text
    }
}

pub fn imf(second: u64) -> [u8; LENGTH] {
    let mut text = *b"Thu, 00 Jan 0000 00:00:00 GMT";
    text[..16].copy_from_slice(&day_text(second / 86_400));
    text[17..25].copy_from_slice(&clock((second % 86_400) as u32));
    text
}
