//! Classes of bytes, and looks at 16 bytes at once.
use std::arch::x86_64::*;

/// How many bytes may be read behind each text.
pub const PADDING: usize = 128;

pub const BLANK: u8 = 1;
pub const NAME: u8 = 2;
pub const TOKEN: u8 = 4;
pub const TARGET: u8 = 8;
/// What may stand between quotation marks without a backslash.
pub const PLAIN: u8 = 16;
pub const CLEAN: u8 = 32;

const fn classes_of(b: u8) -> u8 {
    let is_visible = matches!(b, 0x21..=0x7e);
    let is_blank = matches!(b, b' ' | b'\t' | b'\r' | b'\n');
    let is_text = b >= 0x20 && b != 0x7f;
    let is_name = b.is_ascii_alphanumeric()
        || matches!(b, b'!' | b'#' | b'$' | b'&' | b'*' | b'+' | b'-' | b'.' | b'^' | b'_' | b'`' | b'|' | b'~');
    let is_token = is_visible && !matches!(b, b'"' | b',' | b';' | b'\\');
    let is_plain = (is_text || is_blank) && !matches!(b, b'"' | b'\\');
    let is_clean = is_visible && !matches!(b, b'"' | b'<' | b'>');
    is_blank as u8 * BLANK
        | is_name as u8 * NAME
        | is_token as u8 * TOKEN
        | (is_text && b != b'>') as u8 * TARGET
        | is_plain as u8 * PLAIN
        | is_clean as u8 * CLEAN
}

static CLASSES: [u8; 256] = {
    let mut classes = [0; 256];
    let mut b = 0;
    while b < 256 {
        classes[b] = classes_of(b as u8);
        b += 1;
    }
    classes
};

#[inline(always)]
pub fn is(b: u8, class: u8) -> bool {
    CLASSES[b as usize] & class != 0
}

/// The 16 bytes from a place on.
#[inline(always)]
pub fn load(text: &[u8], at: usize) -> __m128i {
    let bytes = &text[at..at + 16];
    // Safety: these are 16 bytes.
    unsafe { _mm_loadu_si128(bytes.as_ptr().cast()) }
}

/// The place of the first byte from `at` on that isn't clean, and the end of the text if all are. A byte is clean if
/// its low and its high half have a bit in common in two tables.
#[inline(always)]
pub fn find_unclean(text: &[u8], mut at: usize) -> usize {
    // Safety: the program is compiled for processors that have these instructions.
    unsafe {
        let low = _mm_setr_epi8(14, 15, 14, 15, 15, 15, 15, 15, 15, 15, 15, 15, 13, 15, 13, 7);
        let high = _mm_setr_epi8(0, 0, 1, 2, 4, 4, 4, 8, 0, 0, 0, 0, 0, 0, 0, 0);
        while at + 16 <= text.len() {
            let bytes = load(text, at);
            let halves = _mm_and_si128(_mm_srli_epi16::<4>(bytes), _mm_set1_epi8(15));
            let common = _mm_and_si128(_mm_shuffle_epi8(low, bytes), _mm_shuffle_epi8(high, halves));
            let unclean = _mm_movemask_epi8(_mm_cmpeq_epi8(common, _mm_setzero_si128()));
            if unclean != 0 {
                return at + unclean.trailing_zeros() as usize;
            }
            at += 16;
        }
    }
    text.len()
}

/// The place of the first byte from `at` on that is a control byte, `"`, `\` or 0x7F, and the end of the text if
/// none is.
#[inline(always)]
pub fn find_unplain(text: &[u8], mut at: usize) -> usize {
    // Safety: as above.
    unsafe {
        while at + 16 <= text.len() {
            let bytes = load(text, at);
            let control = _mm_cmpeq_epi8(_mm_min_epu8(bytes, _mm_set1_epi8(0x1f)), bytes);
            let quote = _mm_cmpeq_epi8(bytes, _mm_set1_epi8(b'"' as i8));
            let slash = _mm_cmpeq_epi8(bytes, _mm_set1_epi8(b'\\' as i8));
            let delete = _mm_cmpeq_epi8(bytes, _mm_set1_epi8(0x7f));
            let any = _mm_or_si128(_mm_or_si128(control, quote), _mm_or_si128(slash, delete));
            let found = _mm_movemask_epi8(any);
            if found != 0 {
                return at + found.trailing_zeros() as usize;
            }
            at += 16;
        }
    }
    text.len()
}

/// A text of up to 32 bytes that is looked for at a place.
pub struct Piece {
    text: [u8; 32],
    mask: [u8; 32],
    pub length: usize,
}

impl Piece {
    pub fn of(text: &[u8]) -> Option<Piece> {
        let mut piece = Piece { text: [0; 32], mask: [0; 32], length: text.len() };
        piece.text.get_mut(..text.len())?.copy_from_slice(text);
        piece.mask[..text.len()].fill(0xff);
        Some(piece)
    }

    /// Whether the text stands there; 32 bytes are read.
    #[inline(always)]
    pub fn stands(&self, text: &[u8], at: usize) -> bool {
        // Safety: as above.
        unsafe {
            let differs = |half: usize| {
                let differs = _mm_xor_si128(load(text, at + half), load(&self.text, half));
                _mm_and_si128(differs, load(&self.mask, half))
            };
            let any = _mm_or_si128(differs(0), differs(16));
            _mm_testz_si128(any, any) == 1
        }
    }
}
