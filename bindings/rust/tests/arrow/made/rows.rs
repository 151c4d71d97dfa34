//! Values, truth values and texts.
use super::{Maker, Tree, numbers};
use crate::ranges::view;
use crate::raw::Buffer;

const FIXED: [(&str, usize); 25] = [
    ("c", 1),
    ("C", 1),
    ("s", 2),
    ("S", 2),
    ("i", 4),
    ("I", 4),
    ("l", 8),
    ("L", 8),
    ("e", 2),
    ("f", 4),
    ("g", 8),
    ("tdD", 4),
    ("tdm", 8),
    ("tts", 4),
    ("ttn", 8),
    ("tss:UTC", 8),
    ("tDu", 8),
    ("tiM", 4),
    ("tiD", 8),
    ("tin", 16),
    ("d:9,2", 16),
    ("d:9,2,32", 4),
    ("d:76,0,256", 32),
    ("w:0", 0),
    ("w:3", 3),
];

const TEXTS: [&str; 7] = [
    "",
    "a",
    "\u{e9}",
    "twelve bytes",
    "thirteen text",
    "\u{1F600}",
    "a text of more than twelve bytes",
];

impl Maker {
    pub(super) fn fixed(&mut self, len: usize) -> Tree {
        let (format, width) = self.one_of(&FIXED);
        let rows = self.rows(len);
        let values = Buffer::exact(&self.bytes(rows.end * width));
        self.made(format, &rows, vec![Some(values)], (vec![], None))
    }

    pub(super) fn bits(&mut self, len: usize) -> Tree {
        let rows = self.rows(len);
        let values = Buffer::exact(&self.bytes(rows.end.div_ceil(8)));
        self.made("b", &rows, vec![Some(values)], (vec![], None))
    }

    pub(super) fn nulls(&mut self, len: usize) -> Tree {
        let rows = self.rows(len);
        self.made("n", &rows, vec![], (vec![], None))
    }

    /// The bytes of a text or of a binary value. Most binary values are UTF-8 too.
    fn text(&mut self, is_text: bool) -> Vec<u8> {
        if is_text || self.below(8) > 0 {
            return self.one_of(&TEXTS).as_bytes().to_vec();
        }
        let len = self.below(20);
        self.bytes(len)
    }

    pub(super) fn texts(&mut self, len: usize) -> Tree {
        let (format, is_text, width) = self.one_of(&[
            ("u", true, 4),
            ("z", false, 4),
            ("U", true, 8),
            ("Z", false, 8),
        ]);
        let rows = self.rows(len);
        let mut bytes = self.text(is_text);
        let mut ends = vec![i64::try_from(bytes.len()).unwrap()];
        for place in 0..rows.end {
            bytes.extend(self.text(is_text && rows.is_valid(place)));
            ends.push(i64::try_from(bytes.len()).unwrap());
        }
        self.wrong_offsets(&mut ends, width);
        // There are as many bytes as the last offset says.
        let last = ends.last().and_then(|last| usize::try_from(*last).ok());
        let bytes = last.filter(|last| *last < 1 << 20).map(|last| {
            bytes.resize(last, b'x');
            Buffer::exact(&bytes)
        });
        let buffers = vec![Some(numbers(&ends, width)), bytes];
        self.made(format, &rows, buffers, (vec![], None))
    }

    pub(super) fn views(&mut self, len: usize) -> Tree {
        let (format, is_text) = self.one_of(&[("vu", true), ("vz", false)]);
        let rows = self.rows(len);
        let number = self.below(4);
        let mut buffers: Vec<Vec<u8>> = (0..number).map(|_| b"..".to_vec()).collect();
        let mut views = Vec::new();
        for place in 0..rows.end {
            let text = self.text(is_text && rows.is_valid(place));
            if text.len() > 12 && buffers.is_empty() {
                views.extend(view("", 0, 0));
                continue;
            }
            let buffer = self.below(number);
            views.extend(shown(&text, buffer, &mut buffers));
        }
        self.wrong_views(&mut views, &rows);
        let mut sizes: Vec<i64> = buffers
            .iter()
            .map(|it| it.len().try_into().unwrap())
            .collect();
        let mut all = vec![Some(Buffer::exact(&views))];
        all.extend(buffers.iter().map(|it| Some(Buffer::exact(it))));
        for (size, buffer) in sizes.iter_mut().zip(&mut all[1..]) {
            if self.lies() {
                *size = self.one_of(&[-1, i64::MIN, i64::MAX, 0, 77]);
                *buffer = None;
            }
        }
        all.push(Some(numbers(&sizes, 8)));
        self.made(format, &rows, all, (vec![], None))
    }
}

/// The view of bytes. Long ones are appended to a buffer.
fn shown(text: &[u8], buffer: usize, buffers: &mut [Vec<u8>]) -> [u8; 16] {
    let mut view = [0; 16];
    view[..4].copy_from_slice(&i32::try_from(text.len()).unwrap().to_ne_bytes());
    if text.len() <= 12 {
        view[4..4 + text.len()].copy_from_slice(text);
        return view;
    }
    let start = buffers[buffer].len();
    view[4..8].copy_from_slice(&text[..4]);
    view[8..12].copy_from_slice(&i32::try_from(buffer).unwrap().to_ne_bytes());
    view[12..].copy_from_slice(&i32::try_from(start).unwrap().to_ne_bytes());
    buffers[buffer].extend_from_slice(text);
    view
}
