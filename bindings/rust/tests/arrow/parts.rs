//! Parts of texts and lists whose offsets decrease after the part. The buffer ends at the array's
//! last offset, so a part whose offsets are greater isn't read.
use std::panic::{AssertUnwindSafe, catch_unwind};

use vortex_bits::Bits;
use vortex_bits::arrow::{Array, Export};

use crate::plain::Random;
use crate::ranges::offsets;
use crate::raw::{self, Buffer, Count, Schema, import};

/// A column between these offsets, of a struct that leaves out the column's first `start` rows and
/// its last `left` ones. There are as many bytes or items as the last offset says.
fn column(numbers: &[i64], format: &str, start: usize, left: usize) -> Array {
    let none = Count::default();
    let last = usize::try_from(numbers[numbers.len() - 1]).unwrap_or(0);
    let offsets = offsets(numbers, matches!(format, "U" | "Z" | "+L"), 0);
    let len = numbers.len() - 2;
    let [rows, before, items] =
        [len - start - left, start, last].map(|it| i64::try_from(it).unwrap());
    let all = vec![b'x'; last];
    let (buffers, children, fields) = if format.starts_with('+') {
        let items = raw::Array::new(items, vec![None, Some(Buffer::exact(&all))], &none);
        let fields = vec![Schema::new("item", "C", &none)];
        (vec![None, Some(offsets)], vec![items], fields)
    } else {
        let bytes = Some(Buffer::exact(&all));
        (vec![None, Some(offsets), bytes], vec![], vec![])
    };
    let len = i64::try_from(len).unwrap();
    let column = raw::Array::of(len, buffers, children, None, &none).at(1);
    let rows = raw::Array::of(rows, vec![None], vec![column], None, &none).at(before);
    let fields = vec![Schema::of("s", format, fields, None, &none)];
    let rows = import(rows, Schema::of("", "+s", fields, None, &none)).unwrap();
    rows.column("s").unwrap()
}

/// The error of each reader of a column; an empty text if it reads it.
fn answers(column: &Array) -> Vec<String> {
    let mut answers = vec![column.ranges().map(drop)];
    if !column.field().format().starts_with('+') {
        let all_x = |bytes: &[u8]| assert!(bytes.iter().all(|it| *it == b'x'));
        answers.extend([
            column.bytes().map(all_x),
            column.texts().map(|it| it.iter().flatten().for_each(all_x)),
            Export::texts_kept(column, None::<Bits>).map(drop),
        ]);
    }
    answers
        .into_iter()
        .map(|answer| answer.map_or_else(|error| error.to_string(), |()| String::new()))
        .collect()
}

/// Why rows between some of the offsets aren't read.
fn fault(part: &[i64], last: i64) -> String {
    let mut before = 0;
    for (place, &offset) in part.iter().enumerate() {
        if offset < before {
            let row = place.saturating_sub(1);
            return format!("column \"s\": row {row} lies from {before} to {offset}");
        }
        before = offset;
    }
    if before > last {
        return format!("column \"s\": rows end at {before}, and the last offset is {last}");
    }
    String::new()
}

#[test]
fn parts_are_read_up_to_the_last_offset_of_all() {
    let mut random = Random(5);
    let mut refused = 0;
    for round in 0..120 {
        let numbers: Vec<i64> = (0..7)
            .map(|_| i64::from(random.bytes(1)[0] % 16) - i64::from(round % 8 == 0))
            .collect();
        for format in ["u", "z", "U", "Z", "+l", "+L", "+m"] {
            for (start, left) in [(0, 0), (1, 0), (0, 1), (2, 2), (0, 4), (4, 0), (1, 3)] {
                let column = column(&numbers, format, start, left);
                let part = &numbers[1 + start..7 - left];
                let wanted = fault(part, numbers[6]);
                refused += usize::from(wanted.contains("last offset"));
                assert!(
                    answers(&column).iter().all(|it| *it == wanted),
                    "{format} {numbers:?} {start} {left} {wanted}"
                );
                let taken = |places: &[usize]| column.take(places).map(|it| it.len());
                let all: Vec<usize> = (0..column.len()).collect();
                assert_eq!(taken(&all).is_ok(), wanted.is_empty());
                assert_eq!(taken(&[]), Ok(0));
                // A slice of the column has the error of its own rows.
                let wanted = fault(&part[..2], numbers[6]);
                assert!(answers(&column.slice(..1)).iter().all(|it| *it == wanted));
                let none = column.slice(1..1);
                assert!(answers(&none).iter().all(String::is_empty));
            }
        }
    }
    assert!(refused > 300, "{refused}");
}

#[test]
fn a_hundred_bytes_of_five_are_refused() {
    let all = column(&[0, 0, 100, 5], "u", 0, 0);
    assert_eq!(
        all.ranges().unwrap_err().to_string(),
        "column \"s\": row 1 lies from 100 to 5"
    );
    let wanted = "column \"s\": rows end at 100, and the last offset is 5";
    let of_struct = column(&[0, 0, 100, 5], "u", 0, 1);
    for part in [all.slice(..1), of_struct] {
        assert!(answers(&part).iter().all(|it| it == wanted));
    }
    for (numbers, said) in [
        (
            [0, 0, 100, -1],
            "rows end at 100, and the last offset is -1",
        ),
        ([0, 5, 5, 4], "rows end at 5, and the last offset is 4"),
        (
            [0, 0, i64::MAX, 3],
            "rows end at 9223372036854775807, and the last offset is 3",
        ),
    ] {
        let part = column(&numbers, "Z", 0, 1);
        assert_eq!(answers(&part), vec![format!("column \"s\": {said}"); 4]);
    }
    assert_eq!(answers(&column(&[0, 9, 5, 5], "U", 1, 0)), vec![""; 4]);
}

/// An exported part is an array of its own, whose last offset is that of the part.
#[test]
fn parts_that_end_behind_all_are_not_handed_on() {
    for format in ["u", "Z", "+l"] {
        let all = column(&[0, 0, 100, 3, 5], format, 0, 0);
        let of_struct = column(&[0, 0, 100, 3, 5], format, 0, 2);
        for part in [all.slice(..1), of_struct] {
            let wanted = "column \"s\": rows end at 100, and the last offset is 5";
            let error = part.clone().try_into_export().map(drop).unwrap_err();
            assert_eq!(error.to_string(), wanted);
            let refused = catch_unwind(AssertUnwindSafe(|| Export::from(part))).unwrap_err();
            assert_eq!(refused.downcast_ref::<String>().unwrap(), wanted);
        }
        // Other parts are exported as they came, and are read as before.
        for part in [
            all.slice(..),
            all.slice(2..),
            all.slice(1..1),
            all.slice(..2),
        ] {
            let wanted = answers(&part);
            assert_eq!(answers(&Export::from(part).into_array()), wanted);
        }
    }
}
