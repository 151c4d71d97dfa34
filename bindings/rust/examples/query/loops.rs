//! The query, by plain loops over rows.

use vortex_bits::arrow::{Array, ArrowError};
use vortex_bits::{Bits, Validity};

use super::engine::{Answer, Question};

fn bit(bits: Bits<'_>, row: usize) -> bool {
    let bit = bits.offset() + row;
    bits.bytes()[bit / 8] >> (bit % 8) & 1 == 1
}

fn is_valid(valid: Validity<'_>, row: usize) -> bool {
    valid.bits().is_none_or(|bits| bit(bits, row))
}

fn add(
    answer: &mut Answer,
    c_valid: &mut Vec<bool>,
    batch: &Array,
    question: &Question,
) -> Result<(), ArrowError> {
    let [a, b, c, flag] = ["a", "b", "c", "flag"].map(|name| batch.column(name));
    let (a, b, c, flag) = (a?, b?, c?, flag?);
    let (a_valid, b_valid, c_valids) = (a.validity()?, b.validity()?, c.validity()?);
    let (a, b, c) = (a.values::<i32>()?, b.values::<i64>()?, c.values::<f64>()?);
    let (flags, flag_valid) = (flag.bits()?, flag.validity()?);
    for row in 0..batch.len() {
        let has_both = is_valid(a_valid, row) && is_valid(b_valid, row);
        if has_both && a[row] > question.limit {
            answer.first = answer.first.or(Some(answer.rows + row));
            if answer.b.len() == question.nth {
                answer.nth = Some(answer.rows + row);
            }
            answer.b.push(b[row]);
            answer.c.push(c[row]);
            answer.sum_b += i128::from(b[row]);
            let has_c = is_valid(c_valids, row);
            c_valid.push(has_c);
            if has_c {
                answer.sum_c += c[row];
            }
        }
        answer.nulls += usize::from(!has_both);
        answer.flags += usize::from(bit(flags, row) && is_valid(flag_valid, row));
    }
    answer.rows += batch.len();
    Ok(())
}

pub fn ask(
    batches: impl Iterator<Item = Result<Array, ArrowError>>,
    question: &Question,
) -> Result<Answer, ArrowError> {
    let (mut answer, mut c_valid) = (Answer::default(), Vec::new());
    for batch in batches {
        add(&mut answer, &mut c_valid, &batch?, question)?;
    }
    for &row in &question.at {
        let row = row as usize;
        if row < answer.b.len() {
            answer.taken.push(answer.b[row]);
            answer.taken_nulls += usize::from(!c_valid[row]);
        }
    }
    answer.c_valid = c_valid.into();
    Ok(answer)
}
