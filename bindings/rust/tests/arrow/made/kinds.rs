//! Nested arrays.
use super::{Maker, Rows, Tree, numbers};

impl Maker {
    pub(super) fn dictionary(&mut self, len: usize, levels: usize) -> Tree {
        let (format, width) = self.one_of(&[
            ("c", 1),
            ("C", 1),
            ("s", 2),
            ("S", 2),
            ("i", 4),
            ("I", 4),
            ("l", 8),
            ("L", 8),
        ]);
        let number = self.below(30);
        let items = self.tree(number, levels);
        let mut rows = self.rows(len);
        if number == 0 {
            rows.valid = Some(vec![false; rows.end]);
        }
        let indices: Vec<i64> = (0..rows.end)
            .map(|place| {
                let is_any = !rows.is_valid(place) || self.lies();
                let any = [-1, 127, -128, 1 << 40, i64::MIN];
                if is_any {
                    self.one_of(&any)
                } else {
                    self.below(number).try_into().unwrap()
                }
            })
            .collect();
        let indices = vec![Some(numbers(&indices, width))];
        self.made(format, &rows, indices, (vec![], Some(items)))
    }

    pub(super) fn structs(&mut self, len: usize, levels: usize) -> Tree {
        let rows = self.rows(len);
        let columns = (0..self.below(4))
            .map(|_| {
                let len = self.child_len(rows.end);
                self.tree(len, levels)
            })
            .collect();
        self.made("+s", &rows, vec![], (columns, None))
    }

    /// Rows without nulls, at a random offset.
    fn whole(&mut self, len: usize) -> Rows {
        Rows {
            len,
            valid: None,
            ..self.rows(len)
        }
    }

    /// Offsets by chance, and the last one of them.
    fn offsets(&mut self, rows: &Rows, width: usize) -> (Vec<i64>, usize) {
        let mut ends = vec![i64::try_from(self.below(3)).unwrap()];
        for _ in 0..rows.end {
            let len = i64::try_from(self.below(4)).unwrap();
            ends.push(ends[ends.len() - 1] + len);
        }
        let last = usize::try_from(ends[ends.len() - 1]).unwrap();
        self.wrong_offsets(&mut ends, width);
        (ends, last)
    }

    pub(super) fn lists(&mut self, len: usize, levels: usize) -> Tree {
        let (format, width) = self.one_of(&[("+l", 4), ("+L", 8)]);
        let rows = self.rows(len);
        let (ends, last) = self.offsets(&rows, width);
        let items = self.child_len(last);
        let items = self.tree(items, levels);
        let ends = vec![Some(numbers(&ends, width))];
        self.made(format, &rows, ends, (vec![items], None))
    }

    pub(super) fn map(&mut self, len: usize) -> Tree {
        let rows = self.rows(len);
        let (ends, last) = self.offsets(&rows, 4);
        let entries = self.whole(last);
        let columns = (0..2).map(|_| self.bits(entries.end)).collect();
        let entries = self.made("+s", &entries, vec![], (columns, None));
        let ends = vec![Some(numbers(&ends, 4))];
        let (array, mut schema) = self.made("+m", &rows, ends, (vec![entries], None));
        schema.flags |= self.one_of(&[0, 4]);
        (array, schema)
    }

    pub(super) fn list_views(&mut self, len: usize, levels: usize) -> Tree {
        let (format, width) = self.one_of(&[("+vl", 4), ("+vL", 8)]);
        let rows = self.rows(len);
        let number = self.below(20);
        let items = self.tree(number, levels);
        let [mut offsets, mut sizes] = [Vec::new(), Vec::new()];
        for _ in 0..rows.end {
            let offset = self.below(number + 1);
            offsets.push(i64::try_from(offset).unwrap());
            sizes.push(i64::try_from(self.below(number - offset + 1)).unwrap());
        }
        let buffers = [offsets, sizes].map(|it| Some(numbers(&it, width)));
        self.made(format, &rows, buffers.into(), (vec![items], None))
    }

    pub(super) fn fixed_lists(&mut self, len: usize, levels: usize) -> Tree {
        let each = self.one_of(&[0, 1, 2, 5]);
        let rows = self.rows(len);
        let items = self.child_len(rows.end * each);
        let items = self.tree(items, levels);
        self.made(&format!("+w:{each}"), &rows, vec![], (vec![items], None))
    }

    pub(super) fn union(&mut self, len: usize, levels: usize) -> Tree {
        let is_sparse = self.below(2) == 0;
        let rows = self.rows(len);
        let ids = [0i64, 5, 127];
        let types: Vec<usize> = (0..rows.end).map(|_| self.below(3)).collect();
        let mut places = [0i64; 3];
        // A row names the next item of its child, or the last one again.
        let mut offsets: Vec<i64> = types
            .iter()
            .map(|&child| {
                let is_next = is_sparse || places[child] == 0 || self.below(4) > 0;
                places[child] += i64::from(is_next);
                places[child] - 1
            })
            .collect();
        let children = places
            .map(|number| {
                let number = usize::try_from(number).unwrap();
                let len = self.child_len(if is_sparse { rows.end } else { number });
                self.tree(len, levels)
            })
            .into();
        let mut types: Vec<i64> = types.iter().map(|child| ids[*child]).collect();
        self.wrong_items(&mut types, &mut offsets);
        let mut buffers = vec![Some(numbers(&types, 1))];
        if !is_sparse {
            buffers.push(Some(numbers(&offsets, 4)));
        }
        let format = if is_sparse {
            "+us:0,5,127"
        } else {
            "+ud:0,5,127"
        };
        self.made(format, &rows, buffers, (children, None))
    }

    pub(super) fn runs(&mut self, len: usize, levels: usize) -> Tree {
        let (format, width) = self.one_of(&[("s", 2), ("i", 4), ("l", 8)]);
        let rows = self.rows(len);
        let mut ends = Vec::new();
        let mut last = 0;
        while last < rows.end {
            last += 1 + self.below(5);
            ends.push(i64::try_from(last).unwrap());
        }
        if self.lies() {
            ends.pop();
        }
        let number = ends.len();
        let of = self.whole(number);
        // The ends before the offset may have any values.
        let before = (0..of.offset).map(|_| i64::try_from(self.below(9)).unwrap() - 4);
        let ends: Vec<i64> = before.collect::<Vec<_>>().into_iter().chain(ends).collect();
        let ends = vec![Some(numbers(&ends, width))];
        let ends = self.made(format, &of, ends, (vec![], None));
        let values = self.child_len(number);
        let values = self.tree(values, levels);
        self.made("+r", &rows, vec![], (vec![ends, values], None))
    }
}
