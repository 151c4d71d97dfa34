//! The table: vectors, which plain loops read, and the same rows as the batches of an Arrow stream,
//! which the engine reads. Both have the same values at nulls.

use vortex_bits::arrow::{Array, ArrowError, Export, ExportStream, Primitive};
use vortex_bits::{Bitmap, Bits};

/// The number of texts in the dictionary.
pub const CITIES: usize = 100;

/// The limits of prices that select half of the rows, and one in a hundred.
pub const HALF: f64 = 24_800.0;
pub const FEW: f64 = 64_790.0;

const NAMES: &str = "apple,banana,berry,cherry,date,elder,fig,grape,honeydew melon of the north,\
    kiwi,lemon,mango,nectarine,orange juice with pulp,pear,quince";

/// Random numbers.
pub struct Random(pub u64);

impl Random {
    /// Returns a number below `limit`.
    pub fn below(&mut self, limit: u32) -> u32 {
        self.0 ^= self.0 << 13;
        self.0 ^= self.0 >> 7;
        self.0 ^= self.0 << 17;
        let high = (u128::from(self.0) * u128::from(limit)) >> 64;
        u32::try_from(high).unwrap_or_default()
    }
}

/// Packed bits.
#[derive(Default, PartialEq)]
pub struct Packed {
    bytes: Vec<u8>,
    pub len: usize,
}

impl Packed {
    pub fn of(bits: Bits<'_>) -> Packed {
        let mut packed = Packed::default();
        bits.iter().for_each(|bit| packed.push(bit));
        packed
    }

    #[inline]
    pub fn get(&self, row: usize) -> bool {
        self.bytes[row / 8] >> (row % 8) & 1 == 1
    }

    #[inline]
    fn push(&mut self, bit: bool) {
        if self.len % 8 == 0 {
            self.bytes.push(0);
        }
        self.bytes[self.len / 8] |= u8::from(bit) << (self.len % 8);
        self.len += 1;
    }

    fn bitmap(&self) -> Bitmap {
        Bits::new(&self.bytes, 0, self.len).into()
    }
}

/// Numbers, some of which are null.
#[derive(Default, PartialEq)]
pub struct Numbers<T> {
    values: Vec<T>,
    valid: Packed,
}

impl<T: Primitive> Numbers<T> {
    #[inline]
    pub fn get(&self, row: usize) -> Option<T> {
        self.valid.get(row).then(|| self.values[row])
    }

    #[inline]
    fn push(&mut self, value: T, is_valid: bool) {
        self.values.push(value);
        self.valid.push(is_valid);
    }

    fn export(&self) -> Export {
        Export::values(self.values.clone(), Some(self.valid.bitmap()))
    }

    fn read(column: &Array) -> Result<Numbers<T>, ArrowError> {
        let values = column.values()?.to_vec();
        let valid = Packed::of(Bitmap::from(column.validity()?).bits());
        Ok(Numbers { values, valid })
    }
}

/// The columns of a batch.
#[derive(Default, PartialEq)]
pub struct Rows {
    pub id: Vec<i64>,
    pub number: Numbers<i64>,
    pub price: Numbers<f64>,
    /// Indices of the dictionary.
    pub city: Numbers<i32>,
    pub flag: Packed,
    names: Vec<u8>,
    /// The start and the end of each name.
    names_at: Vec<[u32; 2]>,
    has_name: Packed,
}

impl Rows {
    #[inline]
    pub fn name(&self, row: usize) -> Option<&[u8]> {
        self.has_name.get(row).then(|| self.text(row))
    }

    #[inline]
    fn text(&self, row: usize) -> &[u8] {
        let [from, to] = self.names_at[row];
        &self.names[from as usize..to as usize]
    }

    #[inline]
    fn push_name(&mut self, name: &[u8], is_valid: bool) {
        let from = self.names.len();
        self.names.extend_from_slice(name);
        let ends = [from, self.names.len()].map(|it| u32::try_from(it).unwrap_or_default());
        self.names_at.push(ends);
        self.has_name.push(is_valid);
    }

    /// Appends a row of `of`.
    #[inline]
    pub fn push_row(&mut self, of: &Rows, row: usize) {
        self.id.push(of.id[row]);
        self.number
            .push(of.number.values[row], of.number.valid.get(row));
        self.price
            .push(of.price.values[row], of.price.valid.get(row));
        self.city.push(of.city.values[row], of.city.valid.get(row));
        self.flag.push(of.flag.get(row));
        self.push_name(of.text(row), of.has_name.get(row));
    }

    /// Appends a random row. The sums of prices are exact in any order.
    fn push_random(&mut self, random: &mut Random, id: i64) {
        self.id.push(id);
        let (number, price) = (random.below(102_000), random.below(1 << 26));
        let number = i64::from(number) - 1_000;
        self.number.push(number, random.below(20) > 0);
        self.price
            .push(f64::from(price) / 1024.0, random.below(10) > 0);
        let city = i32::try_from(random.below(100)).unwrap_or_default();
        self.city.push(city, random.below(20) > 0);
        self.flag.push(random.below(2) > 0);
        let (word, number) = (random.below(16) as usize, random.below(2_000));
        let word = NAMES.split(',').nth(word).unwrap_or_default();
        match (random.below(10) > 0, number) {
            (false, _) => self.push_name(b"", false),
            (true, 0..1_000) => self.push_name(format!("{word} {number}").as_bytes(), true),
            (true, _) => self.push_name(word.as_bytes(), true),
        }
    }

    fn batch(&self) -> Result<Export, ArrowError> {
        let cities = Export::texts((0..CITIES).map(|it| format!("city{it}")), None).narrow()?;
        let names = (0..self.id.len()).map(|row| self.name(row).map(String::from_utf8_lossy));
        let columns = [
            Export::values(self.id.clone(), None).named("id"),
            self.number.export().named("number"),
            self.price.export().named("price"),
            self.city.export().with_dictionary(cities)?.named("city"),
            Export::bits(self.flag.bitmap(), None).named("flag"),
            Export::texts_or_nulls(names).narrow()?.named("name"),
        ];
        Ok(Export::batch(columns))
    }

    /// Returns the rows of a batch.
    pub fn read(batch: &Array) -> Result<Rows, ArrowError> {
        let names = batch.column("name")?;
        let mut rows = Rows {
            id: batch.column("id")?.values()?.to_vec(),
            number: Numbers::read(&batch.column("number")?)?,
            price: Numbers::read(&batch.column("price")?)?,
            city: Numbers::read(&batch.column("city")?)?,
            flag: Packed::of(batch.column("flag")?.bits()?),
            ..Rows::default()
        };
        for name in &names.texts()? {
            rows.push_name(name.unwrap_or_default(), name.is_some());
        }
        Ok(rows)
    }
}

/// The same rows twice.
pub struct Table {
    pub parts: Vec<Rows>,
    pub batches: Vec<Array>,
}

impl Table {
    /// Returns random rows, `batch` in each batch but the last.
    pub fn random(rows: u32, batch: usize) -> Result<Table, ArrowError> {
        let (mut random, mut parts) = (Random(1), Vec::<Rows>::new());
        for (row, id) in (0..rows as usize).zip(0..) {
            if row % batch == 0 {
                parts.push(Rows::default());
            }
            parts[row / batch].push_random(&mut random, id);
        }
        let batches = parts
            .iter()
            .map(Rows::batch)
            .collect::<Result<Vec<_>, _>>()?;
        let field = batches[0].field().clone();
        let stream = ExportStream::new(field, batches.into_iter().map(Ok));
        let batches = stream.into_stream()?.collect::<Result<_, _>>()?;
        Ok(Table { parts, batches })
    }
}
