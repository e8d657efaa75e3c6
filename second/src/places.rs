//! Raster places and Z places: two kinds of number, with one passage each way.

/// A place counted row by row.
#[derive(Clone, Copy, Debug, PartialEq, Eq)]
pub struct RasterPlace(pub usize);

/// A place whose number interleaves the bits of row and column.
#[derive(Clone, Copy, Debug, Default, PartialEq, Eq, PartialOrd, Ord)]
pub struct ZPlace(pub usize);

impl RasterPlace {
    pub fn at(row: usize, column: usize, k: u32) -> RasterPlace {
        RasterPlace((row << k) | column)
    }

    pub fn to_z(self, k: u32) -> ZPlace {
        let (row, column) = (self.0 >> k, self.0 & ((1 << k) - 1));
        let interleaved = (0..k).map(|i| {
            let column_bit = (column >> i) & 1;
            let row_bit = (row >> i) & 1;
            (column_bit | (row_bit << 1)) << (2 * i)
        });
        ZPlace(interleaved.sum())
    }
}

impl ZPlace {
    pub fn to_raster(self, k: u32) -> RasterPlace {
        let gather =
            |first: u32| -> usize { (0..k).map(|i| ((self.0 >> (2 * i + first)) & 1) << i).sum() };
        RasterPlace::at(gather(1), gather(0), k)
    }
}

/// Writes numbers that lie in raster order into a slice in Z order.
pub fn into_z_order(raster: &[i32], k: u32, numbers: &mut [i32]) {
    for (place, number) in raster.iter().enumerate() {
        numbers[RasterPlace(place).to_z(k).0] = *number;
    }
}

/// The numbers of a slice in Z order, in raster order.
pub fn from_z_order(numbers: &[i32], k: u32) -> Vec<i32> {
    let raster_places = (0..numbers.len()).map(RasterPlace);
    raster_places
        .map(|place| numbers[place.to_z(k).0])
        .collect()
}

#[cfg(test)]
mod tests {
    use super::*;

    #[test]
    fn each_place_comes_back_at_every_size() {
        for k in 3..=8 {
            for place in (0..1 << (2 * k)).map(RasterPlace) {
                assert_eq!(place.to_z(k).to_raster(k), place);
            }
        }
    }

    #[test]
    fn both_orders_agree_on_every_number() {
        let raster: Vec<i32> = (0..256).collect();
        let mut numbers = vec![0; 256];
        into_z_order(&raster, 4, &mut numbers);
        assert_eq!(from_z_order(&numbers, 4), raster);
        for (place, number) in numbers.iter().enumerate() {
            assert_eq!(ZPlace(place).to_raster(4).0, *number as usize);
        }
    }
}
