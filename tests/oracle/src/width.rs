//! Widths: every power of two with its neighbours, then numbers of every width.

use std::io::{self, Write};

use tantivy_bitpacker::compute_num_bits;

use crate::draw::Draw;
use crate::line::{Kind, Line};

pub fn write(count: u64, mut draw: Draw, out: &mut impl Write) -> io::Result<()> {
    let mut edges = (0..64)
        .map(|k| 1u64 << k)
        .flat_map(|power| [power - 1, power, power + 1])
        .chain([u64::MAX]);
    for _ in 0..count {
        let n = edges.next().unwrap_or_else(|| draw.any_width());
        let width = u64::from(compute_num_bits(n));
        Line::new(Kind::Width, [n], [width]).write(out)?;
    }
    Ok(())
}
