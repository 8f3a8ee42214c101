// Made of crates/tag_pool/src/looks/texts.rt, where the contracts are, by rust/generate.

//! The texts of shows and dumps.

use crate::base::digits::Buffer;
use crate::base::io::{Result, Write};
use crate::proved::tag_pool::shown::Shown;

/// Bytes in a line of a dump.
const LINE_BYTES: usize = 16;

/// Writes five lines: `depth=`, `busy=`, `cleared=`, `bits_per_word=` and `map_nr=`, each followed by its number. It
/// fails only if the writer does, which may then have taken a part of the text.
#[inline]
pub fn write_show<W: Write>(shown: &Shown, writer: &mut W) -> Result<()> {
    write_field(writer, b"depth=", shown.depth)?;
    write_field(writer, b"\nbusy=", shown.busy)?;
    write_field(writer, b"\ncleared=", shown.cleared)?;
    write_field(writer, b"\nbits_per_word=", shown.bits_per_word)?;
    write_field(writer, b"\nmap_nr=", shown.map_nr)?;
    writer.write_all(b"\n")?;
    Ok(())
}

#[inline]
fn write_field<W: Write>(writer: &mut W, words: &[u8], number: u32) -> Result<()> {
    let mut buffer = Buffer::new();
    writer.write_all(words)?;
    writer.write_all(buffer.format(number).as_bytes())
}

/// Writes the bytes in hexadecimal, sixteen in a line after the offset of the first, as `sbitmap_bitmap_show`
/// (lib/sbitmap.c) does. It writes one digit at a time, so pass it a buffered writer. It fails only if the writer does,
/// which may then have taken a part of the text.
#[inline]
pub fn write_dump<W: Write>(bytes: &[u8], writer: &mut W) -> Result<()> {
    for offset in 0..bytes.len() {
        write_head(writer, offset)?;
        write_gap(writer, offset)?;
        write_hex(writer, u64::from(bytes[offset]), 2)?;
        write_end(writer, bytes.len(), offset)?;
    }
    Ok(())
}

#[inline]
fn write_head<W: Write>(writer: &mut W, offset: usize) -> Result<()> {
    if offset % LINE_BYTES != 0 {
        return Ok(());
    }
    write_hex(writer, offset as u64, 8)?;
    writer.write_all(b":")?;
    Ok(())
}

#[inline]
fn write_gap<W: Write>(writer: &mut W, offset: usize) -> Result<()> {
    if offset % 2 != 0 {
        return Ok(());
    }
    writer.write_all(b" ")
}

#[inline]
fn write_end<W: Write>(writer: &mut W, count: usize, offset: usize) -> Result<()> {
    if offset % LINE_BYTES == LINE_BYTES - 1 || offset + 1 == count {
        return writer.write_all(b"\n");
    }
    Ok(())
}

/// Writes the last `width` hexadecimal digits of a number, the highest first.
#[inline]
fn write_hex<W: Write>(writer: &mut W, number: u64, width: u32) -> Result<()> {
    for done in 0..width {
        let digit = (number >> (4 * (width - done - 1))) % 16;
        writer.write_all(&[hex_digit(digit)])?;
    }
    Ok(())
}

#[inline]
fn hex_digit(digit: u64) -> u8 {
    if digit < 10 {
        b'0' + digit as u8
    } else {
        b'a' + (digit - 10) as u8
    }
}
