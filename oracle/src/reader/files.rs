//! Where a file has its VP8 frames.

fn number(bytes: &[u8], at: usize) -> Option<usize> {
    Some(u32::from_le_bytes(bytes.get(at..at + 4)?.try_into().ok()?) as usize)
}

/// The 'VP8 ' chunk of a WebP file.
fn webp(file: &[u8]) -> Option<&[u8]> {
    let mut at = 12;
    loop {
        let (name, size) = (file.get(at..at + 4)?, number(file, at + 4)?);
        if name == b"VP8 " {
            return file.get(at + 8..at + 8 + size);
        }
        at += 8 + size + size % 2;
    }
}

/// The first frame of an IVF file.
fn ivf(file: &[u8]) -> Option<&[u8]> {
    let head = usize::from(u16::from_le_bytes(file.get(6..8)?.try_into().ok()?));
    let size = number(file, head)?;
    file.get(head + 12..head + 12 + size)
}

/// The frame of a WebP file, the first of an IVF file, or the file itself.
pub fn frame(file: &[u8]) -> Option<&[u8]> {
    if file.starts_with(b"RIFF") && file.get(8..12) == Some(b"WEBP") {
        webp(file)
    } else if file.starts_with(b"DKIF") {
        ivf(file)
    } else {
        Some(file)
    }
}
