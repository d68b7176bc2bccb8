//! A PNG of 8-bit grays, its data stored without compression.

/// The bytes of the file for rows of `width` grays.
pub fn encode(width: usize, grays: &[u8]) -> Vec<u8> {
    let height = grays.len() / width;
    let mut header = Vec::new();
    header.extend((width as u32).to_be_bytes());
    header.extend((height as u32).to_be_bytes());
    // Eight bits, gray, and the only compression, filter and order of rows there are.
    header.extend([8, 0, 0, 0, 0]);

    let mut rows = Vec::with_capacity(grays.len() + height);
    for row in grays.chunks_exact(width) {
        // Each row starts with its filter: none.
        rows.push(0);
        rows.extend_from_slice(row);
    }

    let mut file = b"\x89PNG\r\n\x1a\n".to_vec();
    add_chunk(&mut file, b"IHDR", &header);
    add_chunk(&mut file, b"IDAT", &stored(&rows));
    add_chunk(&mut file, b"IEND", &[]);
    file
}

fn add_chunk(file: &mut Vec<u8>, kind: &[u8; 4], data: &[u8]) {
    file.extend((data.len() as u32).to_be_bytes());
    let start = file.len();
    file.extend_from_slice(kind);
    file.extend_from_slice(data);
    let check = crc(&file[start..]);
    file.extend(check.to_be_bytes());
}

/// A zlib stream of stored blocks.
fn stored(data: &[u8]) -> Vec<u8> {
    let mut stream = vec![0x78, 0x01];
    let mut blocks = data.chunks(0xFFFF).peekable();
    while let Some(block) = blocks.next() {
        let length = block.len() as u16;
        stream.push(u8::from(blocks.peek().is_none()));
        stream.extend(length.to_le_bytes());
        stream.extend((!length).to_le_bytes());
        stream.extend_from_slice(block);
    }
    stream.extend(adler(data).to_be_bytes());
    stream
}

fn adler(data: &[u8]) -> u32 {
    let (mut a, mut b) = (1u32, 0u32);
    for &byte in data {
        a = (a + u32::from(byte)) % 65_521;
        b = (b + a) % 65_521;
    }
    b << 16 | a
}

fn crc(data: &[u8]) -> u32 {
    let mut crc = !0u32;
    for &byte in data {
        crc ^= u32::from(byte);
        for _ in 0..8 {
            let low = crc & 1;
            crc = (crc >> 1) ^ (0xEDB8_8320 * low);
        }
    }
    !crc
}

#[cfg(test)]
mod tests {
    use super::*;

    #[test]
    fn check_sums() {
        assert_eq!(crc(b"IEND"), 0xAE42_6082);
        assert_eq!(adler(b"Wikipedia"), 0x11E6_0398);
    }

    #[test]
    fn blocks_are_cut() {
        let data = vec![7; 0xFFFF + 1];
        let stream = stored(&data);
        assert_eq!(stream.len(), 2 + 5 + 0xFFFF + 5 + 1 + 4);
        assert_eq!(stream[2..7], [0, 0xFF, 0xFF, 0, 0]);
        assert_eq!(stream[7 + 0xFFFF..][..6], [1, 1, 0, 0xFE, 0xFF, 7]);
    }
}
