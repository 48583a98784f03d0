//! Reading of standard input, with a clear word where it is cut off.
use std::io::Read;

/// Fills `buffer`; `false` where the input ends before its first byte, an error where it ends
/// inside.
pub fn read_or_end(input: &mut impl Read, buffer: &mut [u8]) -> Result<bool, String> {
    let mut filled = 0;
    while filled < buffer.len() {
        match input.read(&mut buffer[filled..]) {
            Ok(0) if filled == 0 => return Ok(false),
            Ok(0) => return Err(format!("cut off: {filled} of {} bytes", buffer.len())),
            Ok(n) => filled += n,
            Err(e) if e.kind() == std::io::ErrorKind::Interrupted => {}
            Err(e) => return Err(format!("not readable: {e}")),
        }
    }
    Ok(true)
}

/// The next graph of a batch, `None` at its end.
pub fn read_graph(input: &mut impl Read) -> Result<Option<Vec<u8>>, String> {
    let mut prefix = [0; 4];
    if !read_or_end(input, &mut prefix).map_err(|cut| format!("{cut} of its length prefix"))? {
        return Ok(None);
    }
    let length = u32::from_le_bytes(prefix);
    let mut graph = Vec::new();
    input
        .take(u64::from(length))
        .read_to_end(&mut graph)
        .map_err(|e| format!("not readable: {e}"))?;
    if graph.len() < length as usize {
        return Err(format!("cut off: {} of {length} bytes", graph.len()));
    }
    Ok(Some(graph))
}
