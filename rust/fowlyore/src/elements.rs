//! The elements of a JSON array, as slices of its text.

/// The elements of an array of objects, each as its text. The array has to be valid JSON, as one is that the
/// library has read.
pub(crate) fn elements(array: &[u8]) -> Vec<&[u8]> {
    let (mut found, mut begin, mut depth) = (Vec::new(), 0, 0);
    let (mut is_string, mut is_escaped) = (false, false);
    for (at, byte) in array.iter().enumerate() {
        match byte {
            _ if is_escaped => is_escaped = false,
            b'\\' if is_string => is_escaped = true,
            b'"' => is_string = !is_string,
            _ if is_string => {}
            b'[' | b'{' => {
                if depth == 1 {
                    begin = at;
                }
                depth += 1;
            }
            b']' | b'}' => {
                depth -= 1;
                if depth == 1 {
                    found.push(&array[begin..=at]);
                }
            }
            _ => {}
        }
    }
    found
}
