//! Bytes as text: lowered comparison, cleaned names, patterns, covering, address ranges.
//!
//! Nothing here builds a lowered or normalised copy: the comparisons lower as they go.

/// Both texts are equal once their letters A to Z are lowered.
pub fn same_lowered(one: &[u8], other: &[u8]) -> bool {
    one.eq_ignore_ascii_case(other)
}

/// `text`, taken as it stands, equals `name` lowered.
pub fn is_lowered(text: &[u8], name: &[u8]) -> bool {
    text.len() == name.len() && text.iter().zip(name).all(|(t, n)| *t == n.to_ascii_lowercase())
}

/// A pattern that begins with `*.` stands for its domain and for one label under it; any other is plain text.
pub fn match_name(pattern: &[u8], name: &[u8], same: impl Fn(&[u8], &[u8]) -> bool) -> bool {
    if !pattern.starts_with(b"*.") {
        return same(pattern, name);
    }
    let (domain, tail) = (&pattern[2..], &pattern[1..]);
    if domain.is_empty() {
        return false;
    }
    if same(domain, name) {
        return true;
    }
    match name.len().checked_sub(tail.len()) {
        Some(label) if label > 0 => same(tail, &name[label..]) && !name[..label].contains(&b'.'),
        _ => false,
    }
}

/// One dot comes off the end. Upstream also lowers here; every comparison of a cleaned name lowers both sides instead.
pub fn clean_name(name: &[u8]) -> &[u8] {
    name.strip_suffix(b".").unwrap_or(name)
}

/// A constraint covers everything if empty, else itself and what ends with it at a label's edge. Case doesn't count.
pub fn covers(constraint: &[u8], name: &[u8]) -> bool {
    if constraint.is_empty() {
        return true;
    }
    let Some(before) = name.len().checked_sub(constraint.len()) else {
        return false;
    };
    let at_an_edge = before == 0 || constraint[0] == b'.' || name[before - 1] == b'.';
    at_an_edge && same_lowered(constraint, &name[before..])
}

/// Host text, or `*.` before host text that holds a dot. Reading: letters of both cases are letters.
pub fn check_valid_pattern(pattern: &[u8]) -> bool {
    match pattern.strip_prefix(b"*.") {
        Some(rest) => is_host_text(rest) && rest.contains(&b'.'),
        None => is_host_text(pattern),
    }
}

fn is_host_text(text: &[u8]) -> bool {
    let allowed = |byte: &u8| byte.is_ascii_alphanumeric() || matches!(byte, b'-' | b'_' | b'.');
    !text.is_empty() && text.iter().all(allowed)
}

/// Equal after lowering, dropping outer spaces and folding runs of spaces. Reading: byte 32 is the only space.
pub fn same_normalized(one: &[u8], other: &[u8]) -> bool {
    one == other || normalize_string(one).eq(normalize_string(other))
}

fn normalize_string(text: &[u8]) -> impl Iterator<Item = u8> + '_ {
    let inner = drop_outer_spaces(text);
    // The first inner byte is no space, so every space has a byte before it.
    let kept = move |&(at, byte): &(usize, &u8)| *byte != b' ' || inner[at - 1] != b' ';
    inner.iter().enumerate().filter(kept).map(|(_, byte)| byte.to_ascii_lowercase())
}

fn drop_outer_spaces(text: &[u8]) -> &[u8] {
    let Some(first) = text.iter().position(|byte| *byte != b' ') else {
        return &[];
    };
    let last = text.iter().rposition(|byte| *byte != b' ').unwrap_or(first);
    &text[first..=last]
}

/// An address of 4 or 16 bytes lies in a range of twice its length: base, then mask.
pub fn ip_addr_in_range(range: &[u8], addr: &[u8]) -> bool {
    if !matches!(addr.len(), 4 | 16) || range.len() != 2 * addr.len() {
        return false;
    }
    let (base, mask) = range.split_at(addr.len());
    base.iter().zip(addr).zip(mask).all(|((b, a), m)| b & m == a & m)
}
