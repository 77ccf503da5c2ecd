//! What stands in an object of JSON, as `owl` prints it: one a line.

/// The value of a key, as it is spelled: a number, `null`, a text with its quotes, or an object without others in it. The text may have no quotes
/// inside, as the names of the night have none.
pub fn value<'a>(object: &'a str, key: &str) -> Option<&'a str> {
    let key = format!("\"{key}\":");
    let value = &object[object.find(&key)? + key.len()..];
    let end = match value.as_bytes().first()? {
        b'{' => value.find('}')? + 1,
        b'"' => value[1..].find('"')? + 2,
        _ => value.find([',', '}'])?,
    };
    Some(&value[..end])
}

#[cfg(test)]
mod tests {
    use super::value;

    #[test]
    fn values_are_found_by_their_keys() {
        let line = r#"{"summary":{"file":"a.trc","refused":2,"refused_by_number":{"2":1,"7":1},"first":null,"seconds":0.012}}"#;
        assert_eq!(value(line, "file"), Some("\"a.trc\""));
        assert_eq!(value(line, "refused"), Some("2"));
        let by_number = value(line, "refused_by_number");
        assert_eq!(by_number, Some(r#"{"2":1,"7":1}"#));
        assert_eq!(value(line, "first"), Some("null"));
        assert_eq!(value(line, "seconds"), Some("0.012"));
        assert_eq!(value(line, "second"), None);
    }
}
