//! Whether text is well-formed XML, as far as pictures need it: tags that close in order, quoted attributes, no stray `<` or `&`.

/// What is wrong, and where it begins.
pub fn well_formed(text: &str) -> Result<(), String> {
    let mut open: Vec<&str> = Vec::new();
    let mut rest = text;
    while let Some((before, after)) = rest.split_once('<') {
        entities(before)?;
        let wrong = |what: &str| Err(format!("{what}: <{}", after.chars().take(60).collect::<String>()));
        let Some((tag, behind)) = after.split_once('>') else { return wrong("a tag has no end") };
        if open.is_empty() && !before.trim().is_empty() {
            return wrong("text outside of all tags");
        }
        if let Some(name) = tag.strip_prefix('/') {
            if open.pop() != Some(name) {
                return wrong("a tag that isn't open is closed");
            }
        } else {
            let (inner, alone) = tag.strip_suffix('/').map_or((tag, false), |inner| (inner, true));
            let (name, attributes) = inner.split_once(' ').unwrap_or((inner, ""));
            if name.is_empty() || !name.chars().all(|c| c.is_ascii_alphanumeric()) || attributes_of(attributes).is_none() {
                return wrong("no sound tag");
            }
            if !alone {
                open.push(name);
            }
        }
        rest = behind;
    }
    match open.last() {
        Some(name) => Err(format!("<{name}> isn't closed")),
        None if rest.trim().is_empty() => Ok(()),
        None => Err("text behind the end".to_string()),
    }
}

/// `name="value"` with one space between, each name once.
fn attributes_of(text: &str) -> Option<Vec<&str>> {
    let (mut names, mut rest) = (Vec::new(), text);
    while !rest.is_empty() {
        let (name, after) = rest.split_once("=\"")?;
        let (value, behind) = after.split_once('"')?;
        let sound = !name.is_empty() && name.chars().all(|c| c.is_ascii_alphanumeric() || c == '-' || c == ':');
        if !sound || names.contains(&name) || value.contains('<') || entities(value).is_err() {
            return None;
        }
        names.push(name);
        rest = behind.strip_prefix(' ').unwrap_or(behind);
    }
    Some(names)
}

fn entities(text: &str) -> Result<(), String> {
    let known = |part: &str| ["amp;", "lt;", "gt;", "quot;"].iter().any(|name| part.starts_with(name));
    match text.split('&').skip(1).all(known) {
        true => Ok(()),
        false => Err(format!("a stray & in: {text}")),
    }
}

#[test]
fn told_apart() {
    for sound in ["<a/>", "<a b=\"c\" d-e=\"&amp;\"><f>g &lt; h</f></a>\n", "<a>\n<b/></a>"] {
        assert_eq!(well_formed(sound), Ok(()), "{sound}");
    }
    for broken in ["<a>", "<a></b>", "<a b=c/>", "<a b=\"c/>", "<a>&</a>", "<a/>b", "<a b=\"1\" b=\"2\"/>", "</a>", "<a", "a<b/>"]
    {
        assert!(well_formed(broken).is_err(), "{broken}");
    }
}
