//! Files that are something else than is read here, by name, with what to do.

/// What these bytes are, if they are known to be something else.
pub fn named(bytes: &[u8]) -> Option<&'static str> {
    let begins = |front: &[u8]| bytes.starts_with(front);
    let zipped =
        "is a packed file: take the drawing out of it, as .wkt, .wkb or two numbers a line";
    Some(match bytes {
        _ if begins(b"\xff\xfe") || begins(b"\xfe\xff") => "is text in UTF-16: save it in UTF-8",
        _ if begins(b"AutoCAD Binary DXF") => DXF,
        _ if begins(b"\x89PNG") || begins(b"\xff\xd8\xff") || begins(b"GIF8") => {
            "is a picture, which has no corners: save the outline as WKT or two numbers a line"
        }
        _ if begins(b"%PDF") => {
            "is a PDF, which has no corners: save the outline as WKT or two numbers a line"
        }
        _ if begins(b"PK\x03\x04") || begins(b"\x1f\x8b") => zipped,
        _ => return None,
    })
}

const DXF: &str = "is DXF: save the outline as WKT, WKB or two numbers a line";

/// What a text is, if it is known to be something else.
pub fn named_text(text: &str) -> Option<&'static str> {
    let front = text.trim_start();
    let mut lines = text.lines().map(str::trim).filter(|line| !line.is_empty());
    let heads = [lines.next().unwrap_or_default(), lines.next().unwrap_or_default()];
    Some(match front.chars().next()? {
        '{' | '[' => {
            "is GeoJSON or other JSON: save the ring as WKT, POLYGON ((..)), or two numbers a line"
        }
        '<' if text.contains("<svg") => {
            "is SVG, a picture: save the outline as WKT or two numbers a line"
        }
        '<' => "is XML or HTML: save the outline as WKT or two numbers a line",
        '0' if heads == ["0", "SECTION"] => DXF,
        '9' if heads[0] == "999" && text.contains("SECTION") => DXF,
        'b' if front.starts_with("byrlygent inspection") => {
            "is the state of an inspection: name the drawing or the path that it is of"
        }
        _ => return None,
    })
}
