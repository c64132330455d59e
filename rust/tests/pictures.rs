//! Tries pictures: their form, their widths, their messages, long scores.

mod inputs;

use gregorio_chant::{draw, messages, PictureOptions, ShownMessages, Warnings};
use inputs::{inputs, of_project};
use std::collections::BTreeSet;
use std::fs;

const REFERENCES: [&str; 4] = ["amp;", "lt;", "gt;", "quot;"];

/// Returns the picture of `score` with these messages, at the usual width.
fn picture_with(shown: ShownMessages, score: &[u8]) -> String {
    draw(score, &PictureOptions::default().with_messages(shown)).unwrap()
}

/// Returns the picture of `score` at this width, with no messages.
fn picture_of_width(width: u32, score: &[u8]) -> String {
    draw(score, &PictureOptions::default().with_width(width)).unwrap()
}

/// Returns the width and the height that a picture says.
fn size_of(picture: &str) -> (u32, u32) {
    let numbers = picture.split_once("viewBox=\"0 0 ").unwrap().1.split_once('"').unwrap().0;
    let (width, height) = numbers.split_once(' ').unwrap();
    (width.parse().unwrap(), height.parse().unwrap())
}

fn is_name(text: &str) -> bool {
    !text.is_empty() && text.bytes().all(|it| it.is_ascii_alphanumeric() || b":-".contains(&it))
}

/// Returns whether each `&` of this text begins a reference, and nothing has to be escaped.
fn is_escaped(text: &str) -> bool {
    let mut parts = text.split('&').skip(1);
    !text.contains(['<', '>', '"']) && parts.all(|part| REFERENCES.iter().any(|it| part.starts_with(it)))
}

/// Returns whether these are attributes as they stand in a tag, after its name.
fn are_attributes(text: &str) -> bool {
    let parts: Vec<&str> = text.split('"').collect();
    let (last, pairs) = parts.split_last().unwrap();
    let is_pair = |pair: &[&str]| {
        let name = pair[0].strip_prefix(' ').and_then(|it| it.strip_suffix('='));
        pair.len() == 2 && name.map_or(false, is_name) && is_escaped(pair[1])
    };
    last.is_empty() && pairs.chunks(2).all(is_pair)
}

/// Returns whether this is the inside of a tag that opens an element.
fn is_opening(tag: &str) -> bool {
    let (name, attributes) = tag.split_at(tag.find(' ').unwrap_or(tag.len()));
    is_name(name) && are_attributes(attributes)
}

/// Returns whether a picture is one element of XML. No text has a `<` or a `>` in it.
fn is_one_element(picture: &str) -> bool {
    let mut open = Vec::new();
    for (number, piece) in picture.split('<').enumerate().skip(1) {
        let Some((tag, text)) = piece.split_once('>') else {
            return false;
        };
        let is_within = number == 1 || !open.is_empty();
        let is_tag = match (tag.strip_prefix('/'), tag.strip_suffix('/')) {
            (Some(name), _) => open.pop() == Some(name),
            (None, Some(empty)) => is_opening(empty),
            (None, None) => {
                open.push(tag.split(' ').next().unwrap());
                is_opening(tag)
            }
        };
        if !is_within || !is_tag || !is_escaped(text) || (open.is_empty() && !text.is_empty()) {
            return false;
        }
    }
    open.is_empty() && picture.starts_with("<svg ")
}

#[test]
fn what_is_no_element() {
    assert!(is_one_element("<svg a=\"1\" b-c=\"&lt;\"><g x=\"\"/>a &amp; b</svg>"));
    for text in [
        "",
        "<svg >",
        "<svg a=\"1\">",
        "<svg a=\"1\"></g>",
        "<svg a=\"1\"/><svg a=\"1\"/>",
        "<svg a=\"1\"/>a",
        "a<svg a=\"1\"/>",
        "<svg a=\"1\">&</svg>",
        "<svg a=\"1\">></svg>",
        "<svg a=\"&nbsp;\"/>",
        "<svg a=1/>",
        "<svg a=\"1/>",
        "<svg a=\"1\"b=\"2\"/>",
    ] {
        assert!(!is_one_element(text), "{text}");
    }
}

#[test]
fn each_picture_is_one_element_and_has_messages_only_if_they_are_asked_for() {
    let asked = [(ShownMessages::Errors, Warnings::Untold), (ShownMessages::All, Warnings::Told)];
    for score in BTreeSet::from_iter(inputs()) {
        let plain = picture_with(ShownMessages::None, &score);
        assert!(is_one_element(&plain), "{}", score.escape_ascii());
        assert_eq!(draw(&score, &PictureOptions::default()).as_ref(), Ok(&plain));
        for (shown, warnings) in asked {
            let picture = picture_with(shown, &score);
            let is_clean = messages(&score, warnings).unwrap().list.is_empty();
            assert!(is_one_element(&picture), "{}", score.escape_ascii());
            assert_eq!(picture == plain, is_clean, "{}", score.escape_ascii());
        }
    }
}

#[test]
fn messages_stand_in_a_picture_by_their_codes() {
    let score = b"%%\n(c4) Ky(f)ri(gfg&)e(e.) (::)\n";
    let has = |shown, code: &str| picture_with(shown, score).contains(&format!(">{code}<"));
    let rows = [
        (ShownMessages::None, false, false),
        (ShownMessages::Errors, true, false),
        (ShownMessages::All, true, true),
    ];
    for (shown, errors, warnings) in rows {
        assert_eq!((has(shown, "E1"), has(shown, "W1")), (errors, warnings), "{shown:?}");
    }
}

#[test]
fn widths_are_taken() {
    let score = fs::read(of_project("examples/introit.gabc")).unwrap();
    let usual = draw(&score, &PictureOptions::default()).unwrap();
    let narrow = picture_of_width(36_000, &score);
    assert_eq!((size_of(&usual).0, size_of(&narrow).0), (72_000, 36_000));
    assert!(size_of(&narrow).1 > size_of(&usual).1);
    assert_eq!(picture_of_width(72_000, &score), usual);
    let least = picture_of_width(12_000, &score);
    assert!([0, 1, 11_999].iter().all(|it| picture_of_width(*it, &score) == least));
    assert!(is_one_element(&picture_of_width(u32::MAX, &score)));
}

#[test]
fn a_picture_that_is_longer_than_its_first_room_is_whole() {
    let score = format!("%%\n(c4) {}", "(f.z)".repeat(2000));
    let picture = draw(&score, &PictureOptions::default()).unwrap();
    assert!(picture.len() > 50 * score.len(), "{} of {}", picture.len(), score.len());
    assert!(is_one_element(&picture));
    assert_eq!(picture.matches("href=\"#punctum\"").count(), 2000);
}
