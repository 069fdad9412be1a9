//! The list of docs/FORMAT.md: its dump and its table are the same bytes, and they hold what the page says.
use pelosumba::{List, Track};

fn page() -> String {
    std::fs::read_to_string(concat!(env!("CARGO_MANIFEST_DIR"), "/../../docs/FORMAT.md")).unwrap()
}

fn bytes(words: &str) -> Vec<u8> {
    words.split_whitespace().map(|word| u8::from_str_radix(word, 16).unwrap()).collect()
}

/// The lines `    10  00 00 ..` of the dump, each with its offset.
fn dumped(page: &str) -> Vec<u8> {
    let mut list = Vec::new();
    for line in page.lines().filter_map(|line| line.strip_prefix("    ")) {
        if let Some((offset, words)) = line.split_once("  ") {
            assert_eq!(usize::from_str_radix(offset, 16).unwrap(), list.len());
            list.extend(bytes(words));
        }
    }
    list
}

/// The rows `| 3 | `00 00 ..` | .. |` of the table, each with its offset.
fn tabled(page: &str) -> Vec<u8> {
    let mut list = Vec::new();
    for line in page.lines() {
        if let Some((offset, rest)) = line.strip_prefix("| ").and_then(|line| line.split_once(" | `")) {
            assert_eq!(offset.parse::<usize>().unwrap(), list.len());
            list.extend(bytes(rest.split_once('`').unwrap().0));
        }
    }
    list
}

#[test]
fn two_tracks() {
    let page = page();
    let bytes = dumped(&page);
    assert_eq!((bytes.len(), &bytes), (68, &tabled(&page)));
    let list = List::read(&bytes).unwrap();
    let tracks = [
        Track { state: vec![10.0, 0.0], triangle: vec![1.0, 0.0, 1.0] },
        Track { state: vec![30.5, -0.0], triangle: vec![4.0, 0.5, 1.0] },
    ];
    assert_eq!((list.dimension(), list.tracks()), (2, &tracks[..]));
    assert!(list.tracks()[1].state[1].is_sign_negative());
    assert_eq!(list.records().collect::<Vec<_>>(), [&bytes[2..27], &bytes[27..]]);
    assert_eq!(List::write(2, &tracks).unwrap().bytes(), bytes);
}
