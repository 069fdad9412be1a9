//! The lists of the folder demo: what they hold, how they are merged, and what a merger by place would have done.
use pelosumba::{fuse, fused, merge, merge_list, List, Track, Verdict};

fn read(name: &str) -> List {
    let folder = concat!(env!("CARGO_MANIFEST_DIR"), "/../../demo/");
    List::read(&std::fs::read(format!("{folder}{name}.trk")).unwrap()).unwrap()
}

fn collars(places: &[[f64; 2]]) -> Vec<Track> {
    places.iter().map(|place| Track { state: place.to_vec(), triangle: vec![1.0, 0.0, 1.0] }).collect()
}

fn lists() -> [List; 3] {
    ["base", "ours", "theirs"].map(read)
}

#[test]
fn what_they_hold() {
    let [base, ours, theirs] = lists();
    assert_eq!(base.tracks(), collars(&[[10.0, 40.0], [25.0, 40.0], [40.0, 40.0], [55.0, 40.0], [70.0, 40.0]]));
    assert_eq!(ours.tracks(), collars(&[[10.0, 40.0], [40.0, 40.0], [57.0, 41.0], [71.0, 41.0], [100.0, 10.0]]));
    let sixth = [[10.0, 40.0], [25.0, 40.0], [40.0, 40.0], [55.0, 40.0], [69.0, 42.0], [90.0, 80.0]];
    assert_eq!(theirs.tracks(), collars(&sixth));
}

#[test]
fn by_distance() {
    let [base, ours, theirs] = lists();
    let merged = merge(&base, &ours, &theirs, 1.0, 16.0).unwrap();
    let rows: Vec<_> = merged.rows.iter().map(|row| (row.base, row.ours, row.theirs, row.verdict)).collect();
    let wanted = [
        (Some(0), Some(0), Some(0), Verdict::Keep),
        (Some(1), None, Some(1), Verdict::Deleted),
        (Some(2), Some(1), Some(2), Verdict::Keep),
        (Some(3), Some(2), Some(3), Verdict::TakeOurs),
        (Some(4), Some(3), Some(4), Verdict::Fuse),
        (None, Some(4), None, Verdict::TakeOurs),
        (None, None, Some(5), Verdict::TakeTheirs),
    ];
    assert_eq!(rows, wanted);
}

/// Each row but the deleted one has its place in the list, and the fused track is at that of its row.
#[test]
fn into_a_list() {
    let [base, ours, theirs] = lists();
    let (merged, list) = merge_list(&base, &ours, &theirs, 1.0, 16.0).unwrap();
    assert_eq!(merged, merge(&base, &ours, &theirs, 1.0, 16.0).unwrap());
    let [b, o, t] = [&base, &ours, &theirs].map(|list| list.records().collect::<Vec<_>>());
    let both = List::write(2, &collars(&[[70.0, 43.0]])).unwrap();
    let both: Vec<_> = both.records().collect();
    assert_eq!(list.records().collect::<Vec<_>>(), [b[0], b[2], o[2], both[0], o[4], t[5]]);
    assert_eq!((list.dimension(), list.tracks().len()), (2, 6));
    let places: Vec<_> = (0..8).map(|row| merged.place(row)).collect();
    assert_eq!(places, [Some(0), None, Some(1), Some(2), Some(3), Some(4), Some(5), None]);
    for (r, row) in merged.rows.iter().enumerate() {
        let track = fused(&base, &ours, &theirs, 1.0, row);
        assert_eq!(track.as_ref(), (r == 4).then(|| &list.tracks()[merged.place(r).unwrap()]));
    }
}

/// A collar that theirs has deleted and ours moved is a conflict, and refuses the list.
#[test]
fn into_no_list() {
    let [base, ours, theirs] = lists();
    let mut tracks = theirs.tracks().to_vec();
    tracks.remove(4);
    let theirs = List::write(2, &tracks).unwrap();
    let merged = merge(&base, &ours, &theirs, 1.0, 16.0).unwrap();
    assert_eq!((merged.rows[4].verdict, merged.place(4)), (Verdict::Conflict, None));
    assert_eq!(merge_list(&base, &ours, &theirs, 1.0, 16.0).unwrap_err().number(), 21);
}

/// Tracks of one index taken together: the last line of demo/run.
#[test]
fn by_place() {
    let [base, ours, theirs] = lists();
    let verdict = |i: usize| {
        let [base, ours, theirs] = [&base, &ours, &theirs].map(|list| list.tracks().get(i));
        if base == ours && base == theirs {
            Verdict::Keep
        } else if base == theirs {
            Verdict::TakeOurs
        } else if base == ours {
            Verdict::TakeTheirs
        } else {
            let track = fuse(base.unwrap(), ours.unwrap(), theirs.unwrap(), 1.0).unwrap();
            track.map_or(Verdict::Conflict, |_| Verdict::Fuse)
        }
    };
    use Verdict::{Fuse, Keep, TakeOurs, TakeTheirs};
    assert_eq!([0, 1, 2, 3, 4, 5].map(verdict), [Keep, TakeOurs, TakeOurs, TakeOurs, Fuse, TakeTheirs]);
    let moved = [1, 2, 3].map(|i| (base.tracks()[i].state[0], ours.tracks()[i].state[0]));
    assert_eq!(moved, [(25.0, 40.0), (40.0, 57.0), (55.0, 71.0)]);
}
