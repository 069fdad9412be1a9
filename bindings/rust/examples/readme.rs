use pelosumba::{merge, List, Refusal, Track};

fn main() -> Result<(), Refusal> {
    let collar = |at| Track { state: vec![at], triangle: vec![1.0] };
    let base = List::write(1, &[collar(10.0), collar(20.0)])?;
    let ours = List::write(1, &[collar(20.5)])?;
    for row in merge(&base, &ours, &base, 1.0, 16.0)?.rows {
        println!("base {:?} ours {:?} theirs {:?}: {:?}", row.base, row.ours, row.theirs, row.verdict);
    }
    Ok(())
}
