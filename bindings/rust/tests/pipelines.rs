//! Random programs over the library: some by `cargo test`, more by tools/pipelines/rust.
mod programs;

/// The seeds, which PIPELINES names as FROM..TO; WORKERS says how many programs run at a time.
fn seeds() -> std::ops::Range<u64> {
    let named = std::env::var("PIPELINES").unwrap_or("0..400".into());
    let (from, to) = named.split_once("..").expect("PIPELINES is FROM..TO");
    from.parse().unwrap()..to.parse().unwrap()
}

#[test]
fn each_item_is_heard_once_and_each_resource_released_once_in_random_programs() {
    let workers = std::env::var("WORKERS").map_or(1, |it| it.parse().unwrap());
    match programs::run_all(seeds(), 0, workers) {
        Ok(counts) => counts.into_iter().for_each(|(what, many)| println!("{many:>10} {what}")),
        Err(why) => panic!("{why}"),
    }
}
