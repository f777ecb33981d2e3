//! A cache before a function: `cargo run --example first`.
use cadwrelch::Cache;

fn main() -> Result<(), Box<dyn std::error::Error>> {
    let read = |path: &String| std::fs::read_to_string(path).map(Some);
    let cache = Cache::<String, String>::builder().loader(read).build()?;
    for _ in 0..3 {
        println!(
            "{} bytes",
            cache.get("Cargo.toml")?.map_or(0, |text| text.len())
        );
    }
    println!("{:?}", cache.stats()?);
    Ok(())
}
