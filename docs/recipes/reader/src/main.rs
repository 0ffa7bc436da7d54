use datasketches_rattle::frequencies::FrequentItemsSketch;

fn main() -> Result<(), Box<dyn std::error::Error>> {
    let image = std::fs::read("drinks.sketch")?;
    let drinks = FrequentItemsSketch::<String>::deserialize_with_limit(&image, 1 << 20)?;
    println!("tea: {} to {}", drinks.lower_bound("tea"), drinks.upper_bound("tea"));
    Ok(())
}
