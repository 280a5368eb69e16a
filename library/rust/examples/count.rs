use qlock::{Domain, Error, Family, Mutex};

fn main() -> Result<(), Error> {
    let domain = Domain::builder(Family::Native).processors(4).mutexes(1).open()?;
    let count = Mutex::new(&domain, 0)?;
    std::thread::scope(|scope| {
        (0..4).for_each(|_| drop(scope.spawn(|| *count.lock() += 1)));
    });
    println!("{} turns", count.into_inner());
    Ok(())
}
