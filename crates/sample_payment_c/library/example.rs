//! Reads bytes, and says whether they are accepted as buffa.sample.Payment, with the encoding of what they mean.
use std::io::Read;

fn main() -> std::io::Result<()> {
    let mut bytes = Vec::new();
    std::io::stdin().read_to_end(&mut bytes)?;
    match sample_payment_c::payment::check(&bytes).and_then(|()| sample_payment_c::payment::canonical(&bytes)) {
        Ok(out) => println!("{}", out.iter().map(|it| format!("{it:02x}")).collect::<String>()),
        Err(refused) => {
            match sample_payment_c::payment::place(&bytes, Default::default()) {
                Ok(Some(place)) => println!("refused: {place}"),
                _ => println!("refused {}", refused.0),
            }
            std::process::exit(1);
        }
    }
    Ok(())
}
