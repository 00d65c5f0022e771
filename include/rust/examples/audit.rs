//! Audits an image: is it a sound volume of 1,760 blocks?
use std::process::ExitCode;

fn main() -> std::io::Result<ExitCode> {
    let image = std::fs::read(std::env::args_os().nth(1).unwrap_or_default())?;
    let a = jufferdeeg::audit(jufferdeeg::DOUBLE_DENSITY, &image, &mut [0; jufferdeeg::MOST_CLAIM_BYTES]);
    if a.number == 0 {
        println!("a volume: {} directories, {} files, {} blocks free", a.directories, a.files, a.free);
        return Ok(ExitCode::SUCCESS);
    }
    println!("refused: {} (number {}, place {})", jufferdeeg::reason(a.number), a.number, a.place);
    Ok(ExitCode::FAILURE)
}
