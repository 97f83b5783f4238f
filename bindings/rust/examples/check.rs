//! A model of one's own: `cargo run --offline --example check -- model.onnx`. Exits with 1 where the model is refused.
use onnx_gate::{check, operators};
use std::process::ExitCode;

fn main() -> Result<ExitCode, Box<dyn std::error::Error>> {
    let path = std::env::args_os().nth(1).ok_or("which model?")?;
    let model = std::fs::read(path)?;
    let list = operators::write(&[("ai.onnx", 7, 21), ("ai.onnx.ml", 1, 5)])?;
    match check(&model, &list) {
        Ok(accepted) => println!("{accepted}"),
        Err(refusal) => {
            println!("{refusal}: {}", refusal.explanation());
            return Ok(ExitCode::FAILURE);
        }
    }
    Ok(ExitCode::SUCCESS)
}
