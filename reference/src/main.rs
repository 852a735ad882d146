//! The program `vaultlines-reference`: the line program of document 01 over standard input and output.

fn main() -> std::io::Result<()> {
    reference::lines::run(std::io::stdin().lock(), std::io::stdout().lock())
}
