//! The program `rehearsal-reference`: the rehearsal of document 02, wish 2, over standard input and
//! output.

fn main() -> std::io::Result<()> {
    reference::rehearsal::run(std::io::stdin().lock(), std::io::stdout().lock())
}
