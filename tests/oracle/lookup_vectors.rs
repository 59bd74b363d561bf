// Writes the vectors of whole lookups, with the answers of the unchanged Rust: vectors.sh runs it, with the folder of
// real files. What lies outside the domain of the comparison is answered by RULES, under a remark that says so.
#[path = "lookup/blocks.rs"]
mod blocks;
#[path = "lookup/corpus.rs"]
mod corpus;
#[path = "lookup/found.rs"]
mod found;
#[path = "lookup/out.rs"]
mod out;
#[path = "lookup/refused.rs"]
mod refused;
#[path = "lookup/shape.rs"]
mod shape;

fn main() {
    let folder = std::env::args().nth(1).expect("the folder of real files");
    let mut o = out::Out::new();
    o.remark("Whole lookups, answered by the unchanged Rust; made by tests/oracle/vectors.sh.");
    found::all(&mut o);
    refused::all(&mut o);
    corpus::all(&mut o, &folder);
    o.counted();
    print!("{}", o.text);
}
