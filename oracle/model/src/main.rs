//! Answers records by the model.

fn main() -> std::io::Result<()> {
    records::run(|memory, call| Some(model::answer(memory, call)))
}
