//! What is drawn. This stands below everything that draws: tables, questions and calls go by it, and it knows of none
//! of them.

#[derive(Clone, Copy, PartialEq)]
pub enum Kind {
    Rings,
    Contours,
    Bands,
    Lines,
}
