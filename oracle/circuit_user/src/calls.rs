//! Calls on handles, and what is seen of them, in plain numbers: both sides have the same ones.

/// A permutation that a relation, a builder or a check is about.
#[derive(Clone, Debug, PartialEq, Eq)]
pub enum Kind {
    /// One of the user's own, by a number.
    Own(u32),
    /// The same, through a builder that records what it is asked.
    Recording(u32),
    /// One by parameters.
    Parameters(u32, Vec<u32>),
    /// The same, behind a type of the user's own that doesn't tell its parameters.
    Hidden(u32, Vec<u32>),
}

/// A sum of terms: which operators make it, of which wires and weights, and a factor for those that scale.
#[derive(Clone, Debug)]
pub struct Expression {
    pub shape: usize,
    pub terms: Vec<(u32, u32)>,
    pub factor: u32,
}

/// How many shapes there are.
pub const SHAPES: usize = 13;

/// A handle that has wires, by its place among those of its type.
#[derive(Clone, Copy, Debug)]
pub enum On {
    Allocator(usize),
    Relation(usize),
}

/// A call on wires, which allocators and relations have.
#[derive(Clone, Debug)]
pub enum Wires {
    One,
    /// A relation's are of its width.
    Array(usize),
    List(usize),
    OneWith(u32),
    ArrayWith(Vec<u32>),
    ListWith(Vec<u32>),
    Set(u32, u32),
    /// Wires, values, and how they are handed over.
    SetList(Vec<u32>, Vec<u32>, usize),
}

/// How many ways there are to hand a set list over.
pub const WAYS: usize = 4;

/// A call that makes a query or a step, in three forms of the same meaning, or records one that is given.
#[derive(Clone, Debug)]
pub enum Evaluation {
    Allocate(Vec<u32>),
    Permute(Vec<u32>),
    PermuteMut(Vec<u32>),
    Add(Vec<u32>, Vec<u32>),
}

/// A call. Handles, instances and witnesses are named by their places.
#[derive(Clone, Debug)]
pub enum Call {
    NewAllocator,
    CloneAllocator(usize),
    AllocatorOf(usize),
    /// The width and how it is made: by `new`, by `default` or with a label.
    NewRelation(usize, usize, String),
    /// The width and the allocator.
    RelationOn(usize, usize),
    CloneRelation(usize),
    Wires(On, Wires),
    Query(usize, Evaluation),
    Equation(usize, Expression, u32),
    Compile(usize),
    /// The width, the permutation, and whether by `from`.
    NewBuilder(usize, Kind, bool),
    CloneBuilder(usize),
    Step(usize, Evaluation),
    Snapshot(usize),
    ReadInstance(usize, Vec<u8>),
    ReadWitness(usize, Vec<u8>),
    Check(usize, usize, Kind),
    /// Are two instances equal, and two witnesses?
    Same([usize; 2], [usize; 2]),
}

/// What a call answers.
#[derive(Clone, Debug, PartialEq, Eq)]
pub enum Answer {
    Done,
    Wires(Vec<u32>),
    Units(Vec<u32>),
    Instance(Box<SeenInstance>),
    Witness(SeenWitness),
    Refused(String),
    Yes(Vec<bool>),
    Panicked(String),
}

/// An equation: its terms and its image.
pub type SeenEquation = (Vec<(u32, u32)>, u32);

/// All that an allocator tells, and of some wires their values and whether they are allocated.
#[derive(Clone, Debug, PartialEq, Eq)]
pub struct SeenAllocator {
    pub count: usize,
    pub publics: Vec<(u32, u32)>,
    pub asked: Vec<(Option<u32>, bool)>,
}

#[derive(Clone, Debug, PartialEq, Eq)]
pub struct SeenRelation {
    pub label: String,
    pub allocator: SeenAllocator,
    pub publics: Vec<(u32, u32)>,
    pub queries: Vec<Vec<u32>>,
    pub equations: Vec<SeenEquation>,
}

#[derive(Clone, Debug, PartialEq, Eq)]
pub struct SeenInstance {
    pub label: String,
    pub count: usize,
    pub publics: Vec<(u32, u32)>,
    pub queries: Vec<Vec<u32>>,
    pub equations: Vec<SeenEquation>,
    pub bytes: Vec<u8>,
    /// The values of all wires that there are few of, and of some more.
    pub values: Vec<Option<u32>>,
}

#[derive(Clone, Debug, PartialEq, Eq)]
pub struct SeenWitness {
    pub steps: Vec<Vec<u32>>,
    pub bytes: Vec<u8>,
}

/// All that the handles tell after a call.
#[derive(Clone, Debug, PartialEq, Eq)]
pub struct Seen {
    pub allocators: Vec<SeenAllocator>,
    pub relations: Vec<SeenRelation>,
    pub builders: Vec<Vec<Vec<u32>>>,
    /// How many wires and values the last set list took of those it was handed, where they were counted.
    pub taken: (usize, usize),
}
