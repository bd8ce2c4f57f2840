//! Stand-in for the crate `rspool`: no pool is ever lent and every section of
//! work runs on the calling thread.

use std::marker::PhantomData;

/// Where a section runs: the answer here is always `Here`.
pub enum Go {
    Wide(usize),
    Here,
}

#[derive(Debug)]
pub struct Rate;

impl Rate {
    pub const fn new(_prior: f32) -> Self {
        Rate
    }
}

#[derive(Debug)]
pub struct Choice;

impl Choice {
    #[allow(clippy::new_without_default)]
    pub const fn new() -> Self {
        Choice
    }
}

#[derive(Clone, Copy)]
pub struct Work<'a>(PhantomData<&'a Rate>);

impl<'a> Work<'a> {
    pub fn of(_amount: f64, _rate: &'a Rate) -> Self {
        Work(PhantomData)
    }

    pub fn go<P>(&self, _pieces: usize) -> Go {
        Go::Here
    }

    pub fn serial<R>(&self, section: impl FnOnce() -> R) -> R {
        section()
    }

    pub fn wide<P>(&self, pieces: usize, _threads: usize, piece: &dyn Fn(usize)) {
        (0..pieces).for_each(piece)
    }

    pub fn watch<P, R>(&self, _pieces: usize, _threads: usize, section: impl FnOnce() -> R) -> R {
        section()
    }
}

/// A lent pool. It has no value, so no code that holds one ever runs.
#[derive(Clone, Copy)]
pub enum Pool {}

#[derive(Clone)]
pub struct Lent {
    pub pool: Pool,
}

impl Pool {
    pub fn threads(&self) -> usize {
        match *self {}
    }

    pub fn join(&self, _: &mut dyn FnMut(), _: &mut dyn FnMut()) {
        match *self {}
    }

    pub fn enter(&self, _: &mut dyn FnMut()) {
        match *self {}
    }

    pub fn scope<'s>(&self, _: &mut dyn FnMut(&dyn Spawn<'s>)) {
        match *self {}
    }
}

pub type Task<'s> = Box<dyn FnOnce(&dyn Spawn<'s>) + Send + 's>;

pub trait Spawn<'s> {
    fn spawn(&self, task: Task<'s>);
}

pub fn current() -> Option<Lent> {
    None
}

pub fn share_of(threads: usize) -> usize {
    threads
}

pub fn as_piece<R>(_: Option<&Lent>, _: Option<usize>, piece: impl FnOnce() -> R) -> R {
    piece()
}

pub fn install_lent<R>(_: Lent, section: impl FnOnce() -> R) -> R {
    section()
}

macro_rules! types_never_used {
    ($($name:ident)*) => { $(pub struct $name;)* };
}

macro_rules! functions_never_called {
    ($($name:ident)*) => { $(pub fn $name() {})* };
}

types_never_used!(Dispatch Pick Piece Prior Serial Timing);
functions_never_called!(install is_lent);

pub mod rayon {
    pub struct Rayon;

    pub fn width(_work: f64, _most: usize) -> usize {
        1
    }

    functions_never_called!(dispatch kept pool_dispatch prepare run run_rated run_width threads);
}
