//! Stands in for the locks of the thread pool. A pool of one thread has none, so no value of these
//! types is ever made.
use super::State;
use std::marker::PhantomData;

/// What a pool's state would hold.
pub enum StateInner {}

/// What a held lock would be.
pub enum LockInner<'a> {
    #[allow(dead_code)]
    Never(StateInner, PhantomData<&'a ()>),
}

pub fn new(_threads: u32) -> StateInner {
    unreachable!("the reference runs on one thread")
}

pub fn lock(state: &State) -> LockInner<'_> {
    match state.sync {}
}

pub fn unlock(state: &State, _lock: LockInner<'_>, _more: bool) {
    match state.sync {}
}

pub fn wait_work<'a>(state: &'a State, _lock: LockInner<'a>) -> Option<LockInner<'a>> {
    match state.sync {}
}

pub fn wait_main<'a>(state: &'a State, _lock: LockInner<'a>) -> Option<LockInner<'a>> {
    match state.sync {}
}

pub fn start_work(state: &State) -> Option<LockInner<'_>> {
    match state.sync {}
}

pub fn stop(state: &State) {
    match state.sync {}
}
