//! The six questions that every system answers.

/// A finite system. A question with an argument out of range is answered 0.
pub trait System {
    fn states(&self) -> u16;
    fn channels(&self) -> u8;
    fn reading(&self, state: u16, channel: u8) -> i16;
    fn controller_moves(&self, state: u16) -> u16;
    fn environment_moves(&self, state: u16) -> u16;
    fn next(&self, state: u16, controller: u16, environment: u16) -> u16;
}

impl<S: System + ?Sized> System for Box<S> {
    fn states(&self) -> u16 {
        (**self).states()
    }

    fn channels(&self) -> u8 {
        (**self).channels()
    }

    fn reading(&self, state: u16, channel: u8) -> i16 {
        (**self).reading(state, channel)
    }

    fn controller_moves(&self, state: u16) -> u16 {
        (**self).controller_moves(state)
    }

    fn environment_moves(&self, state: u16) -> u16 {
        (**self).environment_moves(state)
    }

    fn next(&self, state: u16, controller: u16, environment: u16) -> u16 {
        (**self).next(state, controller, environment)
    }
}
