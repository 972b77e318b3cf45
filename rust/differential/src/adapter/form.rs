//! An adapter's two forms in bytes: its file, and a state. The same rules hold of both.

use super::{connector_at, controller_at, row_at, Adapter};
use crate::names::{file, state};

#[derive(Clone, Copy, PartialEq, Eq, Debug)]
pub enum Form {
    File,
    State,
}

/// The bytes of an adapter, to be damaged.
pub struct Held<'a> {
    pub adapter: &'a Adapter,
    form: Form,
    pub bytes: Vec<u8>,
}

impl<'a> Held<'a> {
    pub fn file(adapter: &'a Adapter) -> Self {
        Held {
            adapter,
            form: Form::File,
            bytes: adapter.file(),
        }
    }

    pub fn state(adapter: &'a Adapter, level: u8) -> Self {
        Held {
            adapter,
            form: Form::State,
            bytes: adapter.state(level),
        }
    }

    pub fn p(&self) -> usize {
        self.adapter.phys.len()
    }

    pub fn a(&self) -> usize {
        self.adapter.rows.len()
    }

    /// Where p stands.
    pub fn phy_count(&self) -> usize {
        match self.form {
            Form::File => file::PHY_COUNT,
            Form::State => state::PHY_COUNT,
        }
    }

    /// Where a stands.
    pub fn row_count(&self) -> usize {
        match self.form {
            Form::File => file::ROW_COUNT,
            Form::State => state::ROW_COUNT,
        }
    }

    /// Where phy n starts.
    pub fn phy(&self, n: usize) -> usize {
        match self.form {
            Form::File => file::phy_at(n),
            Form::State => state::phy_at(n),
        }
    }

    /// Where row i starts.
    pub fn row(&self, i: usize) -> usize {
        match self.form {
            Form::File => row_at(self.p(), i),
            Form::State => state::row_at(i),
        }
    }

    /// Where the controller's configuration starts, which its status follows.
    pub fn controller(&self) -> usize {
        match self.form {
            Form::File => controller_at(self.p(), self.a()),
            Form::State => state::CONTROLLER_CONFIG,
        }
    }

    /// Where the connector of phy n starts.
    pub fn connector(&self, n: usize) -> usize {
        match self.form {
            Form::File => connector_at(self.p(), self.a(), n),
            Form::State => state::connector_at(n),
        }
    }
}
