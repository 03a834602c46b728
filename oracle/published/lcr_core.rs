//! Root of the crate `lcr_core` as the comparison builds it: the published files of
//! lcr-core, unchanged, and stand-ins for those that were never published.
//! `oracle/build` puts the published files beside a copy of this one.
#![allow(dead_code, unexpected_cfgs)]

extern crate alloc;

pub mod color;
pub mod error;
pub mod layout;
pub mod version;

pub use version::Version;

/// Stand-in: colours by role. Nothing that is compared reads it.
pub mod palette {
    use crate::color::Srgb8;

    pub const D65: [f32; 3] = [0.950_47, 1.0, 1.088_83];

    pub struct Palette {
        pub colors: [Srgb8; 8],
    }

    impl Palette {
        pub fn luma_only(&self, light: bool) -> Srgb8 {
            let v = if light { 255 } else { 0 };
            Srgb8::new(v, v, v)
        }
    }
}

/// Stand-in: a square of values. Nothing that is compared reads it.
pub mod grid {
    use alloc::vec::Vec;

    #[derive(Copy, Clone, PartialEq, Eq, Debug)]
    pub enum ModuleRole {
        Finder,
        Separator,
        Alignment,
        Timing,
        Format,
        PaletteAnchor,
        Reference,
        Payload,
    }

    impl ModuleRole {
        pub fn is_payload(self) -> bool {
            self == ModuleRole::Payload
        }
    }

    #[derive(Clone, Debug)]
    pub struct ModuleGrid<T> {
        side: u16,
        cells: Vec<T>,
    }

    impl<T: Clone> ModuleGrid<T> {
        pub fn new(side: u16, value: T) -> ModuleGrid<T> {
            let cells = alloc::vec![value; side as usize * side as usize];
            ModuleGrid { side, cells }
        }

        pub fn get(&self, x: u16, y: u16) -> Option<&T> {
            let inside = x < self.side && y < self.side;
            inside.then(|| self.at(x, y))
        }

        pub fn at(&self, x: u16, y: u16) -> &T {
            &self.cells[y as usize * self.side as usize + x as usize]
        }

        pub fn set(&mut self, x: u16, y: u16, value: T) {
            self.cells[y as usize * self.side as usize + x as usize] = value;
        }
    }
}

/// Stand-in: no ring. Nothing that is compared reads it.
pub mod border {
    pub fn payload_cells(_side: u16) -> impl Iterator<Item = (i32, i32)> {
        core::iter::empty()
    }
}
