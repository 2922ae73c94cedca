//! The libraries that are timed side by side: every build of this one that the machine supports, and its peers.

use crate::blas::Blas;
use crate::own::{Own, BLOCKS};
use crate::problem::Problem;
use crate::shared::{target, Shared};

/// A library, or one of its choices of code.
pub struct Library {
    pub name: &'static str,
    routines: Routines,
}

enum Routines {
    Own(Own),
    Blas(Blas),
}

/// The builds of this library, by the value of THAMRUNLEK_CPU that takes them.
const BUILDS: [&str; 3] = ["x86-64", "x86-64-v3", "x86-64-v4"];

/// OpenBLAS as it chooses by itself, and with its kernels for SSE, AVX2 and AVX-512, by its own names for them.
const KERNELS: [(&str, Option<&str>); 4] = [
    ("OpenBLAS", None),
    ("OB-SSE", Some("Prescott")),
    ("OB-Haswell", Some("Haswell")),
    ("OB-SkylakeX", Some("SkylakeX")),
];

impl Library {
    /// This library.
    pub fn own(&self) -> Option<&Own> {
        match &self.routines {
            Routines::Own(own) => Some(own),
            Routines::Blas(_) => None,
        }
    }

    /// A peer.
    pub fn blas(&self) -> Option<&Blas> {
        match &self.routines {
            Routines::Own(_) => None,
            Routines::Blas(blas) => Some(blas),
        }
    }

    /// Makes the call so many times and gives the seconds for one.
    pub fn time(&self, problem: &Problem, out: &mut [f64], calls: u32) -> f64 {
        match &self.routines {
            Routines::Own(own) => own.time(problem, out, calls, BLOCKS),
            Routines::Blas(blas) => blas.time(problem, out, calls),
        }
    }
}

/// The builds that the machine supports.
pub fn builds() -> Result<Vec<Library>, String> {
    let path = target().join("lib/libthamrunlek.so");
    let mut libraries = vec![];
    for name in BUILDS {
        let library = Shared::load(&path, name, "THAMRUNLEK_CPU", Some(name))?;
        if library.text("tl_cpu")? == name {
            libraries.push(Library { name, routines: Routines::Own(Own::of(&library)?) });
        }
    }
    Ok(libraries)
}

/// netlib's BLAS and OpenBLAS, from where peers.sh puts them.
pub fn peers() -> Result<Vec<Library>, String> {
    loaded_peers().map_err(|error| format!("{error}; host/bench/peers.sh unpacks the peers"))
}

fn loaded_peers() -> Result<Vec<Library>, String> {
    let netlib = Shared::load(&target().join("peers/netlib.so"), "netlib", "OPENBLAS_CORETYPE", None)?;
    let mut libraries = vec![Library { name: "netlib", routines: Routines::Blas(Blas::of(&netlib)?) }];
    for (name, kernels) in KERNELS {
        let library = Shared::load(&target().join("peers/openblas.so"), name, "OPENBLAS_CORETYPE", kernels)?;
        let chosen = library.text("openblas_get_corename")?;
        println!("{name}: {}", library.text("openblas_get_config")?);
        if kernels.is_none_or(|kernels| kernels == chosen) {
            libraries.push(Library { name, routines: Routines::Blas(Blas::of(&library)?) });
        }
    }
    Ok(libraries)
}

/// The builds, and after them the peers.
pub fn all() -> Result<Vec<Library>, String> {
    let mut libraries = builds()?;
    libraries.extend(peers()?);
    Ok(libraries)
}
