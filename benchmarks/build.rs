//! Writes the module tree of the unmodified Rust files, and names the archives.
//!
//! The files stand in the folder that the variable FELICA_SRC names. They are
//! compiled where they stand: each is named by a #[path], none is copied or
//! edited. What they lean on and is not among them is written here: a USB
//! transport that cannot be made, and one trait that nobody calls.

use std::{env, fs, path::Path};

const MODULES: &str = r#"
pub mod clf {
    #[path = "@/clf/crc.rs"] pub mod crc;
    #[path = "@/clf/errors.rs"] pub mod errors;
    #[path = "@/clf/targets.rs"] pub mod targets;
}

pub mod driver {
    #[path = "@/driver/common.rs"] pub mod common;
    #[path = "@/driver/errors.rs"] pub mod errors;
    #[path = "@/driver/framing.rs"] pub mod framing;
    #[path = "@/driver/io.rs"] pub mod io;
    pub mod rcs956 {
        #[path = "@/driver/rcs956/chipset.rs"] pub mod chipset;
        #[path = "@/driver/rcs956/device.rs"] pub mod device;
        #[path = "@/driver/rcs956/discovery.rs"] pub mod discovery;
        #[path = "@/driver/rcs956/frame.rs"] pub mod frame;
    }
}

pub mod transport {
    #[path = "@/transport/mod.rs"] mod real;
    pub use real::Transport;

    pub mod usb {
        pub enum UsbTransport {}
        impl UsbTransport {
            pub fn open(_vendor: u16, _product: u16) -> std::io::Result<Self> {
                Err(std::io::ErrorKind::Unsupported.into())
            }
        }
        impl super::Transport for UsbTransport {
            fn write(&mut self, _data: &[u8]) -> std::io::Result<()> { match *self {} }
            fn read(&mut self, _t: std::time::Duration) -> std::io::Result<Vec<u8>> { match *self {} }
            fn close(&mut self) -> std::io::Result<()> { match *self {} }
        }
    }
}

pub mod felica_standard {
    #[path = "@/felica_standard/type3.rs"] mod type3;
    pub use type3::Type3TagPollingResult;

    pub trait FelicaDriver {
        fn detect_type_f(
            &mut self,
            target: &crate::clf::targets::RemoteTarget,
            system_code: u16,
            request_code: u8,
            time_slots: u8,
        ) -> crate::driver::errors::Result<Type3TagPollingResult>;
        fn transceive(
            &mut self,
            target: &crate::clf::targets::RemoteTarget,
            data: &[u8],
            timeout_ms: Option<u16>,
        ) -> crate::driver::errors::Result<Vec<u8>>;
    }
}
"#;

fn main() {
    println!("cargo::rerun-if-env-changed=FELICA_SRC");
    let source = env::var("FELICA_SRC").expect("FELICA_SRC names the folder of the Rust files");
    let source = fs::canonicalize(Path::new(&source).join("src"))
        .unwrap_or_else(|e| panic!("no Rust files in {source}/src: {e}"));
    println!("cargo::rerun-if-changed={}", source.display());
    let out = Path::new(&env::var("OUT_DIR").unwrap()).join("felica.rs");
    fs::write(out, MODULES.replace('@', &source.display().to_string())).unwrap();

    let archives =
        fs::canonicalize("../target/staticlib").expect("`tools/archive` of both crates comes first");
    for name in ["libcodec_c.a", "libsession_c.a"] {
        println!("cargo::rerun-if-changed={}", archives.join(name).display());
    }
    println!("cargo::rustc-link-search=native={}", archives.display());
}
