//! `bench_real MESSAGE..` times prost.
use prost::Message;
use std::ffi::{c_char, c_void};
use std::hint::black_box;

pub mod rpc {
    include!(concat!(env!("OUT_DIR"), "/google.rpc.rs"));
}
pub mod prometheus {
    include!(concat!(env!("OUT_DIR"), "/io.prometheus.client.rs"));
}
pub mod onnx {
    include!(concat!(env!("OUT_DIR"), "/onnx.rs"));
}
pub mod osm {
    include!(concat!(env!("OUT_DIR"), "/osmpbf.rs"));
}
pub mod etcd {
    include!(concat!(env!("OUT_DIR"), "/etcdserverpb.rs"));
}

#[repr(C)]
struct Spec {
    sec: i64,
    nsec: i64,
}

extern "C" {
    fn clock_gettime(clock: i32, spec: *mut Spec) -> i32;
    fn dlsym(handle: *mut c_void, name: *const c_char) -> *mut c_void;
}

// Nanoseconds of processor time of this thread: others may use the machine.
fn now() -> f64 {
    let mut spec = Spec { sec: 0, nsec: 0 };
    unsafe { clock_gettime(3, &mut spec) };
    spec.sec as f64 * 1e9 + spec.nsec as f64
}

type Told = extern "C" fn() -> u64;

// What count.c or instructions.c has under a name, where it is loaded.
fn told(name: &std::ffi::CStr) -> Option<Told> {
    let found = unsafe { dlsym(std::ptr::null_mut(), name.as_ptr()) };
    (!found.is_null()).then(|| unsafe { std::mem::transmute::<*mut c_void, Told>(found) })
}

struct Bench {
    name: String,
    data: Vec<u8>,
    calls: Option<Told>,
    peak: Option<Told>,
}

impl Bench {
    // Does a phase so many times; what it spent.
    fn spend(&self, run: &mut impl FnMut(), times: usize) -> f64 {
        let clock = || self.calls.map_or_else(now, |calls| calls() as f64);
        let began = clock();
        for _ in 0..times {
            run();
        }
        clock() - began
    }

    // Prints the lines of a phase, as real.h does.
    fn say(&self, phase: &str, mut run: impl FnMut()) {
        let (name, len) = (&self.name, self.data.len());
        self.spend(&mut run, 1);
        if self.calls.is_some() {
            self.peak.map(|peak| peak());
            let spent = self.spend(&mut run, 1);
            let peak = self.peak.map(|peak| peak());
            println!("{name}\tprost\trequests {phase}\t{len}\t{spent:.0}");
            if let Some(peak) = peak {
                println!("{name}\tprost\tpeak {phase}\t{len}\t{peak}");
            }
            return;
        }
        let spent = self.spend(&mut run, 1);
        let times = if spent > 1e7 { 1 } else if spent > 100.0 { (1e7 / spent) as usize } else { 100_000 };
        let least = (0..7).map(|_| self.spend(&mut run, times) / times as f64).fold(f64::MAX, f64::min);
        println!("{name}\tprost\t{phase}\t{len}\t{least:.2}");
    }

    fn run<M: Message + Default>(&self) {
        let data = self.data.as_slice();
        self.say("parse", || {
            black_box(M::decode(black_box(data)).unwrap());
        });
        let mut kept = M::default();
        self.say("parse into one that is kept", || {
            kept.clear();
            kept.merge(black_box(data)).unwrap();
        });
        let mut out = Vec::with_capacity(data.len() + 100);
        // It drops what isn't declared, so what it writes may be shorter.
        self.say("write", || {
            out.clear();
            black_box(&kept).encode(&mut out).unwrap();
            black_box(&out);
        });
    }
}

fn main() {
    for name in std::env::args().skip(1) {
        let data = std::fs::read(format!("data/{name}.bin")).unwrap();
        let bench = Bench { name, data, calls: told(c"bench_calls"), peak: told(c"bench_peak") };
        match bench.name.as_str() {
            "error_info" => bench.run::<rpc::ErrorInfo>(),
            "metrics" => bench.run::<prometheus::MetricFamily>(),
            "range" => bench.run::<etcd::RangeResponse>(),
            "osm" => bench.run::<osm::PrimitiveBlock>(),
            "onnx" => bench.run::<onnx::ModelProto>(),
            _ => bench.run::<prost_types::FileDescriptorSet>(),
        }
    }
}
