//! `bench_rust N FIELD` times prost, and a map field by hand in plain Rust: parse, size and write.
mod plain;

use indexmap::IndexMap;
use plain::Folded;
use prost::Message;
use std::collections::{BTreeMap, HashMap};
use std::ffi::{c_char, c_void};
use std::hint::black_box;

#[derive(Clone, PartialEq, Message)]
pub struct Msg {
    #[prost(int32, tag = "1")]
    pub v: i32,
}

#[derive(Clone, PartialEq, Message)]
pub struct HashStrings {
    #[prost(map = "string, int32", tag = "1")]
    pub m: HashMap<String, i32>,
}

#[derive(Clone, PartialEq, Message)]
pub struct TreeStrings {
    #[prost(btree_map = "string, int32", tag = "1")]
    pub m: BTreeMap<String, i32>,
}

#[derive(Clone, PartialEq, Message)]
pub struct HashMessages {
    #[prost(map = "int32, message", tag = "1")]
    pub m: HashMap<i32, Msg>,
}

#[derive(Clone, PartialEq, Message)]
pub struct TreeMessages {
    #[prost(btree_map = "int32, message", tag = "1")]
    pub m: BTreeMap<i32, Msg>,
}

#[derive(Clone, PartialEq, Message)]
pub struct Tree {
    #[prost(int32, tag = "1")]
    pub label: i32,
    #[prost(btree_map = "int32, message", tag = "2")]
    pub children: BTreeMap<i32, Tree>,
}

#[derive(Clone, PartialEq, Message)]
pub struct Packed {
    #[prost(int32, repeated, packed = "true", tag = "1")]
    pub v: Vec<i32>,
}

#[derive(Clone, PartialEq, Message)]
pub struct Repeated {
    #[prost(int32, repeated, packed = "false", tag = "1")]
    pub v: Vec<i32>,
}

#[derive(Clone, PartialEq, Message)]
pub struct MessageList {
    #[prost(message, repeated, tag = "1")]
    pub list: Vec<Msg>,
}

#[repr(C)]
struct Spec {
    sec: i64,
    nsec: i64,
}

extern "C" {
    fn clock_gettime(clock: i32, spec: *mut Spec) -> i32;
    fn dlsym(handle: *mut c_void, name: *const c_char) -> *mut c_void;
}

// Nanoseconds of processor time of this thread: others may use the machine.
fn now() -> f64 {
    let mut spec = Spec { sec: 0, nsec: 0 };
    unsafe { clock_gettime(3, &mut spec) };
    spec.sec as f64 * 1e9 + spec.nsec as f64
}

type Calls = extern "C" fn() -> u64;

// What tells the requests for memory so far, where count.c is loaded.
fn calls() -> Option<Calls> {
    let found = unsafe { dlsym(std::ptr::null_mut(), c"bench_calls".as_ptr()) };
    (!found.is_null()).then(|| unsafe { std::mem::transmute::<*mut c_void, Calls>(found) })
}

struct Bench {
    field: String,
    n: f64,
    calls: Option<Calls>,
}

impl Bench {
    // How often a phase is run, as in bench.h.
    fn rounds(&self) -> usize {
        match self.calls {
            Some(_) => 2,
            None => (3e6 / self.n).clamp(5.0, 2000.0) as usize,
        }
    }

    // Nanoseconds, or requests for memory.
    fn now(&self) -> f64 {
        self.calls.map_or_else(now, |calls| calls() as f64)
    }

    // Runs a phase, which says what it spent, and prints its line.
    fn say(&self, who: &str, phase: &str, mut run: impl FnMut() -> f64) {
        let mut times: Vec<f64> = (0..self.rounds()).map(|_| run()).collect();
        times.sort_by(f64::total_cmp);
        if self.calls.is_some() {
            println!("{}\t{who}\tallocations {phase}\t{}\t{:.4}", self.field, self.n, times[0] / self.n);
            return;
        }
        // A run for which the clock stood still counts for nothing.
        times.retain(|time| *time > 0.0);
        let (least, median) = (times[0] / self.n, times[times.len() / 2] / self.n);
        println!("{}\t{who}\t{phase}\t{}\t{least:.3}\t{median:.3}", self.field, self.n);
    }

    // The phases by the names that ours has for them.
    fn run<T>(
        &self,
        who: &str,
        data: &[u8],
        [read, size, write]: [&str; 3],
        parse: impl Fn(&[u8]) -> T,
        len: impl Fn(&T) -> usize,
        put: impl Fn(&T, &mut Vec<u8>),
    ) {
        self.say(who, read, || {
            let began = self.now();
            let map = parse(black_box(data));
            let spent = self.now() - began;
            black_box(&map);
            spent
        });
        let map = parse(data);
        if !size.is_empty() {
            self.say(who, size, || {
                let began = self.now();
                black_box(len(black_box(&map)));
                self.now() - began
            });
        }
        let mut out = Vec::with_capacity(data.len() + 100);
        self.say(who, write, || {
            out.clear();
            let began = self.now();
            put(black_box(&map), &mut out);
            let spent = self.now() - began;
            assert_eq!(black_box(&out).len(), data.len());
            spent
        });
    }

    fn prost<M: Message + Default>(&self, field: &str, who: &str, data: &[u8], phases: [&str; 3]) {
        if field == self.field {
            self.run(
                who,
                data,
                phases,
                |bytes| M::decode(bytes).unwrap(),
                |message| message.encoded_len(),
                |message, out| message.encode_raw(out),
            )
        }
    }

    fn plain<K: plain::Codec, V: plain::Codec, S: plain::Store<K, V>>(&self, field: &str, who: &str, data: &[u8]) {
        if field == self.field {
            self.run(
                who,
                data,
                FIELD,
                |bytes| plain::parse::<K, V, S>(bytes).unwrap(),
                |map| plain::size(map),
                |map, out| plain::write(map, out),
            )
        }
    }
}

const FIELD: [&str; 3] = ["parse", "size", "write"];
const LIST: [&str; 3] = ["read", "", "make"];

fn main() {
    let words: Vec<String> = std::env::args().collect();
    let bench = Bench { field: words[2].clone(), n: words[1].parse().unwrap(), calls: calls() };
    let Ok(data) = std::fs::read(format!("data/{}-{}.bin", words[2], words[1])) else {
        return;
    };
    bench.prost::<TreeStrings>("strings", "prost BTreeMap", &data, FIELD);
    bench.prost::<HashStrings>("strings", "prost HashMap", &data, FIELD);
    bench.plain::<String, i32, BTreeMap<String, i32>>("strings", "plain BTreeMap", &data);
    bench.plain::<String, i32, HashMap<String, i32, Folded>>("strings", "plain HashMap", &data);
    bench.plain::<String, i32, IndexMap<String, i32, Folded>>("strings", "plain IndexMap", &data);
    bench.prost::<TreeMessages>("messages", "prost BTreeMap", &data, FIELD);
    bench.prost::<HashMessages>("messages", "prost HashMap", &data, FIELD);
    bench.plain::<i32, Msg, BTreeMap<i32, Msg>>("messages", "plain BTreeMap", &data);
    bench.plain::<i32, Msg, HashMap<i32, Msg, Folded>>("messages", "plain HashMap", &data);
    bench.plain::<i32, Msg, IndexMap<i32, Msg, Folded>>("messages", "plain IndexMap", &data);
    for field in ["tree1", "tree5", "tree20"] {
        bench.prost::<Tree>(field, "prost", &data, FIELD);
    }
    bench.prost::<Packed>("packed", "prost", &data, LIST);
    bench.prost::<Repeated>("repeated", "prost", &data, LIST);
    bench.prost::<MessageList>("message_list", "prost", &data, LIST);
}
