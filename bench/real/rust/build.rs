//! Has prost-build make the messages of the files of PROTOS.
fn main() {
    let folder = std::env::var("PROTOS").unwrap();
    let names = ["error_info", "metrics", "onnx", "osmformat", "range"];
    let files: Vec<String> = names.iter().map(|name| format!("{folder}/{name}.proto")).collect();
    prost_build::compile_protos(&files, &[folder.as_str(), "/usr/include"]).unwrap();
}
