#!/usr/bin/env python3
"""data.py PROTOS DATA: the messages that real.sh measures, a file NAME.bin each in the folder DATA.

PROTOS is the folder with the modules that protoc made for Python, and with the files descriptors/*.bin that protoc -o made. All
numbers are drawn from fixed seeds, so two runs make the same bytes. What comes of no package is shaped as the comments of its
.proto say, and the sizes are what the programs that use it have.
"""
import glob
import random
import sys

PROTOS, DATA = sys.argv[1:3]
sys.path.insert(0, PROTOS)

import error_info_pb2
import metrics_pb2
import onnx_pb2
import osmformat_pb2
import range_pb2
from google.protobuf.descriptor_pb2 import FileDescriptorSet

WORDS = "api auth batch cache data disk edge file gate host index job key lock mail node order page queue route store task user web zone".split()


def error_info(_):
    """The example in the comments of google/rpc/error_details.proto."""
    metadata = {"resource": "projects/123", "service": "pubsub.googleapis.com"}
    return error_info_pb2.ErrorInfo(reason="API_DISABLED", domain="googleapis.com", metadata=metadata)


def metrics(draw):
    """The histograms of a server's requests: 24 sets of labels, with the 11 bounds that Prometheus' clients have by default."""
    family = metrics_pb2.MetricFamily(name="http_request_duration_seconds", help="Time that a request took.", type="HISTOGRAM")
    bounds = [0.005, 0.01, 0.025, 0.05, 0.1, 0.25, 0.5, 1, 2.5, 5, 10]
    for handler in WORDS[:8]:
        for method in ("GET", "POST", "DELETE"):
            one = family.metric.add()
            for name, value in (("code", "200"), ("handler", f"/v1/{handler}"), ("method", method)):
                one.label.add(name=name, value=value)
            count = 0
            for bound in bounds:
                count += draw.randrange(5000)
                one.histogram.bucket.add(cumulative_count=count, upper_bound=bound)
            one.histogram.sample_count = count + draw.randrange(100)
            one.histogram.sample_sum = count * draw.random()
    return family


def etcd_range(draw):
    """100 keys of a prefix, with values of 100 to 1,000 bytes."""
    header = range_pb2.ResponseHeader(cluster_id=draw.getrandbits(64), member_id=draw.getrandbits(64), revision=3_418_211, raft_term=7)
    response = range_pb2.RangeResponse(header=header, count=100)
    for at in range(100):
        made = draw.randrange(3_000_000)
        key = f"/registry/pods/{draw.choice(WORDS)}/{draw.choice(WORDS)}-{draw.getrandbits(40):010x}-{at:05d}"
        value = draw.randbytes(draw.randrange(100, 1000))
        changed = made + draw.randrange(400_000)
        response.kvs.add(key=key.encode(), create_revision=made, mod_revision=changed, version=draw.randrange(1, 40), value=value)
    return response


def text_table(block, draw):
    block.stringtable.s.append(b"")
    for at in range(600):
        block.stringtable.s.append(f"{draw.choice(WORDS)} {draw.choice(WORDS)} {at}".encode())


def dense_nodes(dense, draw, many):
    """Differences to the node before, as the file format has them."""
    info = dense.denseinfo
    for _ in range(many):
        dense.id.append(draw.randrange(1, 40))
        dense.lat.append(draw.randrange(-3000, 3000))
        dense.lon.append(draw.randrange(-3000, 3000))
        info.version.append(draw.randrange(1, 8))
        info.timestamp.append(draw.randrange(-500_000, 500_000))
        info.changeset.append(draw.randrange(-90_000, 90_000))
        info.uid.append(draw.randrange(-4000, 4000))
        info.user_sid.append(draw.randrange(-300, 300))
        if draw.random() < 0.1:
            dense.keys_vals.extend((draw.randrange(1, 600), draw.randrange(1, 600)))
        dense.keys_vals.append(0)


def osm(draw):
    """A block of 8,000 entities, as the format's writers make them: nodes, ways and relations."""
    block = osmformat_pb2.PrimitiveBlock()
    text_table(block, draw)
    dense_nodes(block.primitivegroup.add().dense, draw, 7000)
    ways = block.primitivegroup.add()
    for at in range(900):
        way = ways.ways.add(id=100_000_000 + at)
        for _ in range(draw.randrange(1, 6)):
            way.keys.append(draw.randrange(1, 600))
            way.vals.append(draw.randrange(1, 600))
        way.info.version, way.info.timestamp, way.info.changeset = draw.randrange(1, 9), draw.randrange(1 << 30), draw.randrange(1 << 26)
        way.info.uid, way.info.user_sid = draw.randrange(1 << 20), draw.randrange(1, 600)
        way.refs.extend(draw.randrange(-200, 200) for _ in range(draw.randrange(2, 30)))
    relations = block.primitivegroup.add()
    for at in range(100):
        relation = relations.relations.add(id=9_000_000 + at, keys=[draw.randrange(1, 600)], vals=[draw.randrange(1, 600)])
        for _ in range(draw.randrange(2, 20)):
            relation.roles_sid.append(draw.randrange(1, 600))
            relation.memids.append(draw.randrange(-5000, 5000))
            relation.types.append(draw.randrange(3))
    return block


def tensor(graph, draw, name, dims):
    """Floats as bytes, as exporters write them."""
    many = 1
    for dim in dims:
        many *= dim
    graph.initializer.add(name=name, dims=dims, data_type=1, raw_data=draw.randbytes(4 * many))


def onnx(draw):
    """A network of 24 convolutions, each with its weights, a normalization and a rectifier: the nodes and the tensors of one."""
    model = onnx_pb2.ModelProto(ir_version=8, producer_name="bench", producer_version="1")
    model.opset_import.add(domain="", version=15)
    graph = model.graph
    graph.name = "net"
    for at in range(24):
        wide = 16 * (1 + at // 6)
        tensor(graph, draw, f"conv{at}.weight", [wide, wide, 3, 3])
        for part in ("scale", "bias", "mean", "var"):
            tensor(graph, draw, f"norm{at}.{part}", [wide])
        node = graph.node.add(name=f"conv{at}", op_type="Conv", input=[f"x{at}", f"conv{at}.weight"], output=[f"c{at}"])
        for name, numbers in (("kernel_shape", [3, 3]), ("pads", [1, 1, 1, 1]), ("strides", [1, 1]), ("dilations", [1, 1])):
            node.attribute.add(name=name, type="INTS", ints=numbers)
        node.attribute.add(name="group", type="INT", i=1)
        normal = [f"c{at}"] + [f"norm{at}.{part}" for part in ("scale", "bias", "mean", "var")]
        node = graph.node.add(name=f"norm{at}", op_type="BatchNormalization", input=normal, output=[f"n{at}"])
        node.attribute.add(name="epsilon", type="FLOAT", f=1e-5)
        graph.node.add(name=f"relu{at}", op_type="Relu", input=[f"n{at}"], output=[f"x{at + 1}"])
    for name, it in (("x0", graph.input.add()), ("x24", graph.output.add())):
        it.name = name
        it.type.tensor_type.elem_type = 1
        for size in (1, 16, 32, 32):
            it.type.tensor_type.shape.dim.add(dim_value=size)
    return model


def descriptors(_):
    """All .proto files that were asked for, with the comments and the places in them."""
    found = FileDescriptorSet()
    for name in sorted(glob.glob(f"{PROTOS}/descriptors/*.bin")):
        with open(name, "rb") as it:
            found.MergeFromString(it.read())
    return found


def write(name, message):
    encoding = message.SerializeToString(deterministic=True)
    with open(f"{DATA}/{name}.bin", "wb") as it:
        it.write(encoding)


for name, make in (("error_info", error_info), ("metrics", metrics), ("range", etcd_range), ("osm", osm), ("onnx", onnx)):
    write(name, make(random.Random(name)))
every = descriptors(None)
write("places", every)
for file in every.file:
    file.ClearField("source_code_info")
write("descriptors", every)
one = next(it for it in every.file if it.name.endswith("metrics.proto"))
write("descriptor", FileDescriptorSet(file=[one]))
