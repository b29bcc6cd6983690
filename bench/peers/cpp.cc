// cpp N FIELD: times C++ protobuf at one field. Writing is into an array that is there, after a size pass that isn't timed.
#include "../bench.h"

#include <cstdint>
#include <fstream>
#include <iterator>
#include <memory>
#include <string>
#include <vector>

#include <google/protobuf/unknown_field_set.h>

#include "bench.pb.h"
#include "extended.pb.h"

using google::protobuf::UnknownField;
using google::protobuf::UnknownFieldSet;

static std::string Load(const std::string &field, const std::string &entries) {
  std::ifstream in("data/" + field + "-" + entries + ".bin", std::ios::binary);
  return {std::istreambuf_iterator<char>(in), std::istreambuf_iterator<char>()};
}

struct Case {
  const char *field;
  std::string data;
  double n;
};

template <typename F> static void Measure(const Case &c, const char *who, const char *phase, double per, F run) {
  std::vector<double> times;
  for (unsigned k = bench_rounds(per ? c.n * per : c.n); k > 0; k--) times.push_back(run());
  bench_say(c.field, who, phase, times.data(), times.size(), c.n, per);
}

// A message type: parse, size and write, by the names that ours has for them.
template <typename M> static void Bench(const Case &c, const char *parse, const char *size, const char *write) {
  Measure(c, "C++ protobuf", parse, 0, [&] {
    auto message = std::make_unique<M>();
    double began = bench_now();
    bool read = message->ParseFromString(c.data);
    double spent = bench_now() - began;
    if (!read) std::abort();
    return spent;
  });
  M message;
  message.ParseFromString(c.data);
  if (size) {
    Measure(c, "C++ protobuf", size, 0, [&] {
      double began = bench_now();
      size_t len = message.ByteSizeLong();
      double spent = bench_now() - began;
      if (len != c.data.size()) std::abort();
      return spent;
    });
  }
  std::vector<uint8_t> out(c.data.size() + 100);
  message.ByteSizeLong();
  Measure(c, "C++ protobuf", write, 0, [&] {
    double began = bench_now();
    uint8_t *end = message.SerializeWithCachedSizesToArray(out.data());
    double spent = bench_now() - began;
    if (static_cast<size_t>(end - out.data()) != c.data.size()) std::abort();
    return spent;
  });
}

// Sizes and writes into a string of its own, which is what making records is.
template <typename M> static void BenchMake(const Case &c) {
  M message;
  message.ParseFromString(c.data);
  Measure(c, "C++ protobuf, sized and into a new string", "make", 0, [&] {
    std::string text;
    double began = bench_now();
    message.SerializeToString(&text);
    double spent = bench_now() - began;
    if (text.size() != c.data.size()) std::abort();
    return spent;
  });
}

static const double kCalls = 16;

__attribute__((noinline)) static void Next(int *held) { asm volatile("" : : "r"(held) : "memory"); }

template <typename F> static void MeasureCalls(const Case &c, const char *who, const char *phase, F call) {
  Measure(c, who, phase, kCalls, [&] {
    int sum = 0;
    double began = bench_now();
    for (int i = 0; i < kCalls; i++) {
      Next(&sum);
      sum += call(i);
    }
    double spent = bench_now() - began;
    Next(&sum);
    return spent;
  });
}

static void BenchExtension(const Case &c) {
  const char *who = "C++ protobuf, GetExtension and SetExtension";
  extended::Holder holder;
  holder.ParseFromString(c.data);
  if (!holder.HasExtension(extended::seven)) std::abort();
  MeasureCalls(c, who, "read a number", [&](int) { return holder.GetExtension(extended::seven); });
  MeasureCalls(c, who, "read a message", [&](int) { return holder.GetExtension(extended::eight).v(); });
  MeasureCalls(c, who, "set a number", [&](int i) { return holder.SetExtension(extended::seven, i), i; });
  MeasureCalls(c, who, "set a message", [&](int i) { return holder.MutableExtension(extended::eight)->set_v(i), i; });
}

static const UnknownField *Last(const UnknownFieldSet &set, int number) {
  for (int i = set.field_count(); i > 0; i--)
    if (set.field(i - 1).number() == number) return &set.field(i - 1);
  return nullptr;
}

// What ours does: the message of all records of the number, which are merged in their order.
static extended::Msg Merged(const UnknownFieldSet &set, int number) {
  extended::Msg message;
  const int count = set.field_count();
  for (int i = 0; i < count; i++) {
    const UnknownField &field = set.field(i);
    if (field.number() == number && field.type() == UnknownField::TYPE_LENGTH_DELIMITED)
      if (!message.MergeFromString(field.length_delimited())) std::abort();
  }
  return message;
}

static void BenchUnknown(const Case &c) {
  const char *who = "C++ protobuf, UnknownFieldSet";
  extended::Empty empty;
  empty.ParseFromString(c.data);
  UnknownFieldSet *set = empty.GetReflection()->MutableUnknownFields(&empty);
  MeasureCalls(c, who, "read a number", [&](int) { return static_cast<int>(Last(*set, 7)->varint()); });
  MeasureCalls(c, who, "read a message", [&](int) { return Merged(*set, 8).v(); });
  MeasureCalls(c, who, "set a number", [&](int i) {
    set->DeleteByNumber(7);
    set->AddVarint(7, i);
    return i;
  });
  MeasureCalls(c, who, "set a message", [&](int i) {
    extended::Msg message;
    message.set_v(i);
    set->DeleteByNumber(8);
    message.SerializeToString(set->AddLengthDelimited(8));
    return i;
  });
}

int main(int argc, char **argv) {
  if (argc < 3) return 1;
  const std::string field = argv[2];
  const Case c{argv[2], Load(field == "one" ? "records" : field, argv[1]), std::stod(argv[1])};
  if (field == "strings") Bench<bench::Strings>(c, "parse", "size", "write");
  if (field == "messages") Bench<bench::Messages>(c, "parse", "size", "write");
  if (field.substr(0, 4) == "tree") Bench<bench::Tree>(c, "parse", "size", "write");
  if (field == "records") Bench<extended::Empty>(c, "parse", "size", "write");
  if (field == "packed") Bench<bench::Packed>(c, "read", nullptr, "make"), BenchMake<bench::Packed>(c);
  if (field == "repeated") Bench<bench::Repeated>(c, "read", nullptr, "make"), BenchMake<bench::Repeated>(c);
  if (field == "message_list")
    Bench<extended::ListHolder>(c, "read", nullptr, "make"), BenchMake<extended::ListHolder>(c);
  if (field == "items") Bench<extended::Set>(c, "read", nullptr, "write");
  if (field == "one") BenchExtension(c), BenchUnknown(c);
}
