// Reads lines `node HEX` and `set HEX`, by the C++ classes that protoc generates of nodes.proto, and prints what the
// message holds, and what it is written as in deterministic order; or `refused`. Of `set HEX` what Bare holds and
// writes, then what Declaring writes, which merges the Items that it knows, and the bytes of its extension `two`.
#include <cctype>
#include <cstdio>
#include <iostream>
#include <map>
#include <string>

#include "nodes.pb.h"
#include <google/protobuf/io/coded_stream.h>
#include <google/protobuf/io/zero_copy_stream_impl_lite.h>

static std::string bytes_of(const std::string& hex) {
  std::string bytes;
  for (size_t at = 0; at + 1 < hex.size(); at += 2)
    bytes.push_back(static_cast<char>(std::stoi(hex.substr(at, 2), nullptr, 16)));
  return bytes;
}

static std::string hex_of(const std::string& bytes) {
  std::string hex;
  char two[3];
  for (unsigned char byte : bytes) {
    std::snprintf(two, sizeof two, "%02x", byte);
    hex += two;
  }
  return hex;
}

static std::string or_none(const std::string& word) { return word.empty() ? "-" : word; }

static std::string text_of(const google::protobuf::Message& message) {
  std::string text;
  {
    google::protobuf::io::StringOutputStream stream(&text);
    google::protobuf::io::CodedOutputStream coded(&stream);
    coded.SetSerializationDeterministic(true);
    message.SerializeToCodedStream(&coded);
  }
  return or_none(hex_of(text));
}

static std::string rest_of(const google::protobuf::UnknownFieldSet& fields) {
  std::string text;
  fields.SerializeToString(&text);
  return hex_of(text);
}

static std::string varint(uint64_t number) {
  std::string bytes;
  for (; number > 127; number >>= 7) bytes.push_back(static_cast<char>((number & 127) | 128));
  bytes.push_back(static_cast<char>(number));
  return bytes;
}

// The records of a MessageSet: a type id may be greater than any number of a field, which SerializeToString cuts.
static std::string records_of(const google::protobuf::UnknownFieldSet& fields) {
  std::string text;
  for (int at = 0; at < fields.field_count(); ++at) {
    const auto& field = fields.field(at);
    if (field.type() == google::protobuf::UnknownField::TYPE_LENGTH_DELIMITED) {
      const std::string& held = field.length_delimited();
      text += hex_of(varint(uint64_t{static_cast<uint32_t>(field.number())} * 8 + 2) + varint(held.size()) + held);
    } else {
      google::protobuf::UnknownFieldSet alone;
      alone.AddField(field);
      text += rest_of(alone);
    }
  }
  return text;
}

static std::string key_word(const std::string& key) {
  for (unsigned char byte : key)
    if (byte > 127 || !std::isalnum(byte)) return "x" + hex_of(key);
  return "\"" + key + "\"";
}

// A map in the order of its keys, each pair by a function of its value.
template <class Pairs, class Word>
static std::string pairs_of(const Pairs& pairs, Word word) {
  std::string words;
  for (const auto& pair : pairs) words += (words.empty() ? "" : ",") + word(pair.first, *pair.second);
  return words;
}

template <class M>
static auto in_order(const M& map) {
  std::map<typename M::key_type, const typename M::mapped_type*> sorted;
  for (const auto& pair : map) sorted[pair.first] = &pair.second;
  return sorted;
}

static std::string node_word(const vectors::Node& node) {
  const auto number = [](int key, int value) { return std::to_string(key) + "=" + std::to_string(value); };
  const auto score = [](const std::string& key, int value) { return key_word(key) + "=" + std::to_string(value); };
  const auto child = [](int key, const vectors::Node& held) { return std::to_string(key) + "=" + node_word(held); };
  return "(" + pairs_of(in_order(node.scores()), score) + "|" + pairs_of(in_order(node.children()), child) + "|" +
         pairs_of(in_order(node.shades()), number) + "|" + rest_of(node.unknown_fields()) + ")";
}

static std::string of_node(const std::string& bytes) {
  vectors::Node node;
  if (!node.ParseFromString(bytes)) return "refused";
  return node_word(node) + "\t" + text_of(node);
}

static std::string of_set(const std::string& bytes) {
  vectors::Bare bare;
  if (!bare.ParseFromString(bytes)) return "refused";
  vectors::Declaring declaring;
  const std::string plain = "x" + records_of(bare.unknown_fields()) + "\t" + text_of(bare) + "\t";
  if (!declaring.ParseFromString(bytes)) return plain + "refused\trefused";
  const bool has_two = declaring.HasExtension(vectors::two);
  return plain + text_of(declaring) + "\t" +
         (has_two ? "x" + hex_of(declaring.GetExtension(vectors::two).SerializeAsString()) : "none");
}

int main() {
  google::protobuf::SetLogHandler(nullptr);
  std::string line;
  while (std::getline(std::cin, line)) {
    const size_t space = line.find(' ');
    const std::string bytes = bytes_of(line.substr(space + 1));
    std::cout << (line.substr(0, space) == "node" ? of_node(bytes) : of_set(bytes)) << std::endl;
  }
}
