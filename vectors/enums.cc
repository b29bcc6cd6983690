// Reads runs of map fields of closed enums, a line of hexadecimal each, by the C++ classes that protoc generates of
// enums.proto, and prints what an older and a newer reader make of them: the pairs, and what the older one writes.
#include <cstdio>
#include <iostream>
#include <map>
#include <string>

#include "enums.pb.h"
#include <google/protobuf/io/coded_stream.h>
#include <google/protobuf/io/zero_copy_stream_impl_lite.h>

static std::string bytes_of(const std::string& hex) {
  std::string bytes;
  for (size_t at = 0; at + 1 < hex.size(); at += 2)
    bytes.push_back(static_cast<char>(std::stoi(hex.substr(at, 2), nullptr, 16)));
  return bytes;
}

static std::string hex_of(const std::string& bytes) {
  std::string hex;
  char two[3];
  for (unsigned char byte : bytes) {
    std::snprintf(two, sizeof two, "%02x", byte);
    hex += two;
  }
  return hex;
}

template <class M>
static std::string pairs_of(const M& message) {
  std::map<int, int> sorted;
  for (const auto& pair : message.map()) sorted[pair.first] = static_cast<int>(pair.second);
  std::string words;
  for (const auto& pair : sorted)
    words += std::to_string(pair.first) + "=" + std::to_string(pair.second) + ";";
  return words.empty() ? ";" : words;
}

template <class M>
static std::string text_of(const M& message) {
  std::string text;
  google::protobuf::io::StringOutputStream stream(&text);
  google::protobuf::io::CodedOutputStream coded(&stream);
  coded.SetSerializationDeterministic(true);
  message.SerializeToCodedStream(&coded);
  coded.Trim();
  return hex_of(text);
}

int main() {
  std::string line;
  while (std::getline(std::cin, line)) {
    vectors::Olds olds;
    vectors::News news;
    const std::string bytes = bytes_of(line);
    if (!olds.ParseFromString(bytes) || !news.ParseFromString(bytes)) {
      std::cout << "refused" << std::endl;
      continue;
    }
    const std::string text = text_of(olds);
    vectors::News again;
    again.ParseFromString(bytes_of(text));
    std::cout << pairs_of(olds) << "\t" << pairs_of(news) << "\t" << (text.empty() ? "-" : text) << "\t"
              << pairs_of(again) << std::endl;
  }
}
