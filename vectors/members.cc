// Reads lines `TYPE HEX`, by the C++ classes that protoc generates of members.proto, wagons.proto, palettes.proto and
// measures.proto, and prints what the message of the type holds, what it is written as in deterministic order, and
// whether a map in it has more than one pair, but for those that our types write in that order too; or `refused`. The
// types that keep no other field are written without these. Of types with required fields it is told at last what the
// calls of members with defaults say, and whether all is there that is required.
#include <algorithm>
#include <cctype>
#include <cstdint>
#include <cstdio>
#include <cstring>
#include <iostream>
#include <memory>
#include <set>
#include <string>
#include <vector>

#include "measures.pb.h"
#include "members.pb.h"
#include "palettes.pb.h"
#include "wagons.pb.h"
#include <google/protobuf/io/coded_stream.h>
#include <google/protobuf/io/zero_copy_stream_impl_lite.h>

using google::protobuf::FieldDescriptor;
using google::protobuf::Message;

static const std::set<std::string> KEEPING = {"Assorted", "Beam", "Branch", "Explicit", "Failure", "Frame",
                                              "Inventory", "Joined", "Ledger", "Load", "Palette", "Patch",
                                              "Payment", "Settings", "Swatch", "Transfer", "Wagon",
                                              "Measure", "Spot"};
// Types with required fields.
static const std::set<std::string> REQUIRING = {"Measure", "Spot"};
static const std::set<std::string> IN_ORDER = {"axles", "balances", "berths", "ordered", "pages", "seals", "sections"};

static std::string bytes_of(const std::string& hex) {
  std::string bytes;
  for (size_t at = 0; at + 1 < hex.size(); at += 2)
    bytes.push_back(static_cast<char>(std::stoi(hex.substr(at, 2), nullptr, 16)));
  return bytes;
}

static std::string hex_of(const std::string& bytes) {
  std::string hex;
  char two[3];
  for (unsigned char byte : bytes) {
    std::snprintf(two, sizeof two, "%02x", byte);
    hex += two;
  }
  return hex;
}

static std::string text_of(const Message& message) {
  std::string text;
  {
    google::protobuf::io::StringOutputStream stream(&text);
    google::protobuf::io::CodedOutputStream coded(&stream);
    coded.SetSerializationDeterministic(true);
    message.SerializePartialToCodedStream(&coded);
  }
  return text.empty() ? "-" : hex_of(text);
}

static bool is_keeping(const Message& message) { return KEEPING.count(message.GetDescriptor()->name()) > 0; }

static bool is_requiring(const Message& message) { return REQUIRING.count(message.GetDescriptor()->name()) > 0; }

static std::vector<const FieldDescriptor*> members_of(const Message& message) {
  std::vector<const FieldDescriptor*> members;
  for (int at = 0; at < message.GetDescriptor()->field_count(); ++at)
    members.push_back(message.GetDescriptor()->field(at));
  return members;
}

static std::string text_word(const std::string& text) {
  for (unsigned char byte : text)
    if (byte > 127 || !std::isalnum(byte)) return "x" + hex_of(text);
  return "\"" + text + "\"";
}

static std::string enum_word(const FieldDescriptor* member, int number) {
  const bool is_declared = member->enum_type()->FindValueByNumber(number) != nullptr;
  return (is_declared ? "" : "?") + std::to_string(number);
}

// A real number as the number of its bits.
static std::string bits_word(float number) {
  std::uint32_t bits;
  std::memcpy(&bits, &number, sizeof bits);
  return std::to_string(bits);
}

static std::string bits_word(double number) {
  std::uint64_t bits;
  std::memcpy(&bits, &number, sizeof bits);
  return std::to_string(bits);
}

static std::string message_word(const Message& message);

// The word of a value, by the calls that read it.
#define WORD(GET)                                                                                       \
  switch (member->cpp_type()) {                                                                         \
    case FieldDescriptor::CPPTYPE_INT32: return std::to_string(GET(Int32));                             \
    case FieldDescriptor::CPPTYPE_INT64: return std::to_string(GET(Int64));                             \
    case FieldDescriptor::CPPTYPE_UINT32: return std::to_string(GET(UInt32));                           \
    case FieldDescriptor::CPPTYPE_UINT64: return std::to_string(GET(UInt64));                           \
    case FieldDescriptor::CPPTYPE_FLOAT: return bits_word(GET(Float));                                  \
    case FieldDescriptor::CPPTYPE_DOUBLE: return bits_word(GET(Double));                                \
    case FieldDescriptor::CPPTYPE_BOOL: return GET(Bool) ? "true" : "false";                            \
    case FieldDescriptor::CPPTYPE_ENUM: return enum_word(member, GET(EnumValue));                       \
    case FieldDescriptor::CPPTYPE_MESSAGE: return message_word(GET(Message));                           \
    default:                                                                                            \
      return member->type() == FieldDescriptor::TYPE_BYTES ? "x" + hex_of(GET(String)) : text_word(GET(String)); \
  }

static std::string value_word(const Message& message, const FieldDescriptor* member) {
#define ONE(KIND) message.GetReflection()->Get##KIND(message, member)
  WORD(ONE)
}

static std::string element_word(const Message& message, const FieldDescriptor* member, int at) {
#define ELEMENT(KIND) message.GetReflection()->GetRepeated##KIND(message, member, at)
  WORD(ELEMENT)
}

static std::string joined(const std::vector<std::string>& words, const char* mark) {
  std::string whole;
  for (size_t at = 0; at < words.size(); ++at) whole += (at ? mark : "") + words[at];
  return whole;
}

static std::string pair_word(const Message& entry) {
  const auto members = members_of(entry);
  return value_word(entry, members[0]) + "=" + value_word(entry, members[1]);
}

static std::string list_word(const Message& message, const FieldDescriptor* member) {
  const auto* reflection = message.GetReflection();
  std::vector<std::string> words;
  for (int at = 0; at < reflection->FieldSize(message, member); ++at)
    words.push_back(member->is_map() ? pair_word(reflection->GetRepeatedMessage(message, member, at))
                                     : element_word(message, member, at));
  if (!member->is_map()) return "[" + joined(words, ",") + "]";
  std::sort(words.begin(), words.end());
  return "{" + joined(words, ",") + "}";
}

static std::string member_word(const Message& message, const FieldDescriptor* member) {
  if (member->is_repeated()) return list_word(message, member);
  const bool may_be_none = member->has_presence() && (!member->has_default_value() || is_requiring(message));
  if (may_be_none && !message.GetReflection()->HasField(message, member)) return "none";
  return value_word(message, member);
}

static std::string message_word(const Message& message) {
  std::vector<std::string> words;
  for (const auto* member : members_of(message)) words.push_back(member_word(message, member));
  if (is_keeping(message)) {
    std::string rest;
    message.GetReflection()->GetUnknownFields(message).SerializeToString(&rest);
    words.push_back(hex_of(rest));
  }
  if (is_requiring(message)) {
    for (const auto* member : members_of(message))
      if (member->has_default_value()) words.push_back(value_word(message, member));
    words.push_back(message.IsInitialized() ? "whole" : "lacks");
  }
  return "(" + joined(words, "|") + ")";
}

// The messages in a message, those in maps too.
static std::vector<const Message*> inner(const Message& message) {
  const auto* reflection = message.GetReflection();
  std::vector<const Message*> found;
  for (const auto* member : members_of(message)) {
    if (member->cpp_type() != FieldDescriptor::CPPTYPE_MESSAGE) continue;
    if (!member->is_repeated()) {
      if (reflection->HasField(message, member)) found.push_back(&reflection->GetMessage(message, member));
      continue;
    }
    for (int at = 0; at < reflection->FieldSize(message, member); ++at)
      found.push_back(&reflection->GetRepeatedMessage(message, member, at));
  }
  return found;
}

static bool has_many(const Message& message) {
  for (const auto* member : members_of(message))
    if (member->is_map() && !IN_ORDER.count(member->name()) && message.GetReflection()->FieldSize(message, member) > 1)
      return true;
  for (const auto* one : inner(message))
    if (has_many(*one)) return true;
  return false;
}

// Forgets the other fields of messages that keep none; no map holds one of these.
static void forget(Message* message) {
  const auto* reflection = message->GetReflection();
  if (!is_keeping(*message)) reflection->MutableUnknownFields(message)->Clear();
  for (const auto* member : members_of(*message)) {
    if (member->cpp_type() != FieldDescriptor::CPPTYPE_MESSAGE || member->is_map()) continue;
    if (!member->is_repeated()) {
      if (reflection->HasField(*message, member)) forget(reflection->MutableMessage(message, member));
      continue;
    }
    for (int at = 0; at < reflection->FieldSize(*message, member); ++at)
      forget(reflection->MutableRepeatedMessage(message, member, at));
  }
}

static std::string answer(const std::string& type, const std::string& bytes) {
  const auto* made_of = google::protobuf::DescriptorPool::generated_pool()->FindMessageTypeByName("vectors." + type);
  const std::unique_ptr<Message> message(
      google::protobuf::MessageFactory::generated_factory()->GetPrototype(made_of)->New());
  if (!message->ParsePartialFromString(bytes)) return "refused";
  forget(message.get());
  return message_word(*message) + "\t" + text_of(*message) + "\t" + (has_many(*message) ? "many" : "one");
}

int main() {
  google::protobuf::SetLogHandler(nullptr);
  std::string line;
  while (std::getline(std::cin, line)) {
    const size_t space = line.find(' ');
    std::cout << answer(line.substr(0, space), bytes_of(line.substr(space + 1))) << std::endl;
  }
}
