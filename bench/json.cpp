// json rapidjson|simdjson read|both < TEXTS: each line is parsed into a document, by one parser for all, and with `both` printed from it: what libraries of
// JSON take for the texts of `pod json`, beside `pod read` and `pod json`. It writes how many bytes were parsed and printed.
// g++ -O2 bench/json.cpp -o json -lsimdjson (Debian's rapidjson-dev and libsimdjson-dev)
#include <cstdio>
#include <cstring>
#include <rapidjson/document.h>
#include <rapidjson/stringbuffer.h>
#include <rapidjson/writer.h>
#include <simdjson.h>
#include <string>

// Both answer how many bytes are printed, 0 where nothing is, and end the program where the line is no JSON.
static size_t with_rapidjson(const char *line, size_t len, bool prints) {
  static char values[1 << 16], stack[1 << 16];
  rapidjson::MemoryPoolAllocator<> for_values(values, sizeof values), for_stack(stack, sizeof stack);
  rapidjson::GenericDocument<rapidjson::UTF8<>, rapidjson::MemoryPoolAllocator<>, rapidjson::MemoryPoolAllocator<>> document(&for_values, 1024, &for_stack);
  if (document.Parse(line, len).HasParseError()) abort();
  if (!prints) return 0;
  static rapidjson::StringBuffer out;
  out.Clear();
  rapidjson::Writer<rapidjson::StringBuffer> writer(out);
  document.Accept(writer);
  return out.GetSize();
}

static size_t with_simdjson(const char *line, size_t len, bool prints) {
  static simdjson::dom::parser parser;
  simdjson::dom::element document;
  if (parser.parse(line, len).get(document)) abort();
  return prints ? simdjson::to_string(document).size() : 0;
}

int main(int count, char **words) {
  if (count != 3) return 2;
  auto work = strcmp(words[1], "rapidjson") == 0 ? with_rapidjson : with_simdjson;
  bool prints = strcmp(words[2], "both") == 0;
  std::string texts;
  static char block[1 << 16];
  while (size_t len = fread(block, 1, sizeof block, stdin)) texts.append(block, len);
  size_t printed = 0, at = 0;
  while (at < texts.size()) {
    size_t end = texts.find('\n', at);
    printed += work(texts.data() + at, end - at, prints);
    at = end + 1;
  }
  printf("%zu %zu\n", texts.size(), printed);
}
