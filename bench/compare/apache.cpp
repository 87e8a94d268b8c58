// Apache Thrift's decoder of batches, by the structs that its compiler makes of samples/jaeger.thrift: what
// bench/compare.py compares batch_codec::decode with. It decodes the bodies of its input so many times as its word
// says, and prints the number of their spans. It looks at no UTF-8, at no level and at no byte behind the batch.
#include <cstdint>
#include <iostream>
#include <iterator>
#include <memory>
#include <string>
#include <vector>

#include <thrift/protocol/TBinaryProtocol.h>
#include <thrift/transport/TBufferTransports.h>

#include "jaeger_types.h"

using apache::thrift::protocol::TBinaryProtocolT;
using apache::thrift::transport::TMemoryBuffer;

struct Body {
  uint8_t* bytes;
  uint32_t length;
};

// A length of four bytes, then that many bytes, each.
static std::vector<Body> bodies_of(std::string& input) {
  std::vector<Body> bodies;
  for (size_t at = 0; at + 4 <= input.size();) {
    const uint8_t* head = reinterpret_cast<uint8_t*>(&input[at]);
    uint32_t length = uint32_t(head[0]) << 24 | uint32_t(head[1]) << 16 | uint32_t(head[2]) << 8 | head[3];
    bodies.push_back({reinterpret_cast<uint8_t*>(&input[at + 4]), length});
    at += 4 + length;
  }
  return bodies;
}

int main(int count, char** words) {
  long rounds = count > 1 ? std::stol(words[1]) : 1;
  std::ios::sync_with_stdio(false);
  std::string input((std::istreambuf_iterator<char>(std::cin)), std::istreambuf_iterator<char>());
  size_t spans = 0;
  for (long round = 0; round < rounds; round++) {
    for (const Body& body : bodies_of(input)) {
      // The bytes are observed and not copied, by the concrete transport: the faster of the library's two ways.
      auto buffer = std::make_shared<TMemoryBuffer>(body.bytes, body.length, TMemoryBuffer::OBSERVE);
      TBinaryProtocolT<TMemoryBuffer> protocol(buffer);
      Batch batch;
      batch.read(&protocol);
      spans += batch.spans.size();
    }
  }
  std::cout << spans << "\n";
}
