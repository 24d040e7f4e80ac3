// Reads a file in blocks through the cache, in order and at random, and compares what it reads.
#include "ferretgold.hpp"

#include <algorithm>
#include <cstdint>
#include <cstdio>
#include <fstream>
#include <iostream>
#include <stdexcept>
#include <string>
#include <vector>

namespace {

constexpr std::size_t BLOCK = 4096;

// A file whose blocks are read through a client of a cache.
class block_file {
  public:
    block_file(std::ifstream &&file, std::uint64_t number, ferretgold::client &client)
        : file_(std::move(file)), number_(number), client_(client) {}

    // Reads a block, and tells how many bytes it has: fewer at the end, 0 past it.
    std::size_t read(std::uint64_t index, char *block) {
        const ferretgold_key key = {number_, index};
        if (ferretgold::handle found = client_.lookup(key)) {
            hits += 1;
            return found.read(block, BLOCK);
        }
        misses += 1;
        const std::size_t length = load(index, block);
        if (length != 0) {
            // Where it is refused or dropped it is loaded again next time.
            (void)client_.insert(key, block, length, static_cast<std::uint32_t>(length));
        }
        return length;
    }

    std::uint64_t hits = 0;
    std::uint64_t misses = 0;

  private:
    std::size_t load(std::uint64_t index, char *block) {
        file_.clear();
        file_.seekg(static_cast<std::streamoff>(index * BLOCK));
        file_.read(block, static_cast<std::streamsize>(BLOCK));
        if (file_.bad()) {
            throw std::runtime_error("the file can't be read");
        }
        return static_cast<std::size_t>(file_.gcount());
    }

    std::ifstream file_;
    std::uint64_t number_;
    ferretgold::client &client_;
};

// The bytes that the file is written with.
std::string content(std::size_t length) {
    std::string bytes(length, '\0');
    std::uint32_t state = 1;
    for (char &byte : bytes) {
        state = state * 1664525 + 1013904223;
        byte = static_cast<char>(state >> 24);
    }
    return bytes;
}

bool is_read_right(block_file &file, std::uint64_t index, const std::string &bytes) {
    std::vector<char> block(BLOCK);
    const std::size_t from = std::min(bytes.size(), static_cast<std::size_t>(index) * BLOCK);
    const std::size_t length = std::min(BLOCK, bytes.size() - from);
    return file.read(index, block.data()) == length &&
           std::equal(block.begin(), block.begin() + static_cast<std::ptrdiff_t>(length),
                      bytes.begin() + static_cast<std::ptrdiff_t>(from));
}

int run(const std::string &path) {
    const std::string bytes = content(100 * BLOCK + 1000);
    std::ofstream(path, std::ios::binary) << bytes;
    ferretgold_config config{};
    config.slots = 64;
    config.room = BLOCK / 8;
    config.clients = 1;
    config.handles = 4;
    config.shards = 1;
    config.strict = true;
    config.capacity = 40 * BLOCK; // less than the file
    config.serials = FERRETGOLD_MOST_SERIALS;
    ferretgold::cache cache(config);
    bool right = true;
    {
        ferretgold::client client = cache.open_client();
        block_file file(std::ifstream(path, std::ios::binary), 1, client);
        for (std::uint64_t round = 0; round < 3; round++) {
            for (std::uint64_t index = 0; index < 102; index++) {
                right = is_read_right(file, index, bytes) && right;
            }
        }
        for (std::uint64_t k = 0; k < 1000; k++) {
            right = is_read_right(file, k * k % 20, bytes) && right;
        }
        std::cout << "each block is right: " << (right ? "yes" : "no") << "\n"
                  << "1306 reads, " << file.hits + file.misses << " counted, more hits than misses: "
                  << (file.hits > file.misses ? "yes" : "no") << "\n";
    }
    const ferretgold_totals totals = cache.close();
    std::cout << "within the capacity: " << (totals.usage <= config.capacity ? "yes" : "no")
              << "\n";
    return right ? 0 : 1;
}

} // namespace

int main(int count, char **words) {
    const std::string path = count > 1 ? words[1] : "file_reader.data";
    try {
        const int status = run(path);
        std::remove(path.c_str());
        return status;
    } catch (const std::exception &why) {
        std::cerr << "file_reader: " << why.what() << "\n";
        return 1;
    }
}
