// Caches that are saved and loaded through ferretgold_file.hpp: by functions and by streams, with and
// without exceptions; what fails, what throws, and that nothing is left of it.
#include "ferretgold_file.hpp"
#include "heap.h"
#include "outlives.h"

#include <cstdint>
#include <cstdio>
#include <cstdlib>
#include <cstring>
#include <fstream>
#include <new>
#include <sstream>
#include <string>
#include <utility>
#include <vector>

namespace {

using ferretgold::cache;
using ferretgold::closed;

constexpr std::uint64_t ENTRIES = 20;
constexpr int ENOUGH = 100; // calls
int faults = 0;

void expect(int line, const char *what, bool is) {
    if (!is) {
        std::printf("file, line %d: not so: %s\n", line, what);
        faults++;
    }
}

#define EXPECT(what) expect(__LINE__, #what, static_cast<bool>(what))

// ---- Entries -----------------------------------------------------------------------------------

ferretgold_config small(std::uint64_t seed) {
    ferretgold_config config = FERRETGOLD_CONFIG;
    config.slots = 64;
    config.room = 8;
    config.shards = 1;
    config.capacity = 1000;
    config.seed = seed;
    return config;
}

std::string value_of(std::uint64_t number) {
    return std::string(number * 3, static_cast<char>('a' + number));
}

// A client of a cache with some entries, of which one was erased.
ferretgold::client filled(const cache &it) {
    ferretgold_status why{};
    ferretgold::client client = it.open_client(why);
    for (std::uint64_t number = 0; number < ENTRIES; number++) {
        const std::string value = value_of(number);
        EXPECT(client.insert({number, 1}, value.data(), value.size(), 7) == FERRETGOLD_OK);
    }
    EXPECT(client.erase({3, 1}, why) == 1);
    return client;
}

// What is left of such a cache.
closed made() {
    ferretgold_status why{};
    cache it(small(5), why);
    (void)filled(it);
    return it.close_keeping(why);
}

// How many entries a cache has, each with all of its bytes.
std::uint64_t whole(const cache &it) {
    ferretgold_status why{};
    ferretgold::client client = it.open_client(why);
    std::uint64_t found = 0;
    for (std::uint64_t number = 0; number < ENTRIES; number++) {
        char bytes[64];
        std::size_t length = 0;
        if (client.get({number, 1}, bytes, sizeof bytes, &length) == FERRETGOLD_OK) {
            EXPECT(std::string(bytes, length) == value_of(number) && number != 3);
            found++;
        }
    }
    return found;
}

// ---- Functions ---------------------------------------------------------------------------------

// A file in memory, of which one call fails.
struct image {
    std::string bytes;
    std::size_t at = 0;
    std::size_t calls_left = SIZE_MAX;

    bool operator()(const void *more, std::size_t count) {
        if (calls_left-- == 0) {
            return false;
        }
        bytes.append(static_cast<const char *>(more), count);
        return true;
    }

    std::size_t operator()(void *to, std::size_t count, bool &could) {
        if (calls_left-- == 0) {
            could = false;
            return 0;
        }
        const std::size_t read = bytes.copy(static_cast<char *>(to), count, at);
        at += read;
        return read;
    }
};

std::string saved() {
    ferretgold_file_status why = FERRETGOLD_FILE_NULL;
    image file;
    ferretgold::save(made(), file, why);
    EXPECT(why == FERRETGOLD_FILE_OK);
    return file.bytes;
}

// What is loaded of a file: how many entries, and with which status.
std::pair<std::uint64_t, ferretgold_file_status> loaded(image from, bool keep_front) {
    ferretgold_file_status why = FERRETGOLD_FILE_NULL;
    ferretgold_loaded counts{77, 77, 77};
    const cache it = ferretgold::load(small(9), from, keep_front, &counts, why);
    EXPECT(it.get() != nullptr || counts.entries == 77);
    EXPECT(it.get() == nullptr || (counts.left == whole(it) && counts.entries == counts.left));
    return {it.get() == nullptr ? 0 : counts.left, why};
}

void by_functions() {
    using result = std::pair<std::uint64_t, ferretgold_file_status>;
    const closed left = made();
    const std::string bytes = saved();
    ferretgold_file_status why = FERRETGOLD_FILE_OK;
    std::size_t calls = 0;
    for (; calls < ENOUGH; calls++) {
        image file{{}, 0, calls};
        ferretgold::save(left, file, why);
        if (why == FERRETGOLD_FILE_OK) {
            EXPECT(file.bytes == bytes);
            break;
        }
        EXPECT(why == FERRETGOLD_FILE_WRITE && file.bytes.size() < bytes.size());
    }
    EXPECT(calls == ENTRIES);
    calls = 0;
    while (calls < ENOUGH && loaded({bytes, 0, calls}, true) == result(0, FERRETGOLD_FILE_READ)) {
        calls++;
    }
    EXPECT(loaded({bytes, 0, calls}, true) == result(ENTRIES - 1, FERRETGOLD_FILE_OK));
    const std::string cut = bytes.substr(0, bytes.size() - 1);
    EXPECT(loaded({cut}, false) == result(0, FERRETGOLD_FILE_DAMAGED));
    EXPECT(loaded({cut}, true) == result(ENTRIES - 2, FERRETGOLD_FILE_DAMAGED));
    EXPECT(loaded({"no such file"}, true) == result(0, FERRETGOLD_FILE_KIND));
    ferretgold::save(closed(), image(), why);
    EXPECT(why == FERRETGOLD_FILE_NULL);
    image file{bytes};
    const cache none = ferretgold::load({}, file, true, nullptr, why);
    EXPECT(none.get() == nullptr && why == FERRETGOLD_FILE_REFUSED);
}

// ---- Streams -----------------------------------------------------------------------------------

// What takes bytes, and can't pass them on.
struct full : std::streambuf {
    std::streamsize xsputn(const char *, std::streamsize count) override { return count; }
    int sync() override { return -1; }
};

ferretgold_file_status saved_to(std::ostream &to) {
    ferretgold_file_status why = FERRETGOLD_FILE_NULL;
    ferretgold::save(made(), to, why);
    return why;
}

std::pair<std::uint64_t, ferretgold_file_status> loaded_from(std::istream &from, bool keep_front) {
    ferretgold_file_status why = FERRETGOLD_FILE_NULL;
    ferretgold_loaded counts{};
    const cache it = ferretgold::load(small(9), from, keep_front, &counts, why);
    EXPECT(it.get() == nullptr || counts.left == whole(it));
    return {it.get() == nullptr ? 0 : counts.left, why};
}

void by_streams(const char *path) {
    using result = std::pair<std::uint64_t, ferretgold_file_status>;
    const std::string bytes = saved();
    std::ostringstream text;
    std::ofstream to(path, std::ios::binary);
    EXPECT(saved_to(text) == FERRETGOLD_FILE_OK && text.str() == bytes);
    EXPECT(saved_to(to) == FERRETGOLD_FILE_OK && to.good());
    std::ifstream from(path, std::ios::binary);
    EXPECT(loaded_from(from, false) == result(ENTRIES - 1, FERRETGOLD_FILE_OK));
    EXPECT(from.eof() && !from.fail());
    std::ifstream missing(std::string(path) + ".missing", std::ios::binary);
    EXPECT(loaded_from(missing, true) == result(0, FERRETGOLD_FILE_READ));
    std::istringstream cut(bytes.substr(0, bytes.size() - 1)), other("no such file");
    EXPECT(loaded_from(cut, true) == result(ENTRIES - 2, FERRETGOLD_FILE_DAMAGED));
    EXPECT(loaded_from(other, true) == result(0, FERRETGOLD_FILE_KIND));
    std::istream none(nullptr);
    EXPECT(loaded_from(none, true) == result(0, FERRETGOLD_FILE_READ));
    full buffer;
    std::ostream nowhere(nullptr), unflushed(&buffer);
    EXPECT(saved_to(nowhere) == FERRETGOLD_FILE_WRITE);
    EXPECT(saved_to(unflushed) == FERRETGOLD_FILE_WRITE);
}

// ---- Exceptions --------------------------------------------------------------------------------

#ifdef __cpp_exceptions

bool refuses_new = false;

} // namespace

// What objects allocate is counted, too; the wrapper's requests may be refused. Where these were inline,
// the compiler would see that new and delete aren't its own.
[[gnu::noinline]] void *operator new(std::size_t bytes) {
    void *at = std::malloc(bytes);
    return at != nullptr ? at : throw std::bad_alloc();
}
[[gnu::noinline]] void *operator new(std::size_t bytes, const std::nothrow_t &) noexcept {
    return refuses_new ? nullptr : std::malloc(bytes);
}
[[gnu::noinline]] void operator delete(void *at) noexcept { std::free(at); }
[[gnu::noinline]] void operator delete(void *at, std::size_t) noexcept { std::free(at); }

namespace {

// The status that a call throws.
template <typename Call> int thrown(Call call) {
    try {
        call();
    } catch (const ferretgold::file_refused &why) {
        EXPECT(std::strcmp(why.what(), ferretgold_file_status_text(why.status)) == 0);
        return why.status;
    }
    return FERRETGOLD_FILE_OK;
}

void refusals() {
    const closed left = made();
    const std::string bytes = saved();
    std::istringstream from(bytes), again(bytes), other("no such file");
    std::ostringstream to;
    image file;
    ferretgold_loaded counts{};
    from.exceptions(std::ios::failbit | std::ios::badbit);
    ferretgold::save(left, to);
    ferretgold::save(left, file);
    EXPECT(to.str() == bytes && file.bytes == bytes);
    EXPECT(whole(ferretgold::load(small(9), from, &counts)) == ENTRIES - 1 && counts.lost == 0);
    EXPECT(whole(ferretgold::load(small(9), file)) == ENTRIES - 1);
    EXPECT(thrown([&] { ferretgold::save(closed(), to); }) == FERRETGOLD_FILE_NULL);
    EXPECT(thrown([&] { ferretgold::save(left, image{{}, 0, 3}); }) == FERRETGOLD_FILE_WRITE);
    EXPECT(thrown([&] { ferretgold::load(small(9), image{bytes, 0, 3}); }) == FERRETGOLD_FILE_READ);
    EXPECT(thrown([&] { ferretgold::load(small(9), other); }) == FERRETGOLD_FILE_KIND);
    EXPECT(thrown([&] { ferretgold::load({}, again); }) == FERRETGOLD_FILE_REFUSED);
    EXPECT(thrown([&] { ferretgold::load(small(9), image{bytes + "x"}); }) == FERRETGOLD_FILE_DAMAGED);
}

// What throws its number at one of its calls, and isn't called again.
struct thrower {
    image file;
    int calls_left;

    void call() {
        EXPECT(calls_left >= 0);
        if (calls_left-- == 0) {
            throw calls_left;
        }
    }

    bool operator()(const void *more, std::size_t count) {
        call();
        return file(more, count);
    }

    std::size_t operator()(void *to, std::size_t count, bool &could) {
        call();
        return file(to, count, could);
    }
};

// Whether a call throws what its function throws, and leaves no memory.
template <typename Call> bool throws(Call call) {
    const std::size_t blocks = heap_blocks;
    try {
        call();
    } catch (int it) {
        EXPECT(it == -1 && heap_blocks == blocks);
        return true;
    }
    return false;
}

void throwing() {
    const closed left = made();
    const std::string bytes = saved();
    ferretgold_file_status why{};
    int calls = 0;
    while (calls < ENOUGH && throws([&] { ferretgold::save(left, thrower{{}, calls}); })) {
        EXPECT(throws([&] { ferretgold::save(left, thrower{{}, calls}, why); }));
        calls++;
    }
    EXPECT(calls == ENTRIES);
    calls = 0;
    while (calls < ENOUGH && throws([&] { ferretgold::load(small(9), thrower{{bytes}, calls}); })) {
        EXPECT(throws([&] { ferretgold::load(small(9), thrower{{bytes}, calls}, true, nullptr, why); }));
        calls++;
    }
    EXPECT(calls > static_cast<int>(ENTRIES) && calls < ENOUGH);
}

// A stream that is to throw where it fails does so.
void throwing_streams() {
    std::istringstream cut(saved().substr(0, 100));
    full buffer;
    std::ostream unflushed(&buffer);
    cut.exceptions(std::ios::failbit);
    unflushed.exceptions(std::ios::badbit);
    int caught = 0;
    try {
        ferretgold::save(made(), unflushed);
    } catch (const std::ios::failure &) {
        caught++;
    }
    try {
        ferretgold::load(small(9), cut);
    } catch (const std::ios::failure &) {
        caught++;
    }
    EXPECT(caught == 2);
}

// The wrapper's own memory is refused: nothing is read.
void without_memory() {
    image file{saved()};
    ferretgold_file_status why{};
    refuses_new = true;
    const cache none = ferretgold::load(small(9), file, true, nullptr, why);
    refuses_new = false;
    EXPECT(none.get() == nullptr && why == FERRETGOLD_FILE_MEMORY && file.at == 0);
}

void exceptions() {
    refusals();
    throwing();
    without_memory();
    throwing_streams();
}

#else

void exceptions() {}

#endif

// ---- Dumps -------------------------------------------------------------------------------------

// A cache that runs is dumped to a path, and a stream of that file is loaded.
void dumps_bytes(const std::string &path) {
    using result = std::pair<std::uint64_t, ferretgold_file_status>;
    ferretgold_status why{};
    ferretgold_file_status status = FERRETGOLD_FILE_NULL;
    const cache it(small(5), why);
    const ferretgold::client client = filled(it);
    ferretgold::dump(client, path.c_str(), status);
    EXPECT(status == FERRETGOLD_FILE_OK);
    {
        std::ifstream from(path, std::ios::binary);
        EXPECT(loaded_from(from, false) == result(ENTRIES - 1, FERRETGOLD_FILE_OK));
    }
    ferretgold::dump(ferretgold::client(), path.c_str(), status);
    EXPECT(status == FERRETGOLD_FILE_NULL);
#ifdef __cpp_exceptions
    std::remove(path.c_str());
    EXPECT(thrown([&] { ferretgold::dump(client, path.c_str()); }) == FERRETGOLD_FILE_OK);
    EXPECT(std::ifstream(path).good());
    EXPECT(thrown([&] { ferretgold::dump(client, (path + ".none/it").c_str()); }) == FERRETGOLD_FILE_WRITE);
    EXPECT(thrown([&] { ferretgold::dump(ferretgold::client(), path.c_str()); }) == FERRETGOLD_FILE_NULL);
#endif
    std::remove(path.c_str());
}

// ---- Objects -----------------------------------------------------------------------------------

ferretgold::object_cache<std::string> texts() {
    ferretgold_object_config config = FERRETGOLD_OBJECT_CONFIG;
    ferretgold_status why{};
    config.slots = 64;
    config.shards = 1;
    config.clients = 2;
    config.handles = 4;
    config.capacity = 1000;
    return ferretgold::object_cache<std::string>(config, why);
}

// One is longer than what is copied at once.
std::string text_of(std::uint64_t number) {
    std::string it = value_of(number);
    while (number == 7 && it.size() < 9000) {
        it += std::to_string(it.size());
    }
    return it;
}

race_end race(void *path, const ferretgold_object_config *config, ferretgold_priority rival) {
    ferretgold_status why{};
    ferretgold_file_status status{};
    ferretgold::object_cache<std::string> cache(*config, why);
    const auto make = [](std::string_view it) { return std::make_unique<std::string>(it); };
    ferretgold::warm(cache, static_cast<const char *>(path), make, nullptr, status);
    EXPECT(status == FERRETGOLD_FILE_OK);
    return raced(cache.get(), rival);
}

// What comes back is of low priority.
void comes_back_low(std::string path) {
    ferretgold::object_cache<std::string> from = texts();
    ferretgold_file_status why{};
    const auto bytes = [](const std::string &it) { return std::string_view(it); };
    EXPECT(from.insert(racer_key(RACER), std::make_unique<std::string>("it"), 10) == FERRETGOLD_OK);
    ferretgold::dump(from, path.c_str(), bytes, why);
    EXPECT(uses_by(race, path.data()) == 2);
    std::remove(path.c_str());
}

// What finds no room, as all is held, isn't counted among what came in.
void finds_no_room(const std::string &path) {
    ferretgold::object_cache<std::string> from = texts();
    ferretgold_status why{};
    ferretgold_file_status status{};
    ferretgold_loaded loaded{};
    ferretgold_object_config config = from.config();
    config.slots = 8;
    config.handles = 6;
    ferretgold::object_cache<std::string> to(config, why);
    std::vector<ferretgold::pinned<std::string>> held;
    for (std::uint64_t number = 0; number < 6; number++) {
        held.push_back(to.insert_pinned({number, 3}, std::make_unique<std::string>(), 7, FERRETGOLD_LOW, nullptr, why));
    }
    EXPECT(from.insert({1, 2}, std::make_unique<std::string>("one"), 7) == FERRETGOLD_OK);
    ferretgold::dump(from, path.c_str(), [](const std::string &it) { return std::string_view(it); }, status);
    const auto make = [](std::string_view it) { return std::make_unique<std::string>(it); };
    ferretgold::warm(to, path.c_str(), make, &loaded, status);
    EXPECT(status == FERRETGOLD_FILE_OK && loaded.entries == 1 && loaded.left == 0 && loaded.lost == 1);
    std::remove(path.c_str());
}

// Dumps to a path and starts warm from there.
void dumps(const std::string &path) {
    ferretgold::object_cache<std::string> from = texts(), to = texts();
    ferretgold_file_status why{};
    ferretgold_loaded loaded{};
    for (std::uint64_t number = 0; number < ENTRIES; number++) {
        EXPECT(from.insert({number, 2}, std::make_unique<std::string>(text_of(number)), 7) == FERRETGOLD_OK);
    }
    const auto bytes = [](const std::string &it) { return std::string_view(it); };
    const auto make = [](std::string_view it) {
        return it.size() == 9 ? nullptr : std::make_unique<std::string>(it);
    };
    ferretgold::dump(from, path.c_str(), bytes, why);
    EXPECT(why == FERRETGOLD_FILE_OK);
    ferretgold::warm(to, path.c_str(), make, &loaded, why);
    EXPECT(why == FERRETGOLD_FILE_OK && loaded.entries == ENTRIES && loaded.left == ENTRIES - 1);
    for (std::uint64_t number = 0; number < ENTRIES; number++) {
        ferretgold_status found{};
        const auto it = to.lookup({number, 2}, found);
        EXPECT(number == 3 ? !it : it && *it == text_of(number) && it.charge() == 7);
    }
    ferretgold::warm(to, (path + ".none").c_str(), make, nullptr, why);
    EXPECT(why == FERRETGOLD_FILE_READ);
    std::remove(path.c_str());
}

#ifdef __cpp_exceptions
// What a function throws is thrown on, and a dump that it ended leaves the one before.
void thrown_from_dumps(const std::string &path) {
    ferretgold::object_cache<std::string> from = texts(), to = texts();
    const auto bytes = [](const std::string &it) { return std::string_view(it); };
    int asked = 0, made = 0, seen = 0;
    const auto throws = [&](const std::string &it) -> std::string_view {
        return ++asked == 2 ? throw std::runtime_error("bytes") : std::string_view(it);
    };
    from.insert({1, 2}, std::make_unique<std::string>("one"), 7);
    from.insert({2, 2}, std::make_unique<std::string>("two"), 7);
    ferretgold::dump(from, path.c_str(), bytes);
    try {
        ferretgold::dump(from, path.c_str(), throws);
    } catch (const std::runtime_error &why) {
        seen += std::strcmp(why.what(), "bytes") == 0;
    }
    try {
        ferretgold::warm(to, path.c_str(), [&](std::string_view) -> std::unique_ptr<std::string> { throw ++made; });
    } catch (int why) {
        seen += why == 1 && made == 1;
    }
    try {
        ferretgold::dump(from, (path + ".none/it").c_str(), bytes);
    } catch (const ferretgold::file_refused &why) {
        seen += why.status == FERRETGOLD_FILE_WRITE;
    }
    EXPECT(seen == 3 && asked == 2);
    ferretgold_loaded loaded{};
    const auto make = [](std::string_view it) { return std::make_unique<std::string>(it); };
    ferretgold::warm(to, path.c_str(), make, &loaded);
    EXPECT(loaded.entries == 2);
    std::remove(path.c_str());
}
#else
void thrown_from_dumps(const std::string &) {}
#endif

} // namespace

int main(int count, char **words) {
    if (count != 2) {
        std::fputs("usage: file PATH\n", stderr);
        return 2;
    }
    by_functions();
    by_streams(words[1]);
    exceptions();
    dumps_bytes(words[1] + std::string(".dump"));
    dumps(words[1] + std::string(".dump"));
    comes_back_low(words[1] + std::string(".dump"));
    finds_no_room(words[1] + std::string(".dump"));
    thrown_from_dumps(words[1] + std::string(".dump"));
    EXPECT(heap_blocks == 0);
    return faults == 0 ? 0 : 1;
}
