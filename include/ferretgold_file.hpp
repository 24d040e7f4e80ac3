// ferretgold_file.hpp - a wrapper of ferretgold_file.h for C++17: a closed cache goes to a stream or to a
// function, and one that is opened begins with what comes from there; a cache of either kind is dumped to a
// path while it runs, and one of objects starts warm from there. What includes it is linked with
// libferretgold_file.a, which stands before libferretgold.
//
// ferretgold_file.h says what each call does, and for which keys. As in ferretgold.hpp a call has a last
// argument `why`, which gets its status, and, where exceptions are on, a form without it, which throws a
// refusal: ferretgold::file_refused. What the caller's own stream or function throws is thrown by both.
#ifndef FERRETGOLD_FILE_HPP
#define FERRETGOLD_FILE_HPP

#include "ferretgold.hpp"
#include "ferretgold_file.h"
#include "ferretgold_object.hpp"

#include <cstddef>
#include <cstdint>
#include <cstring>
#include <exception>
#include <istream>
#include <memory>
#include <ostream>
#include <stdexcept>
#include <string_view>
#include <type_traits>
#include <utility>

namespace ferretgold {

#ifdef __cpp_exceptions
// Why a cache wasn't saved or loaded.
class file_refused : public std::runtime_error {
  public:
    explicit file_refused(ferretgold_file_status why)
        : std::runtime_error(ferretgold_file_status_text(why)), status(why) {}
    const ferretgold_file_status status;
};
#endif

// A caller's function while C calls it. What it throws waits until C has returned: nothing unwinds
// through C, and a cache that is half loaded is closed.
template <typename Function> class called {
  public:
    explicit called(Function &function) noexcept : function_(function) {}

    static bool write(void *context, const void *bytes, std::size_t count) noexcept {
        bool could = false;
        return static_cast<called *>(context)->run([&](auto &to) { could = to(bytes, count); })
               && could;
    }

    static std::size_t read(void *context, void *bytes, std::size_t count, bool *could) noexcept {
        std::size_t has = 0;
        *could = static_cast<called *>(context)->run([&](auto &from) { has = from(bytes, count, *could); })
                 && *could;
        return has;
    }

    // Of an object, by a function that shows its bytes. What that throws ends the dump, as the one byte
    // that an object has then can't be copied.
    static std::uint64_t size(void *context, const ferretgold_object_handle *handle) noexcept {
        std::uint64_t size = 1;
        (void)static_cast<called *>(context)->run([&](auto &bytes) { size = bytes(*handle).size(); });
        return size;
    }

    static bool copy(void *context, const ferretgold_object_handle *handle, std::uint64_t offset, void *to,
                     std::size_t count) noexcept {
        return static_cast<called *>(context)->run(
            [&](auto &bytes) { std::memcpy(to, bytes(*handle).data() + offset, count); });
    }

    static bool make(void *context, const ferretgold_object_saved *saved) noexcept {
        bool is_placed = false;
        return static_cast<called *>(context)->run([&](auto &insert) { is_placed = insert(*saved); })
               && is_placed;
    }

    // Throws on what it threw.
    void end() const {
        if (thrown_) {
            std::rethrow_exception(thrown_);
        }
    }

  private:
    // Whether it returned: not again, once it threw.
    template <typename Call> bool run(Call call) noexcept {
        if (thrown_ != nullptr) {
            return false;
        }
#ifdef __cpp_exceptions
        try {
#endif
            call(function_);
#ifdef __cpp_exceptions
        } catch (...) {
            thrown_ = std::current_exception();
        }
#endif
        return thrown_ == nullptr;
    }

    Function &function_;
    std::exception_ptr thrown_;
};

// ---- Saving ------------------------------------------------------------------------------------

template <typename Write>
using is_write = std::enable_if_t<std::is_invocable_r_v<bool, Write &, const void *, std::size_t>>;

// Saves what is left of a cache by `write(bytes, count)`, which writes all these bytes and returns whether
// it could.
template <typename Write, typename = is_write<Write>>
void save(const closed &from, Write &&write, ferretgold_file_status &why) {
    called<std::remove_reference_t<Write>> to(write);
    why = ferretgold_save(from.get(), to.write, &to);
    to.end();
}

// The same to a stream, which is flushed.
inline void save(const closed &from, std::ostream &to, ferretgold_file_status &why) {
    const auto write = [&](const void *bytes, std::size_t count) {
        return !to.write(static_cast<const char *>(bytes), static_cast<std::streamsize>(count)).fail();
    };
    save(from, write, why);
    if (why == FERRETGOLD_FILE_OK && to.flush().fail()) {
        why = FERRETGOLD_FILE_WRITE;
    }
}

#ifdef __cpp_exceptions
// The same to either.
template <typename To> void save(const closed &from, To &&to) {
    ferretgold_file_status why{};
    save(from, to, why);
    if (why != FERRETGOLD_FILE_OK) {
        throw file_refused(why);
    }
}
#endif

// ---- Dumping -----------------------------------------------------------------------------------

// Dumps a cache that runs to a path, as ferretgold_dump does: a stream of that file is loaded.
inline void dump(const client &from, const char *path, ferretgold_file_status &why) noexcept {
    why = ferretgold_dump(from.get(), path, nullptr);
}

#ifdef __cpp_exceptions
inline void dump(const client &from, const char *path) {
    ferretgold_file_status why{};
    dump(from, path, why);
    if (why != FERRETGOLD_FILE_OK) {
        throw file_refused(why);
    }
}
#endif

// ---- Loading -----------------------------------------------------------------------------------

template <typename Read>
using is_read =
    std::enable_if_t<std::is_invocable_r_v<std::size_t, Read &, void *, std::size_t, bool &>>;

// Opens a cache with what `read(bytes, count, could)` reads: so many bytes, and fewer only at the end. It
// returns how many; `could` is true, and false after it where reading failed. `loaded` may be null. With
// `keep_front` a cache may come together with DAMAGED: it has what stood before the damage.
template <typename Read, typename = is_read<Read>>
cache load(const ferretgold_config &config, Read &&read, bool keep_front, ferretgold_loaded *loaded,
           ferretgold_file_status &why) {
    called<std::remove_reference_t<Read>> from(read);
    why = FERRETGOLD_FILE_MEMORY;
    cache it(shared_cache::by([&](ferretgold_cache *&opened) {
        why = ferretgold_load(&config, from.read, &from, keep_front, &opened, loaded);
    }));
    from.end();
    return it;
}

// The same from a stream, which is read to its end and hasn't failed then: a look ahead finds the end, as
// it makes no stream fail. A file that is cut off within an entry does, and where the stream throws that,
// it is thrown.
inline cache load(const ferretgold_config &config, std::istream &from, bool keep_front,
                  ferretgold_loaded *loaded, ferretgold_file_status &why) {
    const auto read = [&](void *bytes, std::size_t count, bool &could) {
        if (from.peek() != std::istream::traits_type::eof()) {
            from.read(static_cast<char *>(bytes), static_cast<std::streamsize>(count));
        }
        could = !from.bad() && (from.eof() || !from.fail());
        return static_cast<std::size_t>(from.gcount());
    };
    return load(config, read, keep_front, loaded, why);
}

#ifdef __cpp_exceptions
// The same from either, if it is whole: who wants what stood before damage takes a form with `why`.
template <typename From>
cache load(const ferretgold_config &config, From &&from, ferretgold_loaded *loaded = nullptr) {
    ferretgold_file_status why{};
    cache it = load(config, from, false, loaded, why);
    if (why != FERRETGOLD_FILE_OK) {
        throw file_refused(why);
    }
    return it;
}
#endif

// ---- Caches of objects -------------------------------------------------------------------------

// Dumps a cache to a path, as ferretgold_object_dump does: `bytes(object)` shows an object's bytes, which
// stay until it is asked again.
template <typename T, typename Bytes>
void dump(object_cache<T> &from, const char *path, Bytes &&bytes, ferretgold_file_status &why) {
    const auto show = [&](const ferretgold_object_handle &it) -> std::string_view {
        return bytes(*static_cast<const T *>(it.object));
    };
    called<decltype(show)> to(show);
    why = ferretgold_object_dump(from.get(), to.size, to.copy, &to, path, nullptr);
    to.end();
}

// Begins with such a dump, as ferretgold_object_warm does: `make(bytes)` makes the object of each entry,
// or null. Where it throws, those before are in the cache. `loaded` may be null.
template <typename T, typename Make>
void warm(object_cache<T> &to, const char *path, Make &&make, ferretgold_loaded *loaded,
          ferretgold_file_status &why) {
    const auto insert = [&](const ferretgold_object_saved &it) {
        std::unique_ptr<T> object = make(std::string_view(static_cast<const char *>(it.bytes), it.length));
        ferretgold_inserted came = FERRETGOLD_DROPPED;
        return object != nullptr
               && to.insert(it.key, std::move(object), it.charge, FERRETGOLD_LOW, &came) == FERRETGOLD_OK
               && came == FERRETGOLD_PLACED;
    };
    called<decltype(insert)> from(insert);
    why = ferretgold_object_warm(to.get(), path, from.make, &from, loaded);
    from.end();
}

#ifdef __cpp_exceptions
template <typename T, typename Bytes> void dump(object_cache<T> &from, const char *path, Bytes &&bytes) {
    ferretgold_file_status why{};
    dump(from, path, bytes, why);
    if (why != FERRETGOLD_FILE_OK) {
        throw file_refused(why);
    }
}

template <typename T, typename Make>
void warm(object_cache<T> &to, const char *path, Make &&make, ferretgold_loaded *loaded = nullptr) {
    ferretgold_file_status why{};
    warm(to, path, make, loaded, why);
    if (why != FERRETGOLD_FILE_OK) {
        throw file_refused(why);
    }
}
#endif

} // namespace ferretgold

#endif
