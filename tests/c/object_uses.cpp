// What a pointer of ferretgold_object.hpp, and an insertion, is for an entry where nothing more is said: how many
// uses it has then, by which of two goes first (outlives.h).
#include "ferretgold_object.hpp"
#include "outlives.h"

#include <cstdio>
#include <memory>
#include <utility>

long object_uses();

namespace {

using numbers = ferretgold::object_cache<int>;
using holding = ferretgold::pinned<int>;

struct way {
    const char *name;
    void (*put)(numbers &cache);
    int uses;
};

ferretgold_status why;

std::unique_ptr<int> one() { return std::make_unique<int>(1); }
ferretgold_key key() { return racer_key(RACER); }

void insert(numbers &cache) { (void)cache.insert(key(), one(), 10, FERRETGOLD_BOTTOM); }

// Its entry, inserted with one use.
holding found(numbers &cache) {
    insert(cache);
    return cache.lookup(key(), why);
}

// What is done with the entry, and the uses that it has then.
const way WAYS[] = {
    {"inserted", [](numbers &it) { (void)it.insert(key(), one(), 10); }, 2},
    {"inserted, high", [](numbers &it) { (void)it.insert(key(), one(), 10, FERRETGOLD_HIGH); }, 3},
    {"dropped",
     [](numbers &it) {
         (void)it.insert_pinned(key(), one(), 10, FERRETGOLD_LOW, nullptr, why);
     }, 2},
    {"released", [](numbers &it) { found(it).release(); }, 2},
    {"released as no use", [](numbers &it) { found(it).release(false); }, 1},
    {"found and dropped", [](numbers &it) { (void)found(it); }, 2},
    {"put in another's place",
     [](numbers &it) {
         holding held = found(it);
         held = holding();
     }, 2},
    {"held twice",
     [](numbers &it) {
         holding held = found(it), more = held.ref(why);
         held.release(false);
     }, 2},
    {"found in its slot",
     [](numbers &it) {
         insert(it);
         for (std::uint32_t slot = 0; slot < 16; slot++) {
             (void)it.pin_at(0, slot, why);
         }
     }, 2},
    {"not meant",
     [](numbers &it) {
         insert(it);
         (void)it.erase_where([](const ferretgold_key &) { return false; }, why);
     }, 1},
#ifdef __cpp_exceptions
    {"dropped, by the form that throws",
     [](numbers &it) { (void)it.insert_pinned(key(), one(), 10); }, 2},
#endif
};

race_end race(void *context, const ferretgold_object_config *config, ferretgold_priority rival) {
    numbers cache(*config, why);
    static_cast<const way *>(context)->put(cache);
    return raced(cache.get(), rival);
}

} // namespace

// How many ways are other than they should be.
long object_uses() {
    long faults = 0;
    for (way it : WAYS) {
        const int is = uses_by(race, &it);
        if (is != it.uses) {
            std::printf("object_uses.cpp: %s: %d uses and not %d\n", it.name, is, it.uses);
            faults++;
        }
    }
    return faults;
}
