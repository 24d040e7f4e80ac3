// The wrapper where exceptions are off: what is refused is said, and objects go in any order.
#include "ferretgold.hpp"

#include <cstdio>
#include <cstring>

#ifdef __cpp_exceptions
#error this is compiled without exceptions
#endif

int main() {
    const ferretgold_key key = {1, 2};
    ferretgold_status why = FERRETGOLD_NULL;
    char bytes[8];
    ferretgold::handle held;
    {
        const auto config = ferretgold::config_for(1 << 20, 64, 1, why);
        const ferretgold::cache none(ferretgold_config{}, why), cache(config, why);
        ferretgold::client client = cache.open_client(why);
        if (none.get() != nullptr || why != FERRETGOLD_OK || client.lookup(key, why) ||
            why != FERRETGOLD_MISS) {
            return 1;
        }
        held = client.insert_pinned(key, "kept", 4, 4, FERRETGOLD_LOW, nullptr, why);
        if (cache.open_client(why) || why != FERRETGOLD_NO_CLIENT || client.erase(key, why) != 1) {
            return 2;
        }
    }
    if (held.read(bytes, sizeof bytes, why) != 4 || std::memcmp(bytes, "kept", 4) != 0) {
        return 3;
    }
    std::puts("kept");
    return 0;
}
