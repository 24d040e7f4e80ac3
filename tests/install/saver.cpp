// Saves a cache and begins another one with it, by what is installed.
#include <ferretgold_file.hpp>

#include <cstdio>
#include <sstream>

int main() {
    const ferretgold_config config = ferretgold::config_for(1 << 20, 64, 1);
    std::stringstream file;
    ferretgold::cache cache(config);
    if (cache.open_client().insert({7, 1}, "kept", 4, 4) != FERRETGOLD_OK) {
        return 1;
    }
    ferretgold::save(cache.close_keeping(), file);
    char value[4];
    std::size_t length = 0;
    const ferretgold::cache warm = ferretgold::load(config, file);
    if (warm.open_client().get({7, 1}, value, sizeof value, &length) != FERRETGOLD_OK) {
        return 2;
    }
    std::printf("%.*s\n", static_cast<int>(length), value);
    return 0;
}
