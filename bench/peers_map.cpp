// C++'s unordered_map, asked with a view of the code so that no string is made.
#include "peers.h"

#include <functional>
#include <string>
#include <string_view>
#include <unordered_map>

namespace {

struct Hash : std::hash<std::string_view> {
    using is_transparent = void;
};

using Map = std::unordered_map<std::string, std::int32_t, Hash, std::equal_to<>>;

std::string_view view(const std::uint8_t *code, std::size_t len)
{
    return {reinterpret_cast<const char *>(code), len};
}

void *build(const list *l)
{
    auto *map = new Map;
    map->reserve(l->n);
    for (std::size_t k = 0; k < l->n; k++)
        map->emplace(view(l->codes[k].bytes, l->codes[k].len), static_cast<std::int32_t>(k));
    return map;
}

void drop(void *structure)
{
    delete static_cast<Map *>(structure);
}

std::int32_t lookup(const void *structure, const std::uint8_t *code, std::size_t len)
{
    const auto &map = *static_cast<const Map *>(structure);
    auto entry = map.find(view(code, len));
    return entry == map.end() ? -1 : entry->second;
}

} // namespace

extern "C" const peer unordered_map = {"C++ unordered_map", build, drop, lookup};
