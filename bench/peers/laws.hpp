// laws.hpp - the laws by which blocks are read, of a cache or of a database. Each run draws the
// same.
#ifndef PEERS_LAWS_HPP
#define PEERS_LAWS_HPP

#include <algorithm>
#include <cmath>
#include <cstdint>
#include <vector>

namespace peers {

constexpr std::uint32_t blocks = 1 << 16;
constexpr std::uint32_t reads = 1'000'000;

// Numbers that follow from a seed, which isn't 0.
class numbers {
  public:
    explicit numbers(std::uint64_t seed = 4711) : state_(seed) {}

    std::uint64_t next() {
        state_ ^= state_ << 13;
        state_ ^= state_ >> 7;
        state_ ^= state_ << 17;
        return state_ * 0x2545'f491'4f6c'dd1d;
    }
    // At least 0 and below 1.
    double fraction() { return static_cast<double>(next() >> 11) / 9007199254740992.0; }

  private:
    std::uint64_t state_;
};

// Of so many, n is drawn about as often as (n + 1)^-theta says.
class zipf {
  public:
    explicit zipf(double theta, std::uint32_t many = blocks) : many_(many), theta_(theta) {
        for (std::uint32_t n = 1; n <= many; ++n) {
            sum_ += std::pow(n, -theta);
        }
        double two = 1 + std::pow(2, -theta);
        eta_ = (1 - std::pow(2.0 / many, 1 - theta)) / (1 - two / sum_);
    }

    std::uint32_t next(numbers &numbers) const {
        double part = numbers.fraction();
        if (part * sum_ < 1) {
            return 0;
        }
        if (part * sum_ < 1 + std::pow(0.5, theta_)) {
            return 1;
        }
        double at = many_ * std::pow(eta_ * part - eta_ + 1, 1 / (1 - theta_));
        return std::min(many_ - 1, static_cast<std::uint32_t>(at));
    }

  private:
    std::uint32_t many_;
    double theta_;
    double sum_ = 0;
    double eta_;
};

using drawn = std::vector<std::uint32_t>;

template <typename Next> drawn draw(Next next) {
    drawn all;
    all.reserve(reads);
    for (std::uint32_t n = 0; n < reads; ++n) {
        all.push_back(next(n));
    }
    return all;
}

inline drawn by_zipf(double theta) {
    zipf law(theta);
    numbers numbers;
    return draw([&](std::uint32_t) { return law.next(numbers); });
}

// Of every 20,000 reads 4,000 are one scan.
inline drawn with_scans(std::uint32_t) {
    zipf law(0.99);
    numbers numbers;
    std::uint32_t left = 0, at = 0;
    return draw([&](std::uint32_t n) {
        std::uint32_t block = law.next(numbers);
        if (n % 20'000 == 0) {
            left = 4000;
            at = static_cast<std::uint32_t>(numbers.next() % blocks);
        }
        if (left == 0) {
            return block;
        }
        --left;
        return at++ % blocks;
    });
}

inline drawn uniform(std::uint32_t) {
    numbers numbers;
    return draw([&](std::uint32_t) { return static_cast<std::uint32_t>(numbers.next() % blocks); });
}

// The same blocks again and again, 1.2 times as many as fit.
inline drawn loop(std::uint32_t fitting) {
    return draw([=](std::uint32_t n) { return n % (fitting * 6 / 5); });
}

// Half as many blocks as fit. Every 100,000 reads a tenth of them goes and others come.
inline drawn moving(std::uint32_t fitting) {
    numbers numbers;
    std::uint32_t hot = fitting / 2;
    return draw([=](std::uint32_t n) mutable {
        std::uint64_t first = n / 100'000 * (hot / 10);
        return static_cast<std::uint32_t>((first + numbers.next() % hot) % blocks);
    });
}

// Nine tenths as many blocks as fit. Every 100,000 reads all of them go and others come.
inline drawn replaced(std::uint32_t fitting) {
    numbers numbers;
    std::uint64_t hot = fitting * 9 / 10;
    return draw([=](std::uint32_t n) mutable {
        return static_cast<std::uint32_t>((n / 100'000 * hot + numbers.next() % hot) % blocks);
    });
}

struct law {
    const char *name;
    drawn (*draw)(std::uint32_t fitting);
};

constexpr law laws[] = {
    {"Zipf 0.7", [](std::uint32_t) { return by_zipf(0.7); }},
    {"Zipf 0.99", [](std::uint32_t) { return by_zipf(0.99); }},
    {"the same, with scans", with_scans},
    {"uniform", uniform},
    {"a loop", loop},
    {"a moving set", moving},
    {"a set replaced", replaced},
};

} // namespace peers

#endif
