// Memory for one call at a time that grows where a call gives 12.
#ifndef RUMOSAYWE_EXAMPLES_GROWING_HPP
#define RUMOSAYWE_EXAMPLES_GROWING_HPP

#include <solid.hpp>

#include <utility>

namespace growing {

// What a room begins with, and the most it grows to: 109 MB with its answer. 12 also stands for what no room mends, such as a face's
// 129th corner, so that there must be a most.
constexpr std::size_t first_corners = 720, most_corners = std::size_t{1} << 18;

// A room with its answer memory. Threads need one each.
class Bench {
public:
    explicit Bench(std::size_t corners = first_corners, std::size_t most = most_corners)
        : most_(most), room_(corners), answer_(64 * corners)
    {
    }

    std::size_t corners() const { return room_.corners(); }

    // What call(room, answer) tells in the first room that it does not refuse by 12, or in the largest; throws std::bad_alloc where
    // memory ends before that.
    template <class Call>
    std::uint64_t run(Call call)
    {
        for (;;) {
            const std::uint64_t told = call(room_, std::span<std::uint8_t>(answer_));
            if (solid::number(told) != 12 || room_.corners() >= most_)
                return told;
            grow();
        }
    }

    // The answer of the last call.
    std::span<const std::uint8_t> answer(std::uint64_t told) const { return std::span(answer_).first(solid::bytes(told)); }

private:
    void grow()
    {
        const std::size_t corners = std::min(most_, 2 * std::max<std::size_t>(room_.corners(), 1));
        solid::Room room(corners);
        std::vector<std::uint8_t> answer(64 * corners);
        room_ = std::move(room);
        answer_ = std::move(answer);
    }

    std::size_t most_;
    solid::Room room_;
    std::vector<std::uint8_t> answer_;
};

} // namespace growing

#endif
