/// Views of elements that lie one behind the other.
#ifndef RR_SLICE_HPP
#define RR_SLICE_HPP
#include <cstddef>
#include <iterator>
#include <type_traits>
#include <utility>

namespace rr {

/// A view of elements, as C++20's `std::span`. As a payload type, `Slice<T>` says that messages have any number of elements `T`.
template <typename T>
class Slice {
  public:
    using element_type = T;
    using value_type = std::remove_cv_t<T>;
    using iterator = T*;

    constexpr Slice() noexcept = default;
    constexpr Slice(T* data, std::size_t size) noexcept : data_(data), size_(size) {}

    /// Views an array, or a container whose elements lie one behind the other.
    template <typename Container, typename From = std::remove_pointer_t<decltype(std::data(std::declval<Container&>()))>,
              typename = std::enable_if_t<std::is_convertible_v<From (*)[], T (*)[]>>>
    constexpr Slice(Container&& container) noexcept : data_(std::data(container)), size_(std::size(container)) {}

    constexpr T* data() const noexcept { return data_; }
    constexpr std::size_t size() const noexcept { return size_; }
    constexpr bool empty() const noexcept { return size_ == 0; }
    constexpr T& operator[](std::size_t index) const noexcept { return data_[index]; }
    constexpr T* begin() const noexcept { return data_; }
    constexpr T* end() const noexcept { return data_ + size_; }

  private:
    T* data_ = nullptr;
    std::size_t size_ = 0;
};

template <typename Container>
Slice(Container&) -> Slice<std::remove_pointer_t<decltype(std::data(std::declval<Container&>()))>>;

namespace detail {

/// The payload of a message: one value.
template <typename T>
struct Payload {
    static_assert(std::is_trivially_copyable_v<T>, "a payload is trivially copyable: its bytes are all of it, and no destructor runs");
    static_assert(alignof(T) <= 16, "payloads are aligned to 16 bytes at most");
    static constexpr bool IS_SLICE = false;
    using Element = T;
    using View = const T&;
    using MutableView = T&;

    static View view(const Element* first, std::size_t) noexcept { return *first; }
    static MutableView view_mut(Element* first, std::size_t) noexcept { return *first; }
};

/// The payload of a message: any number of elements.
template <typename T>
struct Payload<Slice<T>> : Payload<T> {
    static_assert(!std::is_const_v<T>, "the elements of a message are written by its sender");
    static constexpr bool IS_SLICE = true;
    using Element = T;
    using View = Slice<const T>;
    using MutableView = Slice<T>;

    static View view(const Element* first, std::size_t size) noexcept { return {first, size}; }
    static MutableView view_mut(Element* first, std::size_t size) noexcept { return {first, size}; }
};

} // namespace detail
} // namespace rr
#endif
