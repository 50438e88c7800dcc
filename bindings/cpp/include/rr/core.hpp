/// The hub of a service: without a lock for one thread, or with one and with waits.
#ifndef RR_CORE_HPP
#define RR_CORE_HPP
#include "rr/result.hpp"
#include "rr/settings.hpp"
#include <chrono>
#include <condition_variable>
#include <memory>
#include <mutex>
#include <optional>
#include <utility>

namespace rr::detail {

using Clock = std::chrono::steady_clock;

/// Until when a call waits: endlessly if there is none.
using Deadline = std::optional<Clock::time_point>;

/// Returns the deadline of a call that begins now. One that the clock cannot count is endless.
template <typename Rep, typename Period>
Deadline deadline_after(std::chrono::duration<Rep, Period> timeout) {
    const Clock::time_point now = Clock::now();
    if (timeout <= timeout.zero()) {
        return now;
    }
    if (timeout > std::chrono::duration_cast<std::chrono::hours>(Clock::time_point::max() - now)) {
        return std::nullopt;
    }
    return now + std::chrono::ceil<Clock::duration>(timeout);
}

/// A hub. Its calls are passed what `rr.h` asks for: it lives, it does not move, and one call is made at a time.
class Hub {
  public:
    explicit Hub(rr_hub_t hub) noexcept : hub_(hub) {}
    Hub(const Hub&) = delete;
    Hub& operator=(const Hub&) = delete;
    ~Hub() { rr_hub_drop(hub_); }

    rr_hub_t* at() noexcept { return &hub_; }

  private:
    rr_hub_t hub_;
};

/// Threads that sleep until another one wakes them. Whoever calls has the lock, but for `wake`.
class Sleepers {
  public:
    bool exist() const noexcept { return count_ > 0; }

    /// Sleeps until it is woken, or until the deadline. Returns whether it was in time.
    bool sleep(std::unique_lock<std::mutex>& lock, const Deadline& deadline) {
        bool in_time = true;
        ++count_;
        if (deadline) {
            in_time = woken_.wait_until(lock, *deadline) == std::cv_status::no_timeout;
        } else {
            woken_.wait(lock);
        }
        --count_;
        return in_time;
    }

    void wake() noexcept { woken_.notify_all(); }

  private:
    std::condition_variable woken_;
    std::size_t count_ = 0;
};

/// The state of a service. It lives as long as a port factory, a port or a message of it.
///
/// `call` makes a call that ends no wait; `take` one that may make room, as a receive; `change` one that may end any wait.
template <ServiceType S>
class Core;

/// One thread has it at a time, so that no call takes a lock and none ends a wait.
template <>
class Core<ServiceType::Local> {
  public:
    explicit Core(rr_hub_t hub) noexcept : hub_(hub) {}

    template <typename Call>
    auto call(Call&& call) {
        return call(hub_.at());
    }

    template <typename Call>
    auto take(Call&& call) {
        return call(hub_.at());
    }

    template <typename Call>
    auto change(Call&& call) {
        return call(hub_.at());
    }

  private:
    Hub hub_;
};

/// Threads share it: each call is made under a lock.
template <>
class Core<ServiceType::LocalThreadsafe> {
  public:
    explicit Core(rr_hub_t hub) noexcept : hub_(hub) {}

    template <typename Call>
    auto call(Call&& call) {
        const std::lock_guard<std::mutex> lock(mutex_);
        return call(hub_.at());
    }

    template <typename Call>
    auto take(Call&& call) {
        std::unique_lock<std::mutex> lock(mutex_);
        auto result = call(hub_.at());
        unlock(lock, false);
        return result;
    }

    template <typename Call>
    auto change(Call&& call) {
        std::unique_lock<std::mutex> lock(mutex_);
        auto result = call(hub_.at());
        unlock(lock, true);
        return result;
    }

    /// Attempts to receive until the result is another one than RR_NOTHING, or the deadline has passed, and returns the last result. An
    /// attempt and the sleep after it are one critical section, so that no change comes in between unseen.
    template <typename Attempt>
    std::uint32_t wait_for_message(const Deadline& deadline, Attempt&& attempt) {
        std::unique_lock<std::mutex> lock(mutex_);
        std::uint32_t code = attempt(hub_.at());
        for (bool in_time = true; code == RR_NOTHING && in_time; code = attempt(hub_.at())) {
            // A receive of nothing may have dropped requests that no client waits for.
            for_room_.wake();
            in_time = for_messages_.sleep(lock, deadline);
        }
        unlock(lock, false);
        return code;
    }

    /// Attempts, which changes nothing, until the result is another one than RR_NOTHING, or the deadline has passed.
    template <typename Attempt>
    void wait_for_room(const Deadline& deadline, Attempt&& attempt) {
        std::unique_lock<std::mutex> lock(mutex_);
        while (attempt(hub_.at()) == RR_NOTHING && for_room_.sleep(lock, deadline)) {
        }
    }

  private:
    /// Gives the lock back, and wakes the threads whose wait may be over.
    void unlock(std::unique_lock<std::mutex>& lock, bool may_end_any) {
        const bool for_messages = may_end_any && for_messages_.exist(), for_room = for_room_.exist();
        lock.unlock();
        if (for_messages) {
            for_messages_.wake();
        }
        if (for_room) {
            for_room_.wake();
        }
    }

    Hub hub_;
    std::mutex mutex_;
    Sleepers for_messages_;
    Sleepers for_room_;
};

template <ServiceType S>
using CoreRef = std::shared_ptr<Core<S>>;

} // namespace rr::detail
#endif
