/* race-free: C++ threads, locks, condition variables, atomics and static variables */
#include <atomic>
#include <chrono>
#include <condition_variable>
#include <mutex>
#include <shared_mutex>
#include <string>
#include <thread>
#include <vector>

struct Base {
    virtual ~Base() = default;
    virtual int value() const { return 1; }
};

struct Derived : Base {
    int value() const override { return 2; }
};

static const std::string &text()
{
    static const std::string made = "a text that is longer than a short one";
    return made;
}

int main()
{
    std::mutex mutex;
    std::shared_mutex shared;
    std::condition_variable changed;
    std::atomic<int> ready{0};
    std::vector<int> words;
    std::vector<std::thread> threads;
    int is_done = 0, both = 0;
    size_t lengths[4];

    for (int at = 0; at < 4; at++)
        threads.emplace_back([&, at] {
            lengths[at] = text().size();
            Derived derived;
            {
                std::unique_lock<std::mutex> guard(mutex);
                words.push_back(derived.value());
                is_done++;
                changed.notify_all();
                changed.wait_for(guard, std::chrono::seconds(10), [&] { return is_done == 4; });
            }
            if (at % 2) {
                std::unique_lock<std::shared_mutex> guard(shared);
                both++;
            } else {
                std::shared_lock<std::shared_mutex> guard(shared);
                lengths[at] += both;
            }
            ready.fetch_add(1);
        });
    for (auto &thread : threads)
        thread.join();
    return words.size() != 4 || ready != 4;
}
